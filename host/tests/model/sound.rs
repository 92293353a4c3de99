//! Soundness of tables by the words of its definition.
use super::booked::{is_window, Line};
use super::{are_limits, factor, live, Book, Pattern};
use nigvalds::lent::{Record, Tables};

// The records of a chain, if all lie in range and it ends.
fn chain(next: &[u32], most: usize, head: u32) -> Option<Vec<usize>> {
    let (mut records, mut at) = (Vec::new(), head as usize);
    while at != 0 {
        if at > most || records.len() == most {
            return None;
        }
        records.push(at);
        at = next[at - 1] as usize;
    }
    Some(records)
}

// The chains from all heads, if they and the free chain share no record, hold each once, and free records are zero.
fn chains(next: &[u32], most: usize, heads: &[u32], free: u32, is_zero: impl Fn(usize) -> bool) -> Option<Vec<Vec<usize>>> {
    let all: Vec<Vec<usize>> = heads.iter().map(|h| chain(next, most, *h)).collect::<Option<_>>()?;
    let unused = chain(next, most, free)?;
    let mut seen: Vec<usize> = all.iter().flatten().chain(&unused).copied().collect();
    seen.sort_unstable();
    let once = seen.iter().copied().eq(1..=most);
    (once && unused.iter().all(|r| is_zero(*r))).then_some(all)
}

/// The columns that the book holds with their windows, if its part of the tables is sound and so are the windows: of a booked id a window, of another 0 and 0.
pub fn booked(r: Record, t: &Tables) -> Option<Book> {
    let free = |k: usize| t.book_rows[k - 1] == 0;
    let all = chains(&t.book_next, r.c as usize, &t.book_heads[..r.n as usize], r.book_free, free)?;
    let mut book = Book::new();
    for (k, records) in all.iter().enumerate() {
        let (first, second) = (t.windows[k], t.windows[r.n as usize + k]);
        if records.is_empty() && (first, second) != (0, 0) || !is_window(first, second) {
            return None;
        }
        let rows: Vec<u32> = records.iter().map(|k| t.book_rows[k - 1] as u32).collect();
        let in_range = rows.iter().all(|i| (1..=r.m).contains(i));
        if !in_range || rows.len() > 256 || rows.windows(2).any(|w| w[0] >= w[1]) {
            return None;
        }
        if !rows.is_empty() {
            book.insert(k as u32 + 1, Line { rows, first, second });
        }
    }
    Some(book)
}

/// The stored columns, if their part of the tables is sound.
pub fn stored(r: Record, t: &Tables) -> Option<Vec<Pattern>> {
    let free = |k: usize| t.rows[k - 1] == 0 && t.counts[k - 1] == 0;
    let all = chains(&t.next, r.f as usize, &t.heads[..r.m as usize], r.free, free)?;
    let entry = |k: &usize| (t.rows[k - 1] as u32, t.counts[k - 1] as u32);
    Some(all.iter().zip(&t.parents).map(|(records, p)| Pattern { entries: records.iter().map(entry).collect(), parent: *p as u32 }).collect())
}

/// The records of each stored column.
pub fn records(r: Record, t: &Tables) -> Vec<Vec<usize>> {
    t.heads[..r.m as usize].iter().map(|h| chain(&t.next, r.f as usize, *h).expect("sound tables")).collect()
}

/// The records of each id's column in the book.
pub fn book_records(r: Record, t: &Tables) -> Vec<Vec<usize>> {
    t.book_heads[..r.n as usize].iter().map(|h| chain(&t.book_next, r.c as usize, *h).expect("sound tables")).collect()
}

/// "Tables are sound if ..", of tables that are long enough, with the factor "for the live columns" at the record's clock. Limits that break the rule of an
/// opening, "and zeros, are unsound".
pub fn is_sound(r: Record, t: &Tables) -> bool {
    match (booked(r, t), stored(r, t)) {
        (Some(book), Some(stored)) => are_limits([r.grade2, r.grade3, r.grade4]) && stored == factor(r.m, &live(&book, r.clock)),
        _ => false,
    }
}
