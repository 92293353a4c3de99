//! Records and tables that 1 to 6 refuse, made of the example's: 5 rows, 8 ids, 9 factor records and 16 book records.
use super::world::CUTS;
use nigvalds::lent::{work_places, Record, Tables};

// What makes the tables unsound and keeps their lengths.
const DAMAGES: [fn(&mut Tables); 10] = [
    |t| t.parents[0] = 2,
    |t| t.heads[4] = 0,
    |t| t.rows[5] = 2,
    |t| t.counts[0] += 1,
    |t| t.next[0] = 1,
    |t| t.book_rows[0] = 2,
    |t| t.windows[0] = 1,
    |t| t.windows[3] = 1,
    |t| t.windows[15] = 1,
    |t| (t.windows[0], t.windows[8]) = (7, 9),
];

/// Hands on each of them with the places of a work table and the number that refuses it.
pub fn each_early(t: &Tables, record: Record, refused: fn(&Tables, Record, usize, u32)) {
    let places = work_places(5, 8, 9, 16);
    refused(t, Record { m: 0, n: 0, ..record }, places, 1);
    refused(t, Record { m: 4097, ..record }, 0, 1);
    refused(t, Record { n: 16385, f: 4, ..record }, places, 2);
    refused(t, Record { f: 4, c: 0, ..record }, places, 3);
    refused(t, Record { f: 0, ..record }, places, 3);
    refused(t, Record { c: 262145, ..record }, places, 4);
    refused(t, Record { m: 6, ..record }, places, 5);
    refused(t, record, places - 1, 5);
    for cut in CUTS {
        let mut short = t.clone();
        cut(&mut short);
        refused(&short, record, places, 5);
    }
    for damage in DAMAGES {
        let mut damaged = t.clone();
        damage(&mut damaged);
        refused(&damaged, record, places + 3, 6);
    }
    refused(t, Record { grade2: 0, ..record }, places + 3, 6);
}

/// A work table that was lent full of 9 is left as 1 to 6 leave it: under 6 its first W places are zero, otherwise it is as it was.
pub fn work_stays(record: Record, number: u32, work: &[u32]) -> bool {
    let cleared = if number == 6 { work_places(record.m, record.n, record.f, record.c) } else { 0 };
    work[..cleared].iter().all(|x| *x == 0) && work[cleared..].iter().all(|x| *x == 9)
}
