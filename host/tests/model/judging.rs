//! Laid-out tables beside the definition of soundness: what check must answer of them, and write.
use super::booked::{always, chosen, Line};
use super::laid::{Laid, Order, Part};
use super::random::Random;
use super::sound::is_sound;
use super::world::BEYOND;
use super::{Book, Sizes, OLD_LIMITS};
use nigvalds::lent::{work_places, Record, Reply};

pub const PARTS: [Part; 2] = [Part::Factor, Part::Book];
pub const SMALL: Sizes = Sizes { m: 14, n: 12, f: 120, c: 90 };
/// Records around a multiple of 1,024; more than 16 times that.
pub const LARGE: [Sizes; 4] = [
    Sizes { m: 30, n: 20, f: 8192, c: 8192 },
    Sizes { m: 30, n: 20, f: 8193, c: 10241 },
    Sizes { m: 30, n: 20, f: 9300, c: 9215 },
    Sizes { m: 30, n: 20, f: 17500, c: 17409 },
];

// A work table of any contents, also of such as a read-through might have left: numbers of columns, ids or records.
fn work_for(r: Record, random: &mut Random) -> Vec<u32> {
    let places = work_places(r.m, r.n, r.f, r.c) + BEYOND;
    match random.within(1, 6) {
        1 => random.contents(places),
        2 => vec![random.within(0, r.m); places],
        3 => vec![random.within(0, r.f); places],
        4 => (0..places as u32).collect(),
        5 => vec![u32::MAX; places],
        _ => (0..places as u32).map(|k| k % (r.m.max(r.n) + 1)).collect(),
    }
}

/// Whether the tables are sound: by the definition, and by a check, which writes nothing but zeros to the places of the work table.
pub fn judged(laid: &Laid, random: &mut Random) -> bool {
    let (sound, before, lent) = (is_sound(laid.record, &laid.tables), laid.clone(), work_for(laid.record, random));
    let (mut work, places) = (lent.clone(), lent.len() - BEYOND);
    let reply = laid.tables.check(laid.record, &mut work);
    assert_eq!(reply, Reply { number: if sound { 0 } else { 6 }, value: 0 });
    assert!(*laid == before);
    assert!(work[..places].iter().all(|x| *x == 0));
    assert_eq!(work[places..], lent[places..]);
    sound
}

/// Booked columns: some share rows, so that columns of L have children and several records; some ids are not booked, and some windows do not count.
pub fn book_for(s: Sizes, random: &mut Random) -> Book {
    let ids = random.rising(s.n * 2 / 3, s.n);
    ids.into_iter()
        .map(|id| {
            let k = random.within(1, 5.min(s.m));
            let (rows, (first, second)) = (random.rising(k, s.m), random.window());
            (id, Line { rows, first, second })
        })
        .collect()
}

/// Sound tables of such columns.
pub fn laid(s: Sizes, order: Order, random: &mut Random) -> Laid {
    let (book, clock) = (book_for(s, random), random.minute());
    Laid::out(s, OLD_LIMITS, &book, clock, order, random)
}

/// The same without windows: every row of the book shows in the factor.
pub fn laid_always(s: Sizes, order: Order, random: &mut Random) -> Laid {
    let book = always(&chosen(&book_for(s, random), |_| true));
    Laid::out(s, OLD_LIMITS, &book, 0, order, random)
}
