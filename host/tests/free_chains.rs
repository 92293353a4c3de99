//! The read-through of free chains whose damage no count shows, or which would be long to walk: a column that ends with the free chain's last record, and rings
//! in every block of 1,024 free records.
mod model;

use model::judging::{book_for, judged, laid, LARGE, PARTS, SMALL};
use model::laid::{Laid, Link, Order, Part};
use model::random::Random;
use model::{Book, Sizes, OLD_LIMITS};
use nigvalds::Factor;

// The free chain's last record becomes that of each column: it is led to from the column's last record but one, or its head, and gets row and multiplicity of
// the column's old last record, which is zero then and in no chain. All sizes, last records, zero rows and the free chain's length fit; the last record of
// the free chain has a row. Where the free chain ends with the old last record instead, all is sound again.
fn into_the_free_chain(x: &mut Laid, part: Part, random: &mut Random) {
    let unused = x.chain(part, Link::Free);
    let (end, before) = (unused[unused.len() - 1], unused.iter().rev().nth(1).map_or(Link::Free, |r| Link::Next(*r)));
    for (k, column) in x.columns(part) {
        let (old, link) = (column[column.len() - 1], column.iter().rev().nth(1).map_or(Link::Head(k), |r| Link::Next(*r)));
        let mut y = x.clone();
        *y.link(part, link) = end;
        (*y.row(part, end), *y.row(part, old)) = (*x.row(part, old), 0);
        if part == Part::Factor {
            y.tables.counts.swap(end as usize - 1, old as usize - 1);
        }
        assert_eq!(y.chain(part, Link::Free), unused);
        assert_eq!(y.chain(part, Link::Head(k)).len(), column.len());
        assert!(!judged(&y, random), "{part:?}: column {k} ends with record {end} of the free chain");
        *y.link(part, before) = old;
        assert!(judged(&y, random), "{part:?}: column {k} has taken record {end}");
    }
}

#[test]
fn a_column_into_the_free_chain() {
    let mut random = Random::new(1);
    for s in [SMALL].into_iter().chain(LARGE) {
        for order in [Order::Rising, Order::Falling, Order::Random, Order::Random] {
            let mut x = laid(s, order, &mut random);
            for part in PARTS {
                into_the_free_chain(&mut x, part, &mut random);
            }
        }
    }
}

// The same where one record is free, or two.
#[test]
fn a_column_into_a_short_free_chain() {
    let mut random = Random::new(2);
    for _ in 0..10 {
        let (book, clock) = (book_for(SMALL, &mut random), random.minute());
        let records = model::size(&model::factor(SMALL.m, &model::live(&book, clock))) as u32;
        let booked = book.values().map(|line| line.rows.len()).sum::<usize>() as u32;
        for (f, c) in [(records + 1, booked + 1), (records + 2, booked + 2)] {
            let mut x = Laid::out(Sizes { f, c, ..SMALL }, OLD_LIMITS, &book, clock, Order::Random, &mut random);
            for part in PARTS {
                into_the_free_chain(&mut x, part, &mut random);
            }
        }
    }
}

// The last record of each block from this one on leads back to the second of the block: whoever starts at the first goes round.
fn with_rings(x: &Laid, part: Part, first: u32) -> Laid {
    let mut y = x.clone();
    for block in first..x.most(part) / 1024 {
        *y.link(part, Link::Next(1024 * block + 1024)) = 1024 * block + 2;
    }
    y
}

// The largest tables, fresh, one row or some: records of columns come first, so that with one row every block has its ring, and the free head leads into one.
#[test]
fn rings_in_every_free_block() {
    let mut random = Random::new(3);
    for m in [1, 30] {
        let s = Sizes { m, n: 20, f: Factor::MOST_RECORDS, c: Factor::MOST_BOOKED };
        let x = Laid::out(s, OLD_LIMITS, &Book::new(), 0, Order::Rising, &mut random);
        assert!(judged(&x, &mut random));
        for part in PARTS {
            let first = if part == Part::Factor && m > 1 { 1 } else { 0 };
            assert!(!judged(&with_rings(&x, part, first), &mut random), "{part:?}: rings from block {first} on");
        }
    }
}
