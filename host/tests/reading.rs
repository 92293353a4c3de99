//! The read-through of all tables, on chains damaged in every way: check answers 6 exactly if the definition says that the tables are not sound, leaves every
//! table as lent and the work table zero. Small tables, and large ones with few columns, whose free chains may be read in pieces.
mod model;

use model::booked::always;
use model::judging::{book_for, judged, laid, laid_always, LARGE, PARTS, SMALL};
use model::laid::{Laid, Link, Order, Part};
use model::random::Random;
use model::{Book, Live, Sizes, OLD_LIMITS};

const ORDERS: [Order; 5] = [Order::Rising, Order::Falling, Order::Strides(7), Order::Strides(1024), Order::Random];

// The records whose places are multiples of 1,024, and those before and after.
fn around_cuts(most: u32) -> Vec<u32> {
    (0..=most / 1024).flat_map(|k| [1024 * k, 1024 * k + 1, 1024 * k + 2]).filter(|r| (1..=most).contains(r)).collect()
}

// First, middle and last.
fn some_of(chain: &[u32]) -> Vec<u32> {
    [0, chain.len() / 2, chain.len().saturating_sub(1)].into_iter().filter_map(|k| chain.get(k).copied()).collect()
}

// Some records of the pool: of the two longest columns, of the free chain.
fn some_records(x: &mut Laid, part: Part) -> Vec<u32> {
    let mut columns = x.columns(part);
    columns.sort_by_key(|c| c.1.len());
    let unused = x.chain(part, Link::Free);
    columns.iter().rev().take(2).map(|c| &c.1).chain([&unused]).flat_map(|c| some_of(c)).collect()
}

// A link to each of some records, to itself, past the next record, out of range: of sound tables every change of one link makes unsound ones, since a record
// is then led to twice or not at all.
fn change_link(x: &Laid, part: Part, link: Link, targets: &[u32], random: &mut Random) {
    let (mut y, most) = (x.clone(), x.most(part));
    let was = *y.link(part, link);
    let past = if was == 0 { 0 } else { *y.link(part, Link::Next(was)) };
    let own = if let Link::Next(r) = link { r } else { past };
    for target in targets.iter().copied().chain([0, own, past, most, most + 1, most + 2, 1 << 31, u32::MAX]) {
        *y.link(part, link) = target;
        assert_eq!(judged(&y, random), target == was, "{part:?}: {link:?} leads to {target} instead of {was}");
    }
}

#[test]
fn any_order_is_sound() {
    let mut random = Random::new(1);
    let tiny = [(1, 1, 1, 1), (1, 1, 2, 1), (1, 3, 1, 3), (2, 1, 2, 2), (3, 16384, 6, 2), (1, 16384, 1, 16384), (2, 2, 3, 20000)];
    let tiny = tiny.map(|(m, n, f, c)| Sizes { m, n, f, c });
    for s in tiny.into_iter().chain([SMALL]).chain(LARGE) {
        for order in ORDERS {
            assert!(judged(&Laid::out(s, OLD_LIMITS, &Book::new(), 0, order, &mut random), &mut random), "fresh: {s:?}, {order:?}");
            let first = always(&[(1, vec![1])].into());
            assert!(judged(&Laid::out(s, OLD_LIMITS, &first, u32::MAX, order, &mut random), &mut random), "one column: {s:?}, {order:?}");
            let whole = s == SMALL || LARGE.contains(&s);
            assert!(!whole || judged(&laid(s, order, &mut random), &mut random), "{s:?}, {order:?}");
        }
    }
}

// Rings, shared tails, columns that run into the free chain, a free chain that runs into a column or leaves a record out, heads and nexts out of range: each
// link of small tables.
#[test]
fn every_link_of_small_tables() {
    let mut random = Random::new(2);
    for order in [Order::Rising, Order::Random, Order::Random] {
        let mut x = laid(SMALL, order, &mut random);
        for part in PARTS {
            let heads = if part == Part::Factor { SMALL.m } else { SMALL.n };
            let (targets, most) = (some_records(&mut x, part), x.most(part));
            for link in (1..=heads).map(Link::Head).chain((1..=most).map(Link::Next)).chain([Link::Free]) {
                change_link(&x, part, link, &targets, &mut random);
            }
        }
    }
}

// The same where the free chain is long: links of columns, of the free chain's ends, of records around the multiples of 1,024.
#[test]
fn links_of_large_tables() {
    let mut random = Random::new(3);
    for (s, order) in LARGE.into_iter().zip([Order::Rising, Order::Random, Order::Falling, Order::Random]) {
        let mut x = laid(s, order, &mut random);
        for part in PARTS {
            let (records, cuts) = (some_records(&mut x, part), around_cuts(x.most(part)));
            let targets = [&records[..2], &records[records.len() - 3..], &cuts[..2], &cuts[cuts.len() - 2..]].concat();
            for link in records.iter().chain(&cuts).map(|r| Link::Next(*r)).chain([Link::Free, Link::Head(1), Link::Head(7)]) {
                change_link(&x, part, link, &targets, &mut random);
            }
        }
    }
}

// Two nexts exchanged, then put back: two of the free chain make a ring of what lies between.
#[test]
fn exchanged_nexts() {
    let mut random = Random::new(4);
    for s in [SMALL, LARGE[1], LARGE[3]] {
        let mut x = laid(s, Order::Random, &mut random);
        for part in PARTS {
            let (unused, most, cuts) = (x.chain(part, Link::Free), x.most(part), around_cuts(x.most(part)));
            for k in 0..60 {
                let any = [random.within(1, most), random.within(1, most)];
                let [a, b] = match k % 4 {
                    0 => any,
                    1 => [random.one(&cuts), any[0]],
                    2 => [unused[random.within(1, unused.len() as u32 - 1) as usize], unused[0]],
                    _ => [random.one(&unused), random.one(&unused)],
                };
                let mut y = x.clone();
                let (p, q) = (*y.link(part, Link::Next(a)), *y.link(part, Link::Next(b)));
                (*y.link(part, Link::Next(a)), *y.link(part, Link::Next(b))) = (q, p);
                assert!(!judged(&y, &mut random) || p == q || (!unused.contains(&a) && !unused.contains(&b)), "{part:?}: nexts of {a} and {b}");
            }
        }
    }
}

// Heads exchanged: of two columns of L unsound; of two ids as the definition says, and with their minutes sound, since the same columns are live.
#[test]
fn exchanged_heads() {
    let mut random = Random::new(5);
    let x = laid(SMALL, Order::Random, &mut random);
    for part in PARTS {
        let heads = if part == Part::Factor { SMALL.m } else { SMALL.n };
        for (a, b) in (1..=heads).flat_map(|a| (1..a).map(move |b| (a, b))) {
            let mut y = x.clone();
            let (p, q) = (*y.link(part, Link::Head(a)), *y.link(part, Link::Head(b)));
            (*y.link(part, Link::Head(a)), *y.link(part, Link::Head(b))) = (q, p);
            let sound = judged(&y, &mut random);
            assert!(part == Part::Book || !sound);
            if part == Part::Book {
                [0, SMALL.n].iter().for_each(|k| y.tables.windows.swap((k + a) as usize - 1, (k + b) as usize - 1));
                assert!(judged(&y, &mut random), "ids {a} and {b}");
            }
        }
    }
}

// A free record with a row or a multiplicity, a record of a column with none: any record of small tables, and records around the multiples of 1,024.
#[test]
fn rows_and_multiplicities() {
    let mut random = Random::new(6);
    for s in [SMALL].into_iter().chain(LARGE) {
        let mut x = laid_always(s, Order::Random, &mut random);
        for part in PARTS {
            let most = x.most(part);
            let records = if s == SMALL { (1..=most).collect() } else { [some_records(&mut x, part), around_cuts(most)].concat() };
            for r in records {
                for row in [0, 1, s.m, s.m + 1, 65535] {
                    let mut y = x.clone();
                    *y.row(part, r) = row as u16;
                    assert_eq!(judged(&y, &mut random), y == x, "{part:?}: record {r} has row {row}");
                }
                for count in [0, 1, 2, 65535].into_iter().filter(|_| part == Part::Factor) {
                    let mut y = x.clone();
                    y.tables.counts[r as usize - 1] = count;
                    assert_eq!(judged(&y, &mut random), y == x, "record {r} has multiplicity {count}");
                }
            }
        }
    }
}

// The same of the book where some windows do not count: an id's rows may be others then.
#[test]
fn rows_outside_their_windows() {
    let (mut random, mut found) = (Random::new(15), [0; 2]);
    for _ in 0..10 {
        let mut x = laid(SMALL, Order::Random, &mut random);
        for (id, column) in x.columns(Part::Book) {
            let dormant = !model::sound::booked(x.record, &x.tables).unwrap()[&id].counts_at(x.record.clock);
            for r in &column {
                for row in 0..=SMALL.m + 1 {
                    let mut y = x.clone();
                    *y.row(Part::Book, *r) = row as u16;
                    let sound = judged(&y, &mut random);
                    assert!(dormant || sound == (y == x), "id {id}: record {r} has row {row}");
                    found[usize::from(sound)] += u32::from(dormant && y != x);
                }
            }
        }
    }
    assert!(found.iter().all(|n| *n > 100), "{found:?}");
}

// Two columns whose last entries are alike end with the same record. The other one is left in no chain, with its row or without, or is free: then all lengths
// and all rows but one may fit.
#[test]
fn one_last_record_for_two() {
    let (mut random, mut tried) = (Random::new(7), [0; 2]);
    for k in 0..40 {
        let mut x = laid(if k % 10 == 0 { LARGE[2] } else { SMALL }, Order::Random, &mut random);
        for (part, tried) in PARTS.into_iter().zip(&mut tried) {
            let columns: Vec<Vec<u32>> = x.columns(part).into_iter().map(|c| c.1).filter(|c| c.len() > 1).collect();
            let mut entry = |r: u32| (*x.row(part, r), if part == Part::Factor { x.tables.counts[r as usize - 1] } else { 0 });
            let alike = |a: &[u32], b: &[u32], entry: &mut dyn FnMut(u32) -> (u16, u16)| entry(a[a.len() - 1]) == entry(b[b.len() - 1]);
            let pairs = columns.iter().enumerate().flat_map(|(i, a)| columns[..i].iter().map(move |b| (a, b)));
            let pairs: Vec<_> = pairs.filter(|(a, b)| alike(a, b, &mut entry)).collect();
            for (a, b) in pairs {
                let (kept, lost) = (a[a.len() - 1], b[b.len() - 1]);
                let mut y = x.clone();
                *y.link(part, Link::Next(b[b.len() - 2])) = kept;
                assert!(!judged(&y, &mut random));
                *y.row(part, lost) = 0;
                assert!(!judged(&y, &mut random));
                if part == Part::Factor {
                    y.tables.counts[lost as usize - 1] = 0;
                }
                assert!(!judged(&y, &mut random));
                *y.link(part, Link::Next(lost)) = *y.link(part, Link::Free);
                *y.link(part, Link::Free) = lost;
                assert!(!judged(&y, &mut random));
                *tried += 1;
            }
        }
    }
    assert!(tried[0] > 50 && tried[1] > 50, "{tried:?}");
}

// The free chain loses some records, in a ring or to an end of their own, and ends with as many of a column: its length fits.
#[test]
fn free_chain_into_a_column() {
    let mut random = Random::new(8);
    for s in [SMALL].into_iter().chain(LARGE) {
        for order in [Order::Rising, Order::Random] {
            let mut x = laid(s, order, &mut random);
            for part in PARTS {
                let (unused, columns) = (x.chain(part, Link::Free), x.columns(part));
                for column in columns.iter().map(|c| &c.1) {
                    for k in 1..=column.len().min(4) {
                        let (out, last) = (&unused[..k], unused[unused.len() - 1]);
                        for after in [out[0], 0, out[k - 1], unused[k]] {
                            let mut y = x.clone();
                            *y.link(part, Link::Free) = unused[k];
                            *y.link(part, Link::Next(out[k - 1])) = after;
                            assert!(!judged(&y, &mut random), "{k} records lost");
                            *y.link(part, Link::Next(last)) = column[column.len() - k];
                            assert!(!judged(&y, &mut random), "{k} records lost, {k} of a column met");
                        }
                    }
                }
            }
        }
    }
}

// The free chain takes a column's last record: one long, where the column is one short.
#[test]
fn free_chain_takes_a_record() {
    let mut random = Random::new(9);
    for s in [SMALL, LARGE[0], LARGE[2]] {
        let mut x = laid_always(s, Order::Random, &mut random);
        for part in PARTS {
            let last = *x.chain(part, Link::Free).last().unwrap();
            for column in x.columns(part).into_iter().map(|c| c.1).filter(|c| c.len() > 1) {
                let (before, taken) = (column[column.len() - 2], column[column.len() - 1]);
                let mut y = x.clone();
                *y.link(part, Link::Next(before)) = 0;
                assert!(!judged(&y, &mut random));
                *y.link(part, Link::Next(last)) = taken;
                assert!(!judged(&y, &mut random));
                *y.row(part, taken) = 0;
                assert!(!judged(&y, &mut random));
                if part == Part::Factor {
                    y.tables.counts[taken as usize - 1] = 0;
                    assert!(!judged(&y, &mut random));
                }
            }
        }
    }
}

// A column's entry becomes another row of multiplicity 0: as many records as before, and every multiplicity that stands fits. Its parent may follow.
#[test]
fn entries_that_count_nothing() {
    let mut random = Random::new(10);
    for _ in 0..20 {
        let mut x = laid(SMALL, Order::Random, &mut random);
        for (j, column) in x.columns(Part::Factor) {
            for r in &column[1..] {
                for row in j + 1..=SMALL.m {
                    let mut y = x.clone();
                    if y.tables.parents[j as usize - 1] == *y.row(Part::Factor, *r) {
                        y.tables.parents[j as usize - 1] = row as u16;
                    }
                    *y.row(Part::Factor, *r) = row as u16;
                    y.tables.counts[*r as usize - 1] = 0;
                    assert!(!judged(&y, &mut random));
                }
            }
        }
    }
}

// Two entries of a column of L, or two rows of an id, exchanged: all are there, but they do not rise.
#[test]
fn entries_out_of_order() {
    let mut random = Random::new(14);
    for _ in 0..5 {
        let mut x = laid(SMALL, Order::Random, &mut random);
        for part in PARTS {
            for column in x.columns(part).into_iter().map(|c| c.1) {
                for (a, b) in column.iter().enumerate().flat_map(|(k, a)| column[..k].iter().map(move |b| (*a, *b))) {
                    let mut y = x.clone();
                    (*y.row(part, a), *y.row(part, b)) = (*x.row(part, b), *x.row(part, a));
                    if part == Part::Factor {
                        y.tables.counts.swap(a as usize - 1, b as usize - 1);
                    }
                    assert!(!judged(&y, &mut random));
                }
            }
        }
    }
}

// No free record in one pool or in both; a free head leads somewhere then.
#[test]
fn full_pools() {
    let mut random = Random::new(11);
    for _ in 0..20 {
        let (book, clock) = (book_for(SMALL, &mut random), random.minute());
        let records = model::size(&model::factor(SMALL.m, &model::live(&book, clock))) as u32;
        let booked = book.values().map(|line| line.rows.len()).sum::<usize>() as u32;
        for (f, c) in [(records, SMALL.c), (SMALL.f.max(records), booked), (records, booked), (records + 1, booked + 1)] {
            let mut x = Laid::out(Sizes { f, c, ..SMALL }, OLD_LIMITS, &book, clock, Order::Random, &mut random);
            assert!(judged(&x, &mut random));
            for part in PARTS {
                let targets = some_records(&mut x, part);
                change_link(&x, part, Link::Free, &targets, &mut random);
            }
        }
    }
}

// 256 rows of a column are sound, 257 are not, though L is that of the definition.
#[test]
fn rows_of_a_column() {
    let mut random = Random::new(12);
    let s = Sizes { m: 300, n: 4, f: 70000, c: 800 };
    for count in [255, 256, 257, 258] {
        for id in [1, 4] {
            let live: Live = [(id, (20..20 + count).collect()), (2, vec![20, 299])].into();
            let x = Laid::out(s, OLD_LIMITS, &always(&live), 3, Order::Random, &mut random);
            assert_eq!(judged(&x, &mut random), count <= 256);
        }
    }
}

// Any place of large tables gets another number.
#[test]
fn any_place_of_large_tables() {
    let mut random = Random::new(13);
    for s in LARGE {
        let x = laid_always(s, Order::Random, &mut random);
        for _ in 0..150 {
            let mut y = x.clone();
            let part = random.one(&PARTS);
            let (r, value) = (random.within(1, y.most(part)), random.within(0, y.most(part) + 2));
            match random.within(1, 5) {
                1 => *y.row(part, r) = random.within(0, s.m + 1) as u16,
                2 => y.tables.counts[random.within(0, s.f - 1) as usize] = random.within(0, 3) as u16,
                3 => y.tables.parents[random.within(0, s.m - 1) as usize] = random.within(0, s.m + 1) as u16,
                _ => *y.link(part, Link::Next(r)) = value,
            }
            assert_eq!(judged(&y, &mut random), y == x);
        }
    }
}
