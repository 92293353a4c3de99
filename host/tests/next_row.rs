//! The question for the next row beside the library's reader: the walk of a column, its parent and its diagonal; every number that refuses it, and what is lent.
//! Random histories (histories.rs) ask it too, by the definition.
mod model;

use model::early::{each_early, work_stays};
use model::random::Random;
use model::{added, Book, Sizes};
use nigvalds::lent::{work_places, Found, Record, Tables};
use nigvalds::{Entry, Factor, Refusal};

// The state of the listing's example: columns 1:3 3:1 4:1, 2:2 3:1, 3:3 4:1, 4:2 and 5:1.
fn example() -> Factor {
    let mut factor = Factor::open(5, 8, 9, 16).unwrap();
    factor.add(&[(1, &[1, 3]), (2, &[1, 4]), (3, &[2, 3])]).unwrap();
    factor
}

fn refused(number: u32) -> Found {
    Found { number, row: 0, multiplicity: 0 }
}

// The row that is found from row i on in column j, if any.
fn row(factor: &Factor, i: u32, j: u32) -> Option<u32> {
    factor.next_row(i, j).unwrap().map(|e| e.row)
}

// Rows 1 to 5 in columns 1 to 5.
#[test]
fn answers() {
    let factor = example();
    let answers = [
        [(1, 3), (3, 1), (3, 1), (4, 1), (0, 0)],
        [(2, 2), (2, 2), (3, 1), (0, 0), (0, 0)],
        [(3, 3), (3, 3), (3, 3), (4, 1), (0, 0)],
        [(4, 2), (4, 2), (4, 2), (4, 2), (0, 0)],
        [(5, 1), (5, 1), (5, 1), (5, 1), (5, 1)],
    ];
    for (j, column) in (1..).zip(answers) {
        for (i, (row, multiplicity)) in (1..).zip(column) {
            assert_eq!(factor.next_row(i, j), Ok((row != 0).then_some(Entry { row, multiplicity })), "from {i} in {j}");
        }
    }
}

// ---- beside the reader

// Column j by its entries as the reader gives them. Counts the rows that stand, those with a later one, and those after the column's end.
fn column_agrees(factor: &Factor, j: u32, entries: &[Entry], counted: &mut [u32; 3]) {
    let m = factor.record().m;
    assert_eq!(factor.walk(j).unwrap().collect::<Vec<_>>(), entries);
    assert_eq!(factor.column(j).unwrap(), entries);
    for i in 1..=m {
        let first = entries.iter().find(|e| e.row >= i).copied();
        assert_eq!(factor.next_row(i, j), Ok(first), "from {i} in {j}");
        counted[first.map_or(2, |e| usize::from(e.row > i))] += 1;
    }
    assert!((1..=j).all(|i| row(factor, i, j) == Some(j)));
    if j < m {
        assert_eq!(row(factor, j + 1, j), factor.parent(j).unwrap());
    }
}

// An addition, a removal or a clock change, accepted or refused.
fn step(factor: &mut Factor, s: Sizes, book: &mut Book, random: &mut Random) {
    if random.once_in(4) {
        let _ = factor.set_clock(random.minute());
        return;
    }
    if random.once_in(3) {
        let ids = random.removal(s, book);
        if factor.remove(&ids).is_ok() {
            book.retain(|id, _| !ids.contains(id));
        }
        return;
    }
    let x = random.addition(s, book);
    if factor.add_lists(&x.ids, &x.counts, &x.rows, &x.firsts, &x.seconds).is_ok() {
        *book = added(book, &x);
    }
}

#[test]
fn random_histories() {
    let mut counted = [0; 3];
    for seed in 0..200 {
        let mut random = Random::new(seed);
        let s = random.sizes();
        let (mut factor, mut book) = (Factor::open(s.m, s.n, s.f, s.c).unwrap(), Book::new());
        for _ in 0..20 {
            step(&mut factor, s, &mut book, &mut random);
            for j in 1..=s.m {
                let entries: Vec<Entry> = factor.columns().nth(j as usize - 1).unwrap().entries().collect();
                column_agrees(&factor, j, &entries, &mut counted);
            }
        }
    }
    assert!(counted.iter().all(|n| *n > 10000), "{counted:?}");
}

// A random factor of the largest m: the walk of some columns, and the next row from some rows of each.
#[test]
fn largest() {
    let mut random = Random::new(9);
    let mut factor = Factor::open(4096, 640, 0, 2560).unwrap();
    for id in 1..=640 {
        let (start, count) = (random.within(1, 4056), random.within(1, 4));
        let rows: Vec<u32> = random.rising(count, 40).iter().map(|k| start + k).collect();
        factor.add(&[(id, &rows)]).unwrap();
    }
    for column in factor.columns().step_by(131).chain(factor.columns().last()) {
        let (j, entries) = (column.number(), column.entries().collect::<Vec<_>>());
        assert_eq!(factor.walk(j).unwrap().collect::<Vec<_>>(), entries);
        for i in [1, j, random.within(1, 4096), (j + random.within(1, 40)).min(4096), 4096] {
            assert_eq!(factor.next_row(i, j), Ok(entries.iter().find(|e| e.row >= i).copied()), "from {i} in {j}");
        }
    }
}

// A walk gives nothing after its end, and a copy of it goes on from where it was.
#[test]
fn end_of_a_walk() {
    let factor = example();
    let mut walk = factor.walk(1).unwrap();
    assert_eq!(walk.next(), Some(Entry { row: 1, multiplicity: 3 }));
    let copy = walk.clone();
    assert_eq!(walk.by_ref().map(|e| e.row).collect::<Vec<_>>(), [3, 4]);
    assert_eq!((walk.next(), walk.next()), (None, None));
    assert_eq!(copy.map(|e| e.row).collect::<Vec<_>>(), [3, 4]);
}

// ---- refusals

// 17 for a row or column outside 1 to m, with zeros; the last row and the last column are accepted.
#[test]
fn outside() {
    let (factor, mut work) = (example(), vec![9; work_places(5, 8, 9, 16)]);
    let mut found = |i, j| factor.tables().next_row(factor.record(), &mut work, i, j);
    for x in [0, 6, 65537, u32::MAX] {
        for y in [0, 1, 3, 5, 6, 65537, u32::MAX] {
            assert_eq!((found(x, y), found(y, x)), (refused(17), refused(17)));
            assert_eq!((factor.next_row(x, y), factor.next_row(y, x)), (Err(Refusal::AskedOutside), Err(Refusal::AskedOutside)));
        }
        assert_eq!(factor.walk(x).err(), Some(Refusal::AskedOutside));
    }
    assert_eq!(found(5, 5), Found { number: 0, row: 5, multiplicity: 1 });
    assert_eq!((found(5, 1), found(5, 4)), (refused(0), refused(0)));
}

// Tables stay, and the work table is zero within its places, after accepted questions and after those that 17 refuses.
#[test]
fn what_is_left() {
    let (factor, places) = (example(), work_places(5, 8, 9, 16));
    let before = factor.tables().clone();
    for (i, j) in (0..=6).flat_map(|i| (0..=6).map(move |j| (i, j))) {
        let mut work = vec![9; places + 3];
        factor.tables().next_row(factor.record(), &mut work, i, j);
        assert!(work[..places].iter().all(|x| *x == 0) && work[places..] == [9; 3]);
    }
    assert!(*factor.tables() == before);
}

// Every question gives this number and zeros, and nothing changes but the work table under 6; also with a row or column that 17 would refuse.
fn every_question(t: &Tables, record: Record, places: usize, number: u32) {
    let before = t.clone();
    for (i, j) in [(1, 1), (2, 1), (5, 5), (5, 1), (0, 1), (1, 0), (6, 6), (u32::MAX, 1)] {
        let mut work = vec![9; places];
        assert_eq!(t.next_row(record, &mut work, i, j), refused(number));
        assert!(work_stays(record, number, &work) && *t == before);
    }
}

// 1 to 6 stand before 17.
#[test]
fn sizes_and_tables_first() {
    let factor = example();
    each_early(factor.tables(), factor.record(), every_question);
}
