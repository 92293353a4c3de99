//! The entries of a change by the library's own reader: the touched columns' sizes after an addition, and before a removal, of each the larger in a clock change; and
//! grades by limits that lie between the two figures.
mod model;

use model::random::Random;
use model::{added, Book, Lists, Sizes};
use nigvalds::lent::{work_places, Changed, Record, Tables};
use nigvalds::Limits;
use std::iter::successors;

enum Change {
    Add(Lists),
    Remove(Vec<u32>),
    Clock(u32),
}

impl Change {
    fn random(s: Sizes, book: &Book, random: &mut Random) -> Change {
        match random.within(1, 4) {
            1 => Change::Remove(random.removal(s, book)),
            2 => Change::Clock(random.minute()),
            _ => Change::Add(random.addition(s, book)),
        }
    }

    // The booked columns after it.
    fn after(&self, mut book: Book) -> Book {
        match self {
            Change::Add(x) => added(&book, x),
            Change::Remove(ids) => {
                book.retain(|id, _| !ids.contains(id));
                book
            }
            Change::Clock(_) => book,
        }
    }

    // Makes it, and gives the answer with the touched columns.
    fn make(&self, record: Record, tables: &mut Tables) -> (Changed, Vec<u16>) {
        let (mut touched, mut labels) = (vec![0; record.m as usize], vec![0; record.m as usize]);
        let work = &mut vec![0; work_places(record.m, record.n, record.f, record.c)];
        let changed = match self {
            Change::Add(x) => tables.add(record, work, &mut touched, &mut labels, &x.ids, &x.counts, &x.rows, &x.firsts, &x.seconds),
            Change::Remove(ids) => tables.remove(record, work, &mut touched, &mut labels, ids),
            Change::Clock(minute) => tables.set_clock(record, work, &mut touched, &mut labels, *minute),
        };
        touched.truncate(changed.touched as usize);
        (changed, touched)
    }
}

// The sizes of some columns.
fn sizes(tables: &Tables, columns: &[u16]) -> Vec<u32> {
    let first = |j: &u16| tables.read(tables.heads[*j as usize - 1]);
    let chain = |j: &u16| successors(Some(first(j)), |e| Some(tables.read(e.next))).take_while(|e| e.row != 0).count();
    columns.iter().map(|j| chain(j) as u32).collect()
}

// The grade of a change by the first of three limits, with the others above its entries.
fn grade(change: &Change, record: Record, tables: &Tables, first: u32, entries: u32) -> u32 {
    let record = Record { grade2: first, grade3: entries + 3, grade4: entries + 4, ..record };
    let (changed, _) = change.make(record, &mut tables.clone());
    assert_eq!(changed.entries, entries);
    changed.grade
}

// Counts the additions, removals and clock changes whose entries both sums, of the sizes before and of those after, reach, and those where one does not or, of a
// clock change, neither does; and those that touch nothing.
fn history(seed: u64, counted: &mut [[u32; 3]; 3]) {
    let mut random = Random::new(seed);
    let s = random.sizes();
    let mut tables = Tables::for_sizes(s.m, s.n, s.f, s.c);
    let mut record = tables.open(s.m, s.n, s.f, s.c, Limits::default(), &mut vec![0; work_places(s.m, s.n, s.f, s.c)]).record;
    let mut book = Book::new();
    for _ in 0..80 {
        let change = Change::random(s, &book, &mut random);
        let before = tables.clone();
        let (changed, touched) = change.make(record, &mut tables);
        if changed.number != 0 {
            continue;
        }
        let (old, new) = (sizes(&before, &touched), sizes(&tables, &touched));
        let (was, is): (u32, u32) = (old.iter().sum(), new.iter().sum());
        let (kind, entries, other) = match change {
            Change::Add(_) => (0, is, was),
            Change::Remove(_) => (1, was, is),
            Change::Clock(_) => (2, old.iter().zip(&new).map(|(a, b)| *a.max(b)).sum(), was.max(is)),
        };
        assert_eq!(changed.entries, entries);
        assert_eq!(grade(&change, record, &before, (entries + 1).max(2), entries), u32::from(entries != 0));
        if other < entries {
            let first = random.within(other + 1, entries);
            assert_eq!(grade(&change, record, &before, first, entries), 2);
        }
        counted[kind][if entries == 0 { 2 } else { usize::from(other < entries) }] += 1;
        (record, book) = (changed.record, change.after(book));
    }
}

#[test]
fn sizes_before_and_after() {
    let mut counted = [[0; 3]; 3];
    (0..500).for_each(|seed| history(seed, &mut counted));
    assert!(counted.as_flattened().iter().all(|n| *n > 100), "{counted:?}");
}

// {1, 3} under two ids: the second touches columns 1 and 3 and changes the size of neither, when it enters and when it leaves.
#[test]
fn equal_columns() {
    let mut factor = nigvalds::Factor::open(5, 8, 9, 16).unwrap();
    factor.add(&[(1, &[1, 3])]).unwrap();
    for _ in 0..2 {
        let report = factor.add(&[(2, &[1, 3])]).unwrap();
        assert_eq!((report.touched, report.entries), (&[1, 3][..], 3));
        let report = factor.remove(&[2]).unwrap();
        assert_eq!((report.touched, report.entries), (&[1, 3][..], 3));
    }
}

// All columns at once: the sizes of all touched columns, as when they entered.
#[test]
fn every_column() {
    let mut factor = nigvalds::Factor::open(5, 8, 9, 16).unwrap();
    for _ in 0..2 {
        let report = factor.add(&[(1, &[1, 3]), (2, &[1, 4]), (3, &[2, 3])]).unwrap();
        assert_eq!((report.touched, report.entries), (&[1, 2, 3, 4][..], 8));
        let report = factor.remove(&[3, 1, 2]).unwrap();
        assert_eq!((report.touched, report.entries), (&[1, 2, 3, 4][..], 8));
    }
}
