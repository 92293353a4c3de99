//! The limits of the grades: which an opening takes and refuses, how long they stay, what a record with broken ones gives, and the grades read from them.
mod model;

use model::calls::every_call;
use model::world::handed;
use model::{grade, Limits, OLD_LIMITS};
use nigvalds::lent::{work_places, Opened, Record, Tables};
use nigvalds::{Factor, Refusal};

const MAX: u32 = u32::MAX;
const ZEROS: Limits = [0; 3];
const OWN: Limits = [4, 8, 16];

// Limits that an opening refuses.
const BROKEN: [Limits; 14] = [
    [0, 1, 2],
    [1, 2, 3],
    [0, 0, 7],
    [0, 7, 0],
    [7, 0, 0],
    [0, 256, 4096],
    [2, 2, 3],
    [2, 3, 2],
    [2, 3, 3],
    [4, 3, 5],
    [256, 4096, 0],
    [MAX, 0, 1],
    [MAX, MAX, MAX],
    [MAX - 1, MAX, 0],
];

// Limits that it takes; the last two lie beyond the entries that any factor can have.
const TAKEN: [Limits; 6] = [[2, 3, 4], [2, 3, MAX], OWN, OLD_LIMITS, [1048577, 1048578, 1048579], [MAX - 2, MAX - 1, MAX]];

fn kept(record: Record) -> Limits {
    [record.grade2, record.grade3, record.grade4]
}

// The state of the listing's example: {1, 3}, {1, 4}, {2, 3} under ids 1 to 3.
fn example(limits: Limits) -> Factor {
    let mut factor = Factor::open_with_limits(5, 8, 9, 16, handed(limits)).unwrap();
    factor.add(&[(1, &[1, 3]), (2, &[1, 4]), (3, &[2, 3])]).unwrap();
    factor
}

#[test]
fn openings() {
    for limits in TAKEN {
        let factor = Factor::open_with_limits(5, 8, 9, 16, handed(limits)).unwrap();
        assert_eq!((kept(factor.record()), factor.limits()), (limits, handed(limits)));
        assert_eq!(factor.check(), Ok(()));
    }
    for limits in BROKEN {
        assert_eq!(Factor::open_with_limits(5, 8, 9, 16, handed(limits)).err(), Some(Refusal::Limits), "{limits:?}");
    }
}

// Three zeros, and an opening without limits, give the old ones.
#[test]
fn old_limits() {
    let opened = [Factor::open_with_limits(5, 8, 0, 16, handed(ZEROS)), Factor::open(5, 8, 0, 16)];
    for factor in opened.map(Result::unwrap) {
        assert_eq!(kept(factor.record()), OLD_LIMITS);
        assert_eq!(factor.limits(), nigvalds::Limits::default());
    }
}

// 20 stands after 1 to 4 and before 5. Under each of these everything is as lent.
#[test]
fn order_of_refusals() {
    let places = work_places(5, 8, 9, 16);
    for limits in BROKEN {
        for (m, n, f, c, work, number) in [
            (0, 0, 4, 0, 0, 1),
            (4097, 8, 9, 16, places, 1),
            (5, 0, 4, 0, 0, 2),
            (5, 8, 4, 0, 0, 3),
            (5, 8, 0, 262145, 0, 4),
            (5, 8, 9, 0, places, 4),
            (5, 8, 9, 16, 0, 20),
            (5, 8, 9, 16, places - 1, 20),
            (6, 9, 10, 17, places, 20),
            (4096, 16384, 0, 262144, places, 20),
            (5, 8, 9, 16, places, 20),
        ] {
            let (mut tables, mut work) = (Tables::for_sizes(5, 8, 9, 16), vec![7; work]);
            let (before, lent) = (tables.clone(), work.clone());
            let opened = tables.open(m, n, f, c, handed(limits), &mut work);
            assert_eq!(opened, Opened { number, record: Record::default() });
            assert!(tables == before && work == lent);
        }
    }
}

// A record with broken limits gives 6 in every call, and 20 in none; the first W places of the work table are zero then.
#[test]
fn broken_in_a_record() {
    let (factor, places) = (example(OWN), work_places(5, 8, 9, 16));
    for [grade2, grade3, grade4] in BROKEN.into_iter().chain([ZEROS]) {
        let record = Record { grade2, grade3, grade4, ..factor.record() };
        every_call(record, factor.tables(), places, 6);
        every_call(Record { m: 0, ..record }, factor.tables(), places, 1);
        every_call(Record { c: 0, ..record }, factor.tables(), places, 4);
        every_call(Record { m: 6, ..record }, factor.tables(), places, 5);
    }
}

// Other limits that keep the rule are sound in a record.
#[test]
fn others_in_a_record() {
    let factor = example(OWN);
    let mut work = vec![7; work_places(5, 8, 9, 16)];
    for [grade2, grade3, grade4] in TAKEN {
        let record = Record { grade2, grade3, grade4, ..factor.record() };
        assert_eq!(factor.tables().check(record, &mut work).number, 0);
    }
}

// Batches, accepted and refused, and refused openings keep the limits; an opening replaces them.
#[test]
fn how_long_they_stay() {
    let mut factor = example(OWN);
    assert_eq!(factor.remove(&[2]).unwrap().grade, 2);
    assert_eq!(factor.remove(&[2]).err(), Some(Refusal::IdNotBooked { position: 1 }));
    assert_eq!(factor.add(&[(2, &[1, 5]), (4, &[1, 2])]).err(), Some(Refusal::FactorFull));
    for (sizes, limits, refusal) in [
        ((0, 8, 9, 16), OLD_LIMITS, Refusal::Rows),
        ((5, 8, 9, 16), [2, 3, 3], Refusal::Limits),
        ((5, 8, 9, 16), [0, 0, 1], Refusal::Limits),
        ((6, 8, 9, 16), ZEROS, Refusal::Short),
    ] {
        let (m, n, f, c) = sizes;
        assert_eq!(factor.reopen_with_limits(m, n, f, c, handed(limits)).unwrap_err(), refusal);
        assert_eq!(kept(factor.record()), OWN);
    }
    assert_eq!(factor.add(&[(2, &[1, 4])]).unwrap().grade, 2);
    factor.reopen_with_limits(5, 8, 9, 16, handed([2, 3, 9])).unwrap();
    assert_eq!(factor.add(&[(1, &[1, 3]), (2, &[1, 4]), (3, &[2, 3])]).unwrap().grade, 3);
    factor.reopen(5, 8, 9, 16).unwrap();
    assert_eq!(kept(factor.record()), OLD_LIMITS);
    assert_eq!(factor.add(&[(1, &[1, 3]), (2, &[1, 4]), (3, &[2, 3])]).unwrap().grade, 1);
}

// Columns on rows of their own whose patterns have so many entries together: a column of k rows has k (k + 1) / 2.
fn columns_with(entries: u32) -> Vec<Vec<u32>> {
    let (mut left, mut first, mut columns) = (entries, 1, Vec::new());
    while left != 0 {
        let k = (1..=256).rev().find(|k| k * (k + 1) / 2 <= left).expect("1 is at most what is left");
        columns.push((first..first + k).collect());
        (left, first) = (left - k * (k + 1) / 2, first + k);
    }
    columns
}

// The grade of a batch with so many entries.
fn grade_of(limits: Limits, entries: u32) -> u32 {
    let mut factor = Factor::open_with_limits(1024, 64, 131072, 16384, handed(limits)).unwrap();
    let columns = columns_with(entries);
    let batch: Vec<(u32, &[u32])> = columns.iter().enumerate().map(|(k, rows)| (k as u32 + 1, &rows[..])).collect();
    let report = factor.add(&batch).unwrap();
    assert_eq!(report.entries, entries);
    report.grade
}

// One below each limit, at it and one above.
#[test]
fn grades() {
    for limits in [ZEROS, [2, 3, 4], [2, 3, MAX], [5, 100, 101], [1000, 65536, 65537], [1048577, 1048578, MAX]] {
        let firsts = model::limits_for(limits);
        for first in firsts.into_iter().filter(|first| *first < 131072) {
            for entries in first - 1..=first + 1 {
                assert_eq!(grade_of(limits, entries), grade(firsts, entries), "{limits:?} at {entries}");
            }
        }
        assert_eq!(grade_of(limits, 1), 1);
    }
    assert_eq!([255, 256, 4095, 4096, 65535, 65536].map(|n| grade_of(ZEROS, n)), [1, 2, 2, 3, 3, 4]);
    assert_eq!([1, 2, 3, 4].map(|n| grade_of([2, 3, 4], n)), [1, 2, 3, 4]);
    assert_eq!(grade_of([1048577, 1048578, MAX], 100000), 1);
}

// A removal's grade is read from them too, by the sizes before it: 6 entries, of which 4 are left.
#[test]
fn grades_of_removals() {
    for (limits, number) in [([7, 8, 9], 1), ([6, 7, 8], 2), ([5, 6, 7], 3), ([2, 5, 7], 3), ([4, 5, 6], 4)] {
        let report = example(limits).remove(&[2]).map(|r| (r.entries, r.grade));
        assert_eq!(report, Ok((6, number)));
    }
}
