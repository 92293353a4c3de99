//! The largest sizes: m 4,096, n 16,384, F 1,048,576, C 262,144, and a batch of 64 columns of 256 rows.
mod model;

use model::meeting::{common, meets};
use model::random::Random;
use model::{factor, path, positions, report, size, Live, Pattern, OLD_LIMITS};
use nigvalds::{Entry, Factor, Refusal};

const M: u32 = 4096;

fn largest() -> Factor {
    Factor::open(M, Factor::MOST_IDS, Factor::MOST_RECORDS, Factor::MOST_BOOKED).unwrap()
}

// 64 columns of 256 rows, each so many rows further on.
fn band(step: u32) -> Vec<Vec<u32>> {
    (0..64).map(|k| (1..=256).map(|i| k * step + i).collect()).collect()
}

fn batch(first: u32, columns: &[Vec<u32>]) -> Vec<(u32, &[u32])> {
    columns.iter().enumerate().map(|(k, rows)| (first + k as u32, &rows[..])).collect()
}

fn patterns(f: &Factor) -> Vec<Pattern> {
    f.columns().map(|c| Pattern { entries: c.entries().map(|e| (e.row, e.multiplicity)).collect(), parent: c.parent().unwrap_or(0) }).collect()
}

// Questions about the largest batch: the columns that meet a row, the next row of a column, and the common row of 64 rows.
fn asked(f: &Factor, expected: &[Pattern], starts: &[u32]) {
    for i in [1, 256, 1000, 4036, M] {
        assert_eq!(f.meets(i).unwrap().collect::<Vec<_>>(), meets(expected, i));
        for j in [1, 961, i] {
            let next = expected[j as usize - 1].entries.iter().find(|e| e.0 >= i);
            assert_eq!(f.next_row(i, j), Ok(next.map(|e| Entry { row: e.0, multiplicity: e.1 })), "from {i} in {j}");
        }
    }
    assert_eq!(f.common(starts), Ok(Some(common(expected, starts))));
}

#[test]
fn largest_batch() {
    let columns = band(60);
    let live: Live = columns.iter().enumerate().map(|(k, rows)| (16321 + k as u32, rows.clone())).collect();
    let expected = factor(M, &live);
    let starts: Vec<Option<u32>> = columns.iter().map(|rows| Some(rows[0])).collect();
    let said = report(OLD_LIMITS, &factor(M, &Live::new()), &expected, &positions(&expected, &starts));
    let mut f = largest();
    let r = f.add(&batch(16321, &columns)).unwrap();
    assert_eq!((r.touched, r.labels, r.entries, r.grade), (&said.touched[..], &said.labels[..], said.entries, 4));
    assert!(patterns(&f) == expected);
    assert_eq!(f.path(1).unwrap().collect::<Vec<_>>(), path(&expected, 1));
    asked(&f, &expected, &columns.iter().map(|rows| rows[0]).collect::<Vec<_>>());
    assert_eq!(f.check(), Ok(()));
    let ids: Vec<u32> = live.keys().copied().collect();
    let r = f.remove(&ids).unwrap();
    assert_eq!((r.touched, r.labels, r.entries, r.grade), (&said.touched[..], &said.labels[..], said.entries, 4));
    assert!(patterns(&f) == factor(M, &Live::new()));
}

// Random columns fill the factor beyond F: refused, and nothing changes.
#[test]
fn too_large_a_pattern() {
    let mut random = Random::new(3);
    let columns: Vec<Vec<u32>> = (0..64).map(|_| random.rising(256, M)).collect();
    let live: Live = columns.iter().enumerate().map(|(k, rows)| (1 + k as u32, rows.clone())).collect();
    assert!(size(&factor(M, &live)) > Factor::MOST_RECORDS as usize);
    let mut f = largest();
    let before = f.tables().clone();
    assert_eq!(f.add(&batch(1, &columns)).unwrap_err(), Refusal::FactorFull);
    assert!(*f.tables() == before);
}

// Sixteen batches of 64 columns fill the book to its last record; one row more is refused.
#[test]
fn full_book() {
    let mut f = largest();
    let columns = band(60);
    for k in 0..16 {
        f.add(&batch(1 + 64 * k, &columns)).unwrap();
    }
    assert_eq!(f.add(&[(16384, &[1])]).unwrap_err(), Refusal::BookFull);
    assert_eq!(f.next_row(1, 1), Ok(Some(Entry { row: 1, multiplicity: 17 })));
    f.remove(&[1]).unwrap();
    f.add(&[(16384, &columns[63])]).unwrap();
    assert_eq!(f.next_row(1, 1), Ok(Some(Entry { row: 1, multiplicity: 16 })));
    assert_eq!(f.check(), Ok(()));
}

// Every id booked, each with row 1: the largest number of columns and the largest multiplicity of a start.
#[test]
fn every_id() {
    let mut f = Factor::open(1, Factor::MOST_IDS, 1, Factor::MOST_IDS).unwrap();
    for k in 0..256 {
        let ids: Vec<u32> = (1..=64).map(|i| 64 * k + i).collect();
        f.add_lists(&ids, &[1; 64], &[1; 64], &[0; 64], &[0; 64]).unwrap();
    }
    assert_eq!(f.next_row(1, 1), Ok(Some(Entry { row: 1, multiplicity: 16385 })));
    assert_eq!(format!("{f:?}"), "1 0 1:16385\n");
}
