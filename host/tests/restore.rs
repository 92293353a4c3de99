//! Stored records and tables: what comes back goes on as what was stored, older forms serve on, and everything else is refused, by its number and the short table.
mod model;

use model::random::Random;
use nigvalds::lent::{work_places, Record, Tables};
use nigvalds::{Factor, Refusal, Short};

// A factor after some accepted and refused calls.
fn used(seed: u64) -> Factor {
    let mut random = Random::new(seed);
    let mut factor = Factor::open(12, 20, 60, 50).unwrap();
    for _ in 0..20 {
        let rows: Vec<u32> = (1..=12).filter(|_| random.once_in(4)).collect();
        let first = random.within(0, 49);
        let _ = factor.add_with_windows(&[(random.within(1, 20), &rows, Some(first..first + 50))]);
        let _ = factor.remove(&[random.within(1, 20)]);
        let _ = factor.set_clock(random.within(0, 99));
    }
    factor
}

fn same(a: &Factor, b: &Factor) {
    assert_eq!((a.record(), a.tables()), (b.record(), b.tables()));
}

// A copy, and what was stored and came back, answer the next calls as the factor does.
#[test]
fn goes_on() {
    for seed in 0..50 {
        let mut factor = used(seed);
        let mut copy = factor.clone();
        let (record, tables) = factor.clone().into_parts();
        let mut restored = Factor::restore(Record::from(<[u32; 10]>::from(record)), tables).unwrap();
        for minute in [10, 60, 30] {
            let report = factor.set_clock(minute).map(|r| (r.touched.to_vec(), r.labels.to_vec(), r.entries, r.grade));
            for other in [&mut copy, &mut restored] {
                assert_eq!(other.set_clock(minute).map(|r| (r.touched.to_vec(), r.labels.to_vec(), r.entries, r.grade)), report);
            }
            same(&factor, &copy);
            same(&factor, &restored);
        }
    }
}

// A change of a copy leaves the factor.
#[test]
fn copies_are_apart() {
    let mut factor = Factor::open(5, 8, 80, 16).unwrap();
    factor.add(&[(1, &[1, 3])]).unwrap();
    let mut copy = factor.clone();
    copy.remove(&[1]).unwrap();
    assert_eq!((factor.parent(1), copy.parent(1)), (Ok(Some(3)), Ok(None)));
    copy.reopen(5, 8, 80, 16).unwrap();
    assert_eq!(factor.check(), Ok(()));
}

// What a host of before 0.7 stored: nine numbers and eight tables; of 0.1: six numbers.
#[test]
fn older_forms() {
    let mut factor = Factor::open(5, 8, 80, 16).unwrap();
    factor.add(&[(1, &[1, 3]), (2, &[1, 4])]).unwrap();
    let numbers = <[u32; 10]>::from(factor.record());
    let tables = Tables { windows: vec![0; 2 * 8], ..factor.tables().clone() };
    for kept in [9, 6] {
        let mut old = <[u32; 10]>::from(Record { grade2: 256, grade3: 4096, grade4: 65536, ..Record::default() });
        old[..kept].copy_from_slice(&numbers[..kept]);
        same(&Factor::restore(Record::from(old), tables.clone()).unwrap(), &factor);
    }
    let without = Tables { windows: vec![], ..tables };
    assert_eq!(Factor::restore(factor.record(), without).unwrap_err().short, Some(Short { name: "windows", has: 0, needs: 16 }));
}

// Each number with some place of a table changed is refused by 6, or is as good as what was stored.
#[test]
fn damage() {
    let (record, tables) = used(7).into_parts();
    let changed = |change: &dyn Fn(&mut Tables)| {
        let mut t = tables.clone();
        change(&mut t);
        Factor::restore(record, t).map(|_| ()).map_err(Refusal::from)
    };
    for k in 0..12 {
        assert_eq!(changed(&|t| t.parents[k] ^= 1), Err(Refusal::Unsound));
        assert_eq!(changed(&|t| t.heads[k] += 1), Err(Refusal::Unsound));
    }
    for k in 0..60 {
        assert_eq!(changed(&|t| t.counts[k] += 1), Err(Refusal::Unsound));
    }
    assert_eq!(changed(&|t| t.windows[0] ^= 1 << 31), Err(Refusal::Unsound));
    assert_eq!(Factor::restore(Record { grade2: 0, ..record }, tables.clone()).unwrap_err(), Refusal::Unsound);
}

// Sizes out of range, whatever the tables.
#[test]
fn sizes() {
    let (record, tables) = used(7).into_parts();
    for (record, refusal) in [
        (Record { m: 0, ..record }, Refusal::Rows),
        (Record { m: u32::MAX, ..record }, Refusal::Rows),
        (Record { n: u32::MAX, ..record }, Refusal::Ids),
        (Record { f: 0, ..record }, Refusal::Records),
        (Record { f: u32::MAX, ..record }, Refusal::Records),
        (Record { c: u32::MAX, ..record }, Refusal::Booked),
    ] {
        let refused = Factor::restore(record, tables.clone()).unwrap_err();
        assert_eq!((refused.refusal, refused.short), (refusal, None));
    }
}

// Longer tables keep their places beyond, and serve larger sizes as far as the work table does.
#[test]
fn longer_tables() {
    let (record, mut tables) = used(7).into_parts();
    for table in [&mut tables.heads, &mut tables.next, &mut tables.windows] {
        table.extend([7; 30]);
    }
    tables.parents.extend([7; 30]);
    let mut factor = Factor::restore(record, tables).unwrap();
    assert_eq!(factor.tables().heads[12..], [7; 30]);
    assert_eq!(factor.reopen(13, 1, 40, 50), Ok(()));
    factor.add(&[(1, &[1, 13])]).unwrap();
    assert_eq!(factor.parent(1), Ok(Some(13)));
}

// The first table or list that is too short, whichever it is.
#[test]
fn short_tables() {
    let (m, n, f, c) = (5, 8, 9, 16);
    let full = Tables::for_sizes(m, n, f, c);
    let places = work_places(m, n, f, c);
    let shorter = |cut: fn(&mut Tables)| {
        let mut t = full.clone();
        cut(&mut t);
        t.first_short(m, n, f, c, 0, None).unwrap()
    };
    let cases: [(Short, &str, usize); 9] = [
        (shorter(|t| t.heads.truncate(4)), "heads", 5),
        (shorter(|t| t.parents.truncate(4)), "parents", 5),
        (shorter(|t| t.rows.truncate(8)), "rows", 9),
        (shorter(|t| t.counts.truncate(8)), "counts", 9),
        (shorter(|t| t.next.truncate(8)), "next", 9),
        (shorter(|t| t.book_heads.truncate(7)), "book_heads", 8),
        (shorter(|t| t.book_rows.truncate(15)), "book_rows", 16),
        (shorter(|t| t.book_next.truncate(15)), "book_next", 16),
        (shorter(|t| t.windows.truncate(15)), "windows", 16),
    ];
    for (short, name, needs) in cases {
        assert_eq!(short, Short { name, has: needs - 1, needs });
    }
    let at = |work, report| full.first_short(m, n, f, c, work, report).map(|s| s.to_string());
    assert_eq!(at(places - 1, Some((4, 4))), Some(format!("work has {} of {places} places", places - 1)));
    assert_eq!(at(places, Some((4, 4))).as_deref(), Some("touched has 4 of 5 places"));
    assert_eq!(at(places, Some((5, 0))).as_deref(), Some("labels has 0 of 5 places"));
    assert_eq!((at(places, Some((5, 5))), at(places, None)), (None, None));
    assert_eq!(full.first_short(m, n, 0, c, places, None), Some(Short { name: "rows", has: 9, needs: 160 }));
    for (m, n, f, c) in [(0, n, f, c), (u32::MAX, n, 0, c), (m, u32::MAX, f, c), (m, n, 4, c), (m, n, f, u32::MAX)] {
        assert_eq!(full.first_short(m, n, f, c, 0, None), None);
    }
}
