//! The safe wrapper: the listing's example, iterators, and opening anew.
use nigvalds::{Entry, Factor, Refusal};

const LISTING: &str = "1 3 1:3 3:1 4:1\n2 3 2:2 3:1\n3 4 3:3 4:1\n4 0 4:2\n5 0 5:1\n";

#[test]
fn listing() {
    let mut factor = Factor::open(5, 8, 9, 16).unwrap();
    let numbers: Vec<_> = [(1, [1, 3]), (2, [1, 4]), (3, [2, 3])]
        .iter()
        .map(|(id, rows)| {
            let r = factor.add(&[(*id, rows)]).unwrap();
            (r.touched.len(), r.entries, r.grade)
        })
        .collect();
    assert_eq!(numbers, [(2, 3, 1), (3, 6, 1), (3, 5, 1)]);
    assert_eq!(format!("{factor:?}"), LISTING);
    let r = factor.remove(&[2]).unwrap();
    assert_eq!((r.touched, r.entries), (&[1, 3, 4][..], 6));
    assert_eq!(format!("{factor:?}"), "1 3 1:2 3:1\n2 3 2:2 3:1\n3 0 3:3\n4 0 4:1\n5 0 5:1\n");
}

#[test]
fn iterators() {
    let mut factor = Factor::open(5, 8, 0, 16).unwrap();
    let report = factor.add(&[(1, &[1, 3]), (2, &[1, 4]), (3, &[2, 3])]).unwrap();
    assert_eq!(report.labels, [2, 3, 3, 3]);
    let columns: Vec<_> = factor.columns().collect();
    assert_eq!(columns.iter().map(|c| c.number()).collect::<Vec<_>>(), [1, 2, 3, 4, 5]);
    assert_eq!(columns.iter().map(|c| c.parent()).collect::<Vec<_>>(), [Some(3), Some(3), Some(4), None, None]);
    let mut entries = columns[1].entries();
    assert_eq!(entries.next(), Some(Entry { row: 2, multiplicity: 2 }));
    assert_eq!(entries.next(), Some(Entry { row: 3, multiplicity: 1 }));
    assert_eq!((entries.next(), entries.next()), (None, None));
    for column in columns {
        assert_eq!(factor.column(column.number()).unwrap(), column.entries().collect::<Vec<_>>());
        assert_eq!(factor.walk(column.number()).unwrap().collect::<Vec<_>>(), column.entries().collect::<Vec<_>>());
        assert_eq!(factor.parent(column.number()).unwrap(), column.parent());
    }
    let path = factor.path(1).unwrap();
    assert_eq!(path.len(), 3);
    assert_eq!(path.collect::<Vec<_>>(), [1, 3, 4]);
    assert_eq!(factor.next_row(3, 2), Ok(Some(Entry { row: 3, multiplicity: 1 })));
    assert_eq!(factor.check(), Ok(()));
}

#[test]
fn reopening() {
    let mut factor = Factor::open(5, 8, 9, 16).unwrap();
    factor.add(&[(1, &[1, 3]), (2, &[1, 4]), (3, &[2, 3])]).unwrap();
    assert_eq!(factor.reopen(6, 8, 9, 16).unwrap_err(), Refusal::Short);
    assert_eq!(format!("{factor:?}"), LISTING);
    assert_eq!(factor.reopen(3, 8, 9, 16), Ok(()));
    assert_eq!(format!("{factor:?}"), "1 0 1:1\n2 0 2:1\n3 0 3:1\n");
}

// A factor may move to another thread, and factors on two threads do not meet.
#[test]
fn threads() {
    let mut factor = Factor::open(5, 8, 9, 16).unwrap();
    let moved = std::thread::spawn(move || {
        factor.add(&[(1, &[1, 3]), (2, &[1, 4]), (3, &[2, 3])]).unwrap();
        factor
    });
    let mut other = Factor::open(1, 1, 1, 1).unwrap();
    other.add(&[(1, &[1])]).unwrap();
    assert_eq!((format!("{:?}", moved.join().unwrap()), format!("{other:?}")), (LISTING.into(), "1 0 1:2\n".into()));
}
