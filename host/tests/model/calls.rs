//! Every call but an opening, with a record and tables that 1 to 6 refuse.
use nigvalds::lent::{Changed, Found, Record, Reply, Tables};

// Everything that is lent to a call.
#[derive(Clone, PartialEq)]
struct Lent {
    tables: Tables,
    work: Vec<u32>,
    touched: Vec<u16>,
    labels: Vec<u16>,
    list: Vec<u32>,
}

const CALLS: [fn(Record, &mut Lent) -> Reply; 11] = [
    |r, x| x.tables.check(r, &mut x.work),
    |r, x| nothing_found(x.tables.next_row(r, &mut x.work, 1, 1)),
    |r, x| x.tables.parent(r, &mut x.work, 1),
    |r, x| x.tables.path(r, &mut x.work, &mut x.list, 1, 0),
    |r, x| x.tables.column(r, &mut x.work, &mut x.list, 1, 0),
    |r, x| x.tables.meets(r, &mut x.work, &mut x.list, 1, 0),
    |r, x| x.tables.common(r, &mut x.work, &[1]),
    |r, x| number_alone(x.tables.add(r, &mut x.work, &mut x.touched, &mut x.labels, &[4], &[1], &[1], &[0], &[0]), r),
    |r, x| number_alone(x.tables.remove(r, &mut x.work, &mut x.touched, &mut x.labels, &[1]), r),
    |r, x| number_alone(x.tables.set_clock(r, &mut x.work, &mut x.touched, &mut x.labels, r.clock), r),
    |r, x| number_alone(x.tables.set_clock(r, &mut x.work, &mut x.touched, &mut x.labels, 1), r),
];

// The answer of a refused question for the next row has nothing but a number.
fn nothing_found(found: Found) -> Reply {
    let number = found.number;
    assert_eq!(found, Found { number, row: 0, multiplicity: 0 });
    Reply { number, value: 0 }
}

// The answer of a refused batch or clock change has nothing but a number and the record that was given.
fn number_alone(changed: Changed, record: Record) -> Reply {
    let number = changed.number;
    assert_eq!(changed, Changed { number, position: 0, touched: 0, entries: 0, grade: 0, record });
    Reply { number, value: 0 }
}

/// Every call on tables of five rows gives this number, 1 to 6, and nothing else; and it changes nothing but, under 6, the first places of the work table.
pub fn every_call(record: Record, tables: &Tables, places: usize, number: u32) {
    let lent = Lent { tables: tables.clone(), work: vec![7; places + 3], touched: vec![5; 6], labels: vec![5; 6], list: vec![5; 20] };
    let mut left = lent.clone();
    if number == 6 {
        left.work[..places].fill(0);
    }
    for call in CALLS {
        let mut x = lent.clone();
        assert_eq!(call(record, &mut x), Reply { number, value: 0 }, "{record:?}");
        assert!(x == left);
    }
}
