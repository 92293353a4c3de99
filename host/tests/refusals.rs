//! Every number, 1 to 18, with its position; and the order among them. The limits of the grades, with 20, and windows, with 21, have tests of their own.
mod model;

use model::random::Random;
use model::world::{World, CUTS};
use model::{Lists, Sizes, OLD_LIMITS};
use nigvalds::lent::{work_places, Record, Tables};
use nigvalds::{Factor, Limits, Refusal};

// The state of the listing's example: {1, 3}, {1, 4}, {2, 3} under ids 1 to 3.
fn example() -> Factor {
    let mut factor = Factor::open(5, 8, 9, 16).unwrap();
    factor.add(&[(1, &[1, 3]), (2, &[1, 4]), (3, &[2, 3])]).unwrap();
    factor
}

#[test]
fn sizes() {
    for (m, n, f, c, refusal) in [
        (0, 0, 0, 0, Refusal::Rows),
        (4097, 1, 4097, 1, Refusal::Rows),
        (u32::MAX, 1, 0, 1, Refusal::Rows),
        (134217727, 1, 0, 1, Refusal::Rows),
        (134217728, 1, 0, 1, Refusal::Rows),
        (134217729, 1, 0, 1, Refusal::Rows),
        (1, 0, 0, 0, Refusal::Ids),
        (1, 16385, 1, 1, Refusal::Ids),
        (5, 1, 4, 0, Refusal::Records),
        (1, 1, 1048577, 1, Refusal::Records),
        (1, 1, 1, 0, Refusal::Booked),
        (1, 1, 0, 262145, Refusal::Booked),
    ] {
        assert_eq!(Factor::open(m, n, f, c).unwrap_err(), refusal);
    }
}

#[test]
fn sizes_in_a_record() {
    let factor = example();
    let mut work = vec![1; 2000];
    let good = factor.record();
    for (record, number) in [
        (Record { m: 0, ..good }, 1),
        (Record { n: 0, ..good }, 2),
        (Record { f: 0, ..good }, 3),
        (Record { f: 4, ..good }, 3),
        (Record { c: 0, ..good }, 4),
        (Record { m: 6, ..good }, 5),
        (Record { n: 7, ..good }, 0),
        (Record { m: 4, ..good }, 6),
    ] {
        assert_eq!(factor.tables().check(record, &mut work).number, number);
        assert_eq!(work.iter().all(|x| *x == 1), (1..=5).contains(&number));
        work.fill(1);
    }
}

#[test]
fn short_tables_and_lists() {
    let s = Sizes { m: 5, n: 8, f: 9, c: 16 };
    let full = Tables::for_sizes(s.m, s.n, s.f, s.c);
    let places = work_places(s.m, s.n, s.f, s.c);
    let open = |t: &mut Tables, places: usize| t.open(s.m, s.n, s.f, s.c, Limits::default(), &mut vec![1; places]);
    for cut in CUTS {
        let mut t = full.clone();
        cut(&mut t);
        let before = t.clone();
        assert_eq!(open(&mut t, places).number, 5);
        assert_eq!(t, before);
    }
    let mut t = full;
    assert_eq!(open(&mut t, places - 1).number, 5);
    let record = open(&mut t, places).record;
    let mut work = vec![1; places];
    for (touched, labels, number) in [(4, 5, 5), (5, 4, 5), (5, 5, 7)] {
        assert_eq!(t.add(record, &mut work, &mut vec![0; touched], &mut vec![0; labels], &[], &[], &[], &[], &[]).number, number);
        assert_eq!(t.remove(record, &mut work, &mut vec![0; touched], &mut vec![0; labels], &[]).number, number);
        assert_eq!(t.set_clock(record, &mut work, &mut vec![0; touched], &mut vec![0; labels], 7).number, if number == 7 { 0 } else { 5 });
    }
}

#[test]
fn unsound() {
    let mut t = example().tables().clone();
    let record = example().record();
    t.parents[0] = 2;
    assert_eq!(t.check(record, &mut vec![0; work_places(5, 8, 9, 16)]).number, 6);
}

// Ids, counts and rows, and what refuses them.
type Addition<'a> = (&'a [u32], &'a [u32], &'a [u32], Refusal);

#[test]
fn additions() {
    let rows: Vec<u32> = (1..=5).collect();
    let many: Vec<u32> = (1..=65).collect();
    let cases: [Addition; 16] = [
        (&[], &[], &[], Refusal::Shape),
        (&many, &many, &rows, Refusal::Shape),
        (&[0, 4], &[1], &rows, Refusal::Shape),
        (&[4, 0], &[1, 1], &rows, Refusal::IdOutside { position: 2 }),
        (&[9], &[1], &rows, Refusal::IdOutside { position: 1 }),
        (&[4, 5, 4], &[1, 1, 1], &rows, Refusal::IdRepeated { position: 3 }),
        (&[4, 3], &[1, 1], &rows, Refusal::IdBooked { position: 2 }),
        (&[4, 5], &[1, 0], &rows, Refusal::Count { position: 2 }),
        (&[4], &[257], &rows, Refusal::Count { position: 1 }),
        (&[4, 5], &[2, 4], &rows, Refusal::Count { position: 2 }),
        (&[4], &[4], &rows, Refusal::Count { position: 0 }),
        (&[4, 5], &[1, 1], &[1, 6], Refusal::RowOutside { position: 2 }),
        (&[4], &[2], &[0, 1], Refusal::RowOutside { position: 1 }),
        (&[4], &[2], &[4, 4], Refusal::RowOrder { position: 1 }),
        (&[4, 5, 6], &[5, 5, 1], &[1, 2, 3, 4, 5, 1, 2, 3, 4, 5, 1], Refusal::BookFull),
        (&[4], &[2], &[1, 5], Refusal::FactorFull),
    ];
    for (ids, counts, rows, refusal) in cases {
        let mut factor = example();
        let none = vec![0; ids.len()];
        assert_eq!(factor.add_lists(ids, counts, rows, &none, &none).unwrap_err(), refusal);
        assert_eq!(format!("{factor:?}"), format!("{:?}", example()));
    }
}

#[test]
fn removals() {
    let cases: [(&[u32], Refusal); 5] = [
        (&[], Refusal::Shape),
        (&[1; 65], Refusal::Shape),
        (&[1, 9], Refusal::IdOutside { position: 2 }),
        (&[3, 3], Refusal::IdRepeated { position: 2 }),
        (&[3, 4], Refusal::IdNotBooked { position: 2 }),
    ];
    for (ids, refusal) in cases {
        assert_eq!(example().remove(ids).unwrap_err(), refusal);
    }
}

#[test]
fn questions() {
    let factor = example();
    assert_eq!(factor.next_row(0, 1), Err(Refusal::AskedOutside));
    assert_eq!(factor.next_row(1, 6), Err(Refusal::AskedOutside));
    assert_eq!(factor.walk(0).err(), Some(Refusal::AskedOutside));
    assert_eq!(factor.parent(0), Err(Refusal::AskedOutside));
    assert_eq!(factor.path(6).err(), Some(Refusal::AskedOutside));
    assert_eq!(factor.column(u32::MAX).err(), Some(Refusal::AskedOutside));
    let mut work = vec![0; work_places(5, 8, 9, 16)];
    for (length, place, number) in [(6, 0, 0), (5, 0, 18), (7, 2, 18), (8, 2, 0), (8, usize::MAX, 18), (0, 0, 18)] {
        assert_eq!(factor.tables().column(factor.record(), &mut work, &mut vec![0; length], 1, place).number, number);
    }
    for (length, place, number) in [(3, 0, 0), (2, 0, 18), (3, 1, 18), (3, usize::MAX, 18)] {
        assert_eq!(factor.tables().path(factor.record(), &mut work, &mut vec![0; length], 1, place).number, number);
    }
}

// The numbers as a type: 1 to 21, there and back, each with words of its own.
#[test]
fn numbers_of_the_type() {
    let mut words = std::collections::BTreeSet::new();
    for number in 1..=21 {
        let refusal = Refusal::of(number, 3).unwrap();
        assert_eq!(refusal.number(), number);
        assert_eq!(refusal.position(), if (8..=14).contains(&number) || number == 21 { 3 } else { 0 });
        words.insert(refusal.to_string());
    }
    assert_eq!(words.len(), 21);
    assert_eq!(Refusal::of(0, 0), None);
    assert_eq!(Refusal::RowOrder { position: 2 }.to_string(), "refused by 14 at position 2: a row is not above the row before");
}

// A number that this package does not know is an error like any other.
#[test]
fn unknown_numbers() {
    for number in [22, u32::MAX] {
        let refusal = Refusal::of(number, 7).unwrap();
        assert_eq!((refusal.number(), refusal.position()), (number, 7));
        assert_eq!(refusal.to_string(), format!("refused by {number} at position 7: no number of this library"));
    }
}

// A column of 256 rows is accepted, and the 257th row is not.
#[test]
fn longest_columns() {
    let rows: Vec<u32> = (1..=257).collect();
    let mut world = World::open(Sizes { m: 257, n: 2, f: 65536, c: 600 }, OLD_LIMITS, &mut Random::new(1));
    assert_eq!(world.add(&Lists::always(&[1], &[256], &rows[..256])), (0, 0));
    assert_eq!(world.add(&Lists::always(&[2], &[257], &rows)), (12, 1));
}
