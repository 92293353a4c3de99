//! F = 0: the default at an opening, with the tables and the room that it needs; refused by 3 in a record.
mod model;

use model::calls::every_call;
use model::early::work_stays;
use model::random::Random;
use model::world::World;
use model::{Sizes, OLD_LIMITS};
use nigvalds::lent::{work_places, Opened, Record, Tables};
use nigvalds::{Factor, Limits, Refusal};

// Five rows, eight ids, 16 book records.
fn open(tables: &mut Tables, f: u32, work: &mut [u32]) -> Opened {
    tables.open(5, 8, f, 16, Limits::default(), work)
}

fn refused(number: u32) -> Opened {
    Opened { number, record: Record::default() }
}

// ---- accepted

// The package's tables have the places that F = 0 needs: smallest and largest m, and some between.
#[test]
fn tables_by_default() {
    for m in [1, 5, 64, 4095, 4096] {
        let factor = Factor::open(m, 1, 0, 1).unwrap();
        assert_eq!((factor.record().f, factor.tables().rows.len()), (32 * m, 32 * m as usize));
        assert_eq!(factor.check(), Ok(()));
    }
    assert_eq!(Factor::RECORDS_PER_ROW, 32);
}

// 63 rows can have 2,016 entries, which is the default; 64 rows can have 2,080, which is 32 more than it.
#[test]
fn room_by_default() {
    for (m, entries) in [(63, Ok(2016)), (64, Err(Refusal::FactorFull))] {
        let mut factor = Factor::open(m, 1, 0, m).unwrap();
        let rows: Vec<u32> = (1..=m).collect();
        assert_eq!(factor.add(&[(1, &rows)]).map(|r| r.entries), entries);
    }
}

#[test]
fn named_is_kept() {
    for f in [5, 9, 80, 159, 160, 161, 1048576] {
        assert_eq!(Factor::open(5, 8, f, 16).unwrap().record().f, f);
    }
}

// Everything that openings, batches and questions answer and leave, where F is left at 0; tables of any contents, with places beyond.
#[test]
fn histories_by_default() {
    for seed in 2000..2100 {
        let mut random = Random::new(seed);
        let asked = Sizes { f: 0, ..random.sizes() };
        let mut world = World::open(asked, OLD_LIMITS, &mut random);
        assert_eq!(world.record.f, 32 * asked.m);
        for _ in 0..10 {
            let lists = random.addition(world.sizes, &world.book);
            world.add(&lists);
            let ids = random.removal(world.sizes, &world.book);
            world.remove(&ids);
            let minute = random.minute();
            world.set_clock(minute);
        }
        world.ask();
        assert_eq!(world.reopen(asked, OLD_LIMITS), 0);
    }
}

// In longer tables the places beyond the default keep their content.
#[test]
fn longer_tables() {
    let mut tables = Tables { rows: vec![7; 200], counts: vec![7; 200], next: vec![7; 200], ..Tables::for_sizes(5, 8, 0, 16) };
    let mut work = vec![9; work_places(5, 8, 160, 16) + 1];
    assert_eq!(open(&mut tables, 0, &mut work).record.f, 160);
    assert_eq!((tables.rows[159], tables.counts[159], tables.next[159], work[work.len() - 2]), (0, 0, 0, 0));
    assert_eq!((&tables.rows[160..], &tables.counts[160..], &tables.next[160..], work[work.len() - 1]), (&[7; 40][..], &[7; 40][..], &[7; 40][..], 9));
}

// ---- refused

// One place fewer, in a table of records or in the work table, is 5, and nothing changes.
#[test]
fn one_place_fewer() {
    let enough = [160, 160, 160, work_places(5, 8, 160, 16)];
    for fewer in [[0; 4], [1, 0, 0, 0], [0, 1, 0, 0], [0, 0, 1, 0], [0, 0, 0, 1]] {
        let [rows, counts, next, places] = [0, 1, 2, 3].map(|k| enough[k] - fewer[k]);
        let mut tables = Tables { rows: vec![7; rows], counts: vec![7; counts], next: vec![7; next], ..Tables::for_sizes(5, 8, 160, 16) };
        let (before, mut work) = (tables.clone(), vec![9; places]);
        let opened = open(&mut tables, 0, &mut work);
        if fewer == [0; 4] {
            assert_eq!((opened.number, opened.record.f), (0, 160));
            continue;
        }
        assert_eq!(opened, refused(5));
        assert!(tables == before && work_stays(Record::default(), 5, &work));
    }
}

// Tables for 16 records a row: 5 where F is left at 0, in an opening anew too; accepted where F is named.
#[test]
fn tables_for_fewer() {
    let mut tables = Tables::for_sizes(5, 8, 80, 16);
    let mut work = vec![9; work_places(5, 8, 80, 16)];
    assert_eq!(open(&mut tables, 0, &mut work), refused(5));
    assert!(tables == Tables::for_sizes(5, 8, 80, 16) && work_stays(Record::default(), 5, &work));
    assert_eq!(open(&mut tables, 80, &mut work).record.f, 80);
    let mut factor = Factor::open(5, 8, 80, 16).unwrap();
    assert_eq!(factor.reopen(5, 8, 0, 16).unwrap_err(), Refusal::Short);
    assert_eq!((factor.record().f, factor.reopen(5, 8, 80, 16)), (80, Ok(())));
}

// 0 in a record is 3, though its tables have the default's places; 1 and 2 come before it, 4 after.
#[test]
fn zero_in_a_record() {
    let factor = Factor::open(5, 8, 0, 16).unwrap();
    let (record, places) = (Record { f: 0, ..factor.record() }, work_places(5, 8, 160, 16));
    for (record, number) in [(record, 3), (Record { c: 0, ..record }, 3), (Record { n: 0, ..record }, 2), (Record { m: 0, ..record }, 1)] {
        every_call(record, factor.tables(), places, number);
    }
}
