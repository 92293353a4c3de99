//! The columns that meet a row and the common row of some rows: answers, every number that refuses them with the order among these, and what is lent.
//! Random histories (histories.rs) ask both too.
mod model;

use model::early::{each_early, work_stays};
use model::meeting::{common, meets};
use model::random::Random;
use model::world::World;
use model::{Lists, Sizes, OLD_LIMITS};
use nigvalds::lent::{work_places, Record, Reply, Tables};
use nigvalds::{Factor, Refusal};

const SIZES: Sizes = Sizes { m: 5, n: 8, f: 9, c: 16 };

// The state of the listing's example: {1, 3}, {1, 4}, {2, 3} under ids 1 to 3. Paths are 1 3 4, 2 3 4, 3 4, 4 and 5.
fn example() -> (World, Random) {
    let mut random = Random::new(1);
    let mut world = World::open(SIZES, OLD_LIMITS, &mut random);
    assert_eq!(world.add(&Lists::always(&[1, 2, 3], &[2, 2, 2], &[1, 3, 1, 4, 2, 3])), (0, 0));
    (world, random)
}

fn wrapped() -> Factor {
    let mut factor = Factor::open(5, 8, 9, 16).unwrap();
    factor.add(&[(1, &[1, 3]), (2, &[1, 4]), (3, &[2, 3])]).unwrap();
    factor
}

#[test]
fn columns_that_meet_a_row() {
    let factor = wrapped();
    let answers: [&[u32]; 5] = [&[1], &[2], &[1, 2, 3], &[1, 3, 4], &[5]];
    for (i, answer) in (1..).zip(answers) {
        let columns = factor.meets(i).unwrap();
        assert_eq!(columns.len(), answer.len());
        assert_eq!(columns.collect::<Vec<_>>(), answer);
    }
    for i in [0, 6, 65537, u32::MAX] {
        assert_eq!(factor.meets(i).err(), Some(Refusal::AskedOutside));
    }
}

#[test]
fn common_rows() {
    let factor = wrapped();
    let answers: [(&[u32], Option<u32>); 13] = [
        (&[1], Some(1)),
        (&[4], Some(4)),
        (&[5], Some(5)),
        (&[2, 2], Some(2)),
        (&[1, 2], Some(3)),
        (&[2, 1], Some(3)),
        (&[1, 3], Some(3)),
        (&[4, 1], Some(4)),
        (&[1, 2, 1, 2], Some(3)),
        (&[2, 1, 4], Some(4)),
        (&[1, 5], None),
        (&[5, 1], None),
        (&[1, 2, 5], None),
    ];
    for (rows, answer) in answers {
        assert_eq!(factor.common(rows), Ok(answer), "{rows:?}");
    }
    assert_eq!(factor.common(&[1; 64]), Ok(Some(1)));
    assert_eq!(factor.common(&[[1; 63].as_slice(), &[2]].concat()), Ok(Some(3)));
    assert_eq!(factor.common(&[[1; 63].as_slice(), &[5]].concat()), Ok(None));
}

// 7 for no row or more than 64, whatever the rows are; then 17 for one outside, at any place.
#[test]
fn rows_refused() {
    let (mut world, mut random) = example();
    let patterns = world.factor();
    let cases: [(&[u32], u32); 13] = [
        (&[], 7),
        (&[1; 65], 7),
        (&[0; 65], 7),
        (&[6; 65], 7),
        (&[u32::MAX; 1000], 7),
        (&[0], 17),
        (&[6], 17),
        (&[u32::MAX], 17),
        (&[65537], 17),
        (&[6; 64], 17),
        (&[1, 5, 0], 17),
        (&[5, 1, 2, 6], 17),
        (&[5; 64], 0),
    ];
    for (rows, number) in cases {
        assert_eq!(world.ask_common(&mut random, &patterns, rows), number);
        assert_eq!(wrapped().common(rows).err(), Refusal::of(number, 0));
    }
    let many: Vec<u32> = (0..65536).map(|k| k % 7).collect();
    assert_eq!(world.ask_common(&mut random, &patterns, &many), 7);
}

// From any place on, into lists that just hold the answer, hold more or end before it does; a row outside is 17 whatever the list is.
#[test]
fn lists() {
    let (mut world, mut random) = example();
    for place in 0..4 {
        for room in 0..6 {
            for (i, answer) in [(3, [1, 2, 3]), (4, [1, 3, 4])] {
                let number = world.ask_meets(&mut random, i, Some(&answer), place, room);
                assert_eq!(number, if room < 3 { 18 } else { 0 });
            }
            for i in [0, 6, 65537, u32::MAX] {
                assert_eq!(world.ask_meets(&mut random, i, None, place, room), 17);
            }
        }
    }
}

// A place past the end of the list is 18, however far; 17 stands before it.
#[test]
fn places_past_the_end() {
    let (world, _) = example();
    let mut work = world.work.clone();
    for length in [0, 1, 7] {
        for place in [length, length + 1, 1 << 32, (1 << 32) + 1, usize::MAX - 1, usize::MAX] {
            let mut list = vec![7; length];
            for (i, number) in [(1, 18), (5, 18), (0, 17), (6, 17)] {
                work.fill(9);
                assert_eq!(world.tables.meets(world.record, &mut work, &mut list, i, place), Reply { number, value: 0 });
                assert!(list.iter().all(|x| *x == 7) && work[..work_places(5, 8, 9, 16)].iter().all(|x| *x == 0));
            }
        }
    }
}

// A question on tables and a record, with a work table and a list.
type Call = fn(&Tables, Record, &mut [u32], &mut [u32]) -> Reply;

// Both questions, also with rows and a place that later numbers would refuse.
const CALLS: [Call; 6] = [
    |t, r, work, list| t.meets(r, work, list, 4, 0),
    |t, r, work, list| t.meets(r, work, list, 0, 0),
    |t, r, work, list| t.meets(r, work, list, 4, usize::MAX),
    |t, r, work, _| t.common(r, work, &[1, 2]),
    |t, r, work, _| t.common(r, work, &[]),
    |t, r, work, _| t.common(r, work, &[0; 65]),
];

// Every call gives this number, and nothing changes but the work table under 6.
fn every_call(t: &Tables, record: Record, places: usize, number: u32) {
    let before = t.clone();
    for call in CALLS {
        let (mut work, mut list) = (vec![9; places], vec![7; 5]);
        assert_eq!(call(t, record, &mut work, &mut list), Reply { number, value: 0 });
        assert!(work_stays(record, number, &work) && *t == before && list == [7; 5]);
    }
}

// 1 to 6 stand before 7, 17 and 18.
#[test]
fn sizes_and_tables_first() {
    let factor = wrapped();
    each_early(factor.tables(), factor.record(), every_call);
}

// A random factor of the largest m: some rows' columns and random lists of rows.
#[test]
fn largest() {
    let mut random = Random::new(9);
    let mut factor = Factor::open(4096, 640, 0, 2560).unwrap();
    let mut live = model::Live::new();
    for id in 1..=640 {
        let (start, count) = (random.within(1, 4056), random.within(1, 4));
        let rows: Vec<u32> = random.rising(count, 40).iter().map(|k| start + k).collect();
        factor.add(&[(id, &rows)]).unwrap();
        live.insert(id, rows);
    }
    let patterns = model::factor(4096, &live);
    for i in (1..=4096).step_by(37).chain([4096]) {
        assert_eq!(factor.meets(i).unwrap().collect::<Vec<_>>(), meets(&patterns, i));
    }
    let mut found = [0, 0];
    for round in 0..300 {
        let (low, count) = (random.within(1, 4000), random.one(&[1, 2, 3, 64]));
        let reach = if round % 3 == 0 { 4096 - low } else { random.within(1, 96) };
        let rows: Vec<u32> = (0..count).map(|_| random.within(low, low + reach)).collect();
        let row = common(&patterns, &rows);
        assert_eq!(factor.common(&rows), Ok((row != 0).then_some(row)), "{rows:?}");
        found[(row != 0) as usize] += 1;
    }
    assert!(found[0] > 20 && found[1] > 20, "{found:?}");
}
