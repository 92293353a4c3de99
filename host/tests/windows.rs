//! Windows: what an addition takes and refuses, with 21 and its order; columns outside their windows in batches; the table of windows, short, long and damaged.
//! Random histories (histories.rs) have windows too.
mod model;

use model::booked::{is_window, Lists};
use model::calls::every_call;
use model::judging::{judged, laid, LARGE, SMALL};
use model::laid::{Laid, Order};
use model::random::Random;
use model::world::World;
use model::{Number, Sizes, OLD_LIMITS};
use nigvalds::lent::{work_places, Record, Tables};
use nigvalds::{Factor, Limits, Refusal, Window};
use std::ops::Range;

const MAX: u32 = u32::MAX;
const SIZES: Sizes = Sizes { m: 5, n: 8, f: 9, c: 16 };

// Ids 1 to 3 with {1, 3}, {1, 4}, {2, 3}, the second from minute 5 on and up to 9.
fn example() -> World {
    let mut world = World::open(SIZES, OLD_LIMITS, &mut Random::new(1));
    assert_eq!(world.add(&Lists::of(&[(1, &[1, 3], 0, 0), (2, &[1, 4], 5, 10), (3, &[2, 3], 0, 0)])), (0, 0));
    world
}

// ---- additions

// Lists of minutes that are not as long as the ids are 7, empty ones too, whatever else the lists have.
#[test]
fn lists_of_minutes() {
    let mut world = example();
    for ids in [[4, 5], [0, 9], [4, 4], [1, 2]] {
        for (firsts, seconds) in [(0, 0), (0, 2), (1, 1), (1, 2), (2, 0), (2, 1), (2, 3), (3, 2), (3, 3), (65, 65)] {
            let x = Lists { ids: ids.to_vec(), counts: vec![1, 1], rows: vec![5, 5], firsts: vec![0; firsts], seconds: vec![0; seconds] };
            assert_eq!(world.add(&x), (7, 0));
        }
    }
    let x = Lists { firsts: vec![1; 65], seconds: vec![0; 65], ..Lists::always(&[4; 65], &[1; 65], &[5; 65]) };
    assert_eq!(world.add(&x), (7, 0));
}

// Minutes of column 4, and whether 21 refuses them.
const MINUTES: [(u32, u32, bool); 16] = [
    (0, 0, false),
    (0, 1, false),
    (0, MAX, false),
    (1, 2, false),
    (MAX - 1, MAX, false),
    (1 << 31, MAX, false),
    (1, 0, true),
    (MAX, 0, true),
    (1, 1, true),
    (2, 1, true),
    (MAX, 1, true),
    (MAX, MAX - 1, true),
    (MAX, MAX, true),
    (MAX - 1, MAX - 1, true),
    (1 << 31, 1, true),
    (65536, 65536, true),
];

#[test]
fn windows_taken_and_refused() {
    for (first, second, refused) in MINUTES {
        for clock in [0, 1, MAX - 1, MAX] {
            let mut world = example();
            assert_eq!(world.set_clock(clock), (0, 0));
            let number = world.add(&Lists::of(&[(4, &[5], first, second)]));
            assert_eq!(number, if refused { (21, 1) } else { (0, 0) }, "{first} and {second}");
            let at = |k: usize| (world.tables.windows[k], world.tables.windows[8 + k]);
            assert_eq!((at(3), at(1)), (if refused { (0, 0) } else { (first, second) }, (5, 10)));
        }
    }
}

// Of a column 8 to 14 stand before 21, which stands before 8 of the next column, and before what follows the last.
#[test]
fn order_of_refusals() {
    let cases: [(Lists, Number); 14] = [
        (Lists::of(&[(4, &[5], 0, 0), (5, &[5], 3, 3)]), (21, 2)),
        (Lists::of(&[(4, &[5], 9, 3), (5, &[5], 3, 3)]), (21, 1)),
        (Lists::of(&[(9, &[5], 3, 3)]), (8, 1)),
        (Lists::of(&[(4, &[5], 1, 2), (4, &[5], 3, 3)]), (9, 2)),
        (Lists::of(&[(2, &[5], 3, 3)]), (10, 1)),
        (Lists::of(&[(4, &[], 3, 3)]), (12, 1)),
        (Lists::of(&[(4, &[1, 6], 3, 3)]), (13, 1)),
        (Lists::of(&[(4, &[5, 5], 3, 3)]), (14, 1)),
        (Lists::of(&[(4, &[5], 3, 3), (9, &[5], 0, 0)]), (21, 1)),
        (Lists::of(&[(4, &[5], 3, 3), (5, &[6], 0, 0)]), (21, 1)),
        (Lists { rows: vec![5, 5], ..Lists::of(&[(4, &[5], 3, 3)]) }, (21, 1)),
        (Lists { rows: vec![5, 5], ..Lists::of(&[(4, &[5], 0, 0)]) }, (12, 0)),
        (Lists::of(&[(4, &[1, 2, 3, 4, 5], 1, 2), (5, &[1, 2, 3, 4, 5], 3, 3), (6, &[1], 0, 0)]), (21, 2)),
        (Lists::of(&[(4, &[1, 5], 0, 0), (5, &[2], 1, 1)]), (21, 2)),
    ];
    for (lists, number) in cases {
        assert_eq!(example().add(&lists), number, "{lists:?}");
    }
}

// Booked columns outside their windows have their ids and book records, and no room in the factor.
#[test]
fn booked_and_live() {
    let mut world = example();
    assert_eq!(world.add(&Lists::always(&[2], &[1], &[5])), (10, 1));
    // All 16 book records.
    assert_eq!(world.add(&Lists::of(&[(4, &[1, 2, 3, 4, 5], 5, 6), (5, &[1, 2, 3, 4, 5], 7, 8)])), (0, 0));
    assert_eq!(world.add(&Lists::of(&[(6, &[1], 5, 6)])), (15, 0));
    assert_eq!(world.add(&Lists::of(&[(6, &[1], 0, 0)])), (15, 0));
    assert_eq!(world.set_clock(5), (16, 0));
    assert_eq!(world.set_clock(6), (0, 0));
    assert_eq!(world.remove(&[5, 4]), (0, 0));
    assert_eq!(world.remove(&[4]), (11, 1));
    assert_eq!(world.add(&Lists::of(&[(4, &[1, 5], 0, 0)])), (16, 0));
    assert_eq!(world.add(&Lists::of(&[(4, &[1, 5], 0, 6)])), (0, 0));
    assert_eq!(world.set_clock(5), (16, 0));
}

// ---- batches with columns outside their windows

fn lists(world: &World) -> (Vec<u16>, Vec<u16>) {
    (world.touched[..4].to_vec(), world.labels[..4].to_vec())
}

// A column without a path keeps its position: the labels of the others do not move up, and none has its position.
#[test]
fn labels() {
    for (minutes, touched, labels) in [
        ([(0, 0), (0, 0), (0, 0)], vec![1, 2, 3, 4], vec![2, 3, 3, 3]),
        ([(0, 0), (1, 2), (0, 0)], vec![1, 2, 3], vec![1, 3, 3]),
        ([(1, 2), (0, 0), (0, 0)], vec![1, 2, 3, 4], vec![2, 3, 3, 2]),
        ([(0, 0), (0, 0), (1, 2)], vec![1, 3, 4], vec![2, 2, 2]),
        ([(1, 2), (1, 2), (0, 1)], vec![2, 3], vec![3, 3]),
        ([(1, 2), (1, 2), (1, 2)], vec![], vec![]),
    ] {
        let mut factor = Factor::open(5, 8, 9, 16).unwrap();
        let (firsts, seconds): (Vec<u32>, Vec<u32>) = minutes.into_iter().unzip();
        let report = factor.add_lists(&[1, 2, 3], &[2, 2, 2], &[1, 3, 1, 4, 2, 3], &firsts, &seconds).unwrap();
        assert_eq!((report.touched, report.labels, report.grade), (&touched[..], &labels[..], u32::from(!touched.is_empty())), "{minutes:?}");
        let report = factor.remove(&[1, 2, 3]).unwrap();
        assert_eq!((report.touched, report.labels, report.grade), (&touched[..], &labels[..], u32::from(!touched.is_empty())), "{minutes:?}");
        assert_eq!((format!("{factor:?}"), factor.tables().windows.iter().max()), ("1 0 1:1\n2 0 2:1\n3 0 3:1\n4 0 4:1\n5 0 5:1\n".into(), Some(&0)));
    }
}

// An addition and a removal that touch nothing are accepted with zeros, grade 0 too, and leave the lists as lent.
#[test]
fn grade_zero() {
    for limits in [OLD_LIMITS, [2, 3, 4]] {
        let mut world = World::open(SIZES, limits, &mut Random::new(3));
        let lent = lists(&world);
        assert_eq!(world.add(&Lists::of(&[(3, &[1, 2, 3, 4, 5], 1, 2), (1, &[2], 7, MAX)])), (0, 0));
        assert_eq!(world.remove(&[1, 3]), (0, 0));
        assert_eq!(world.set_clock(3), (0, 0));
        assert_eq!(lists(&world), lent);
        let mut factor = Factor::open(5, 8, 9, 16).unwrap();
        let report = factor.add_with_windows(&[(1, &[1, 5], Some(3..4))]).unwrap();
        assert_eq!((report.touched.len(), report.labels.len(), report.entries, report.grade), (0, 0, 0, 0));
    }
}

// A window that an id had is not there when it is booked again.
#[test]
fn booked_again() {
    let mut world = example();
    for (first, second) in [(0, 0), (3, 4), (0, 1), (0, 0), (MAX - 1, MAX), (0, 0)] {
        assert_eq!(world.remove(&[2]), (0, 0));
        assert_eq!(world.tables.windows[..16], [0; 16]);
        assert_eq!(world.add(&Lists::of(&[(2, &[1, 4], first, second)])), (0, 0));
        assert_eq!((world.tables.windows[1], world.tables.windows[9]), (first, second));
    }
}

// ---- windows in Rust

// A range or none; an empty range is refused, 0..0 too.
#[test]
fn ranges() {
    let ranges: [(Window, bool); 9] = [
        (None, true),
        (Some(0..1), true),
        (Some(0..MAX), true),
        (Some(MAX - 1..MAX), true),
        (Some(0..0), false),
        (Some(7..7), false),
        (Some(MAX..MAX), false),
        (Some(Range { start: 7, end: 3 }), false),
        (Some(Range { start: MAX, end: 0 }), false),
    ];
    for (range, taken) in ranges {
        let mut factor = Factor::open(5, 8, 9, 16).unwrap();
        let answer = factor.add_with_windows(&[(1, &[2], None), (4, &[1, 3], range.clone())]).map(|_| ());
        assert_eq!(answer, if taken { Ok(()) } else { Err(Refusal::Window { position: 2 }) }, "{range:?}");
        let minutes = (factor.tables().windows[3], factor.tables().windows[11]);
        assert_eq!(minutes, range.filter(|_| taken).map_or((0, 0), |r| (r.start, r.end)));
    }
    let mut factor = Factor::open(5, 8, 9, 16).unwrap();
    assert_eq!(factor.add_with_windows(&[]).err(), Some(Refusal::Shape));
    assert_eq!(factor.add_with_windows(&[(0, &[6], Some(0..0)), (4, &[1], Some(0..0))]).err(), Some(Refusal::IdOutside { position: 1 }));
}

// ---- the table of windows

// One place fewer is 5 in every call, and nothing changes; an opening needs just 2 n places.
#[test]
fn short_table() {
    let (world, places) = (example(), work_places(5, 8, 9, 16));
    for length in [0, 8, 15] {
        let mut short = world.tables.clone();
        short.windows.truncate(length);
        every_call(world.record, &short, places, 5);
        every_call(Record { clock: 7, ..world.record }, &short, places, 5);
        let (before, mut work) = (short.clone(), vec![9; places]);
        assert_eq!(short.open(5, 8, 9, 16, Limits::default(), &mut work).number, 5);
        assert!(short == before && work.iter().all(|x| *x == 9));
        assert_eq!(short.open(5, length as u32 / 2 + 1, 9, 16, Limits::default(), &mut work).number, 5);
        assert_eq!(short.open(5, 7.min(length as u32 / 2).max(1), 9, 16, Limits::default(), &mut work).number, if length == 0 { 5 } else { 0 });
    }
    let mut just = world.tables.clone();
    just.windows.truncate(16);
    assert_eq!(just.check(world.record, &mut vec![0; places]).number, 0);
}

// Places beyond 2 n keep their content in every call, and are not read; an opening with fewer ids has fewer places to write.
#[test]
fn places_beyond() {
    let mut tables = Tables { windows: vec![7; 20], ..Tables::for_sizes(5, 8, 9, 16) };
    let (mut work, mut touched, mut labels) = (vec![9; work_places(5, 8, 9, 16)], [0; 5], [0; 5]);
    let mut record = tables.open(5, 8, 9, 16, Limits::default(), &mut work).record;
    assert_eq!((&tables.windows[..16], &tables.windows[16..]), (&[0; 16][..], &[7; 4][..]));
    for (first, second) in [(0, 0), (2, 4)] {
        record = tables.add(record, &mut work, &mut touched, &mut labels, &[8], &[2], &[1, 3], &[first], &[second]).record;
        assert_eq!((tables.windows[7], tables.windows[15], &tables.windows[16..]), (first, second, &[7; 4][..]));
        for minute in [2, 4, 0] {
            record = tables.set_clock(record, &mut work, &mut touched, &mut labels, minute).record;
            assert_eq!((record.clock, tables.check(record, &mut work).number), (minute, 0));
        }
        record = tables.remove(record, &mut work, &mut touched, &mut labels, &[8]).record;
        assert_eq!((&tables.windows[..16], &tables.windows[16..]), (&[0; 16][..], &[7; 4][..]));
    }
    tables.windows.fill(5);
    assert_eq!(tables.open(5, 3, 9, 16, Limits::default(), &mut work).number, 0);
    assert_eq!((&tables.windows[..6], &tables.windows[6..]), (&[0; 6][..], &[5; 14][..]));
}

// ---- damaged windows and clocks

// Of an id that is not booked anything but 0 and 0 is unsound; of a booked one a window is sound exactly if the column counts as before.
fn minutes_of_each_id(x: &Laid, random: &mut Random, found: &mut [u32; 2]) {
    let (n, clock) = (x.record.n, x.record.clock);
    let book = model::sound::booked(x.record, &x.tables).expect("sound tables");
    let near = [0, 1, 2, clock.wrapping_sub(1), clock, clock.wrapping_add(1), MAX - 1, MAX];
    for id in 1..=n {
        for (first, second) in near.iter().flat_map(|a| near.map(|b| (*a, b))) {
            let mut y = x.clone();
            (y.tables.windows[id as usize - 1], y.tables.windows[(n + id) as usize - 1]) = (first, second);
            let sound = match book.get(&id) {
                None => (first, second) == (0, 0),
                Some(line) => {
                    let other = model::booked::Line { first, second, ..line.clone() };
                    is_window(first, second) && line.counts_at(clock) == other.counts_at(clock)
                }
            };
            assert_eq!(judged(&y, random), sound, "id {id}: {first} and {second} at {clock}");
            found[usize::from(sound)] += 1;
        }
    }
}

#[test]
fn damaged_windows() {
    let (mut random, mut found) = (Random::new(4), [0; 2]);
    for s in [SMALL, SMALL, SMALL, SMALL, LARGE[0]] {
        let x = laid(s, Order::Random, &mut random);
        minutes_of_each_id(&x, &mut random, &mut found);
    }
    assert!(found.iter().all(|n| *n > 100), "{found:?}");
}

// Places beyond 2 n may hold anything, and so may the minutes of what is not an id.
#[test]
fn beyond_is_not_read() {
    let mut random = Random::new(5);
    for _ in 0..10 {
        let mut x = laid(SMALL, Order::Random, &mut random);
        for k in 2 * SMALL.n as usize..x.tables.windows.len() {
            x.tables.windows[k] = random.next() as u32;
            assert!(judged(&x, &mut random));
        }
    }
}

// Any minute may stand in the record: sound exactly if the factor is that of the columns that count then.
#[test]
fn damaged_clocks() {
    let (mut random, mut found) = (Random::new(6), [0; 2]);
    for _ in 0..60 {
        let mut x = laid(SMALL, Order::Random, &mut random);
        let (book, was) = (model::sound::booked(x.record, &x.tables).unwrap(), x.record.clock);
        for clock in (0..=14).chain([1 << 31, MAX - 1, MAX]) {
            x.record.clock = clock;
            let same = model::factor(SMALL.m, &model::live(&book, clock)) == model::factor(SMALL.m, &model::live(&book, was));
            assert_eq!(judged(&x, &mut random), same, "{was} to {clock}");
            found[usize::from(same)] += 1;
        }
    }
    assert!(found.iter().all(|n| *n > 50), "{found:?}");
}

// One column leaves and another with the same rows enters: the factor is the same, and the record with the other minute is sound. Where rows differ it is 6, in
// every call.
#[test]
fn another_clock() {
    let (mut work, places) = (vec![0; work_places(5, 8, 9, 16)], work_places(5, 8, 9, 16));
    for (rows, sound) in [([1, 3], true), ([1, 4], false)] {
        let mut factor = Factor::open(5, 8, 9, 16).unwrap();
        factor.add_with_windows(&[(1, &[1, 3], Some(0..5)), (2, &rows, Some(5..9))]).unwrap();
        for (clock, sound) in [(4, true), (5, sound), (8, sound), (9, false), (MAX, false)] {
            let record = Record { clock, ..factor.record() };
            assert_eq!(factor.tables().check(record, &mut work).number, if sound { 0 } else { 6 });
            if !sound {
                every_call(record, factor.tables(), places, 6);
            }
        }
    }
}

// A damaged table is 6 in every call, with the record's own minute and with another.
#[test]
fn damaged_in_every_call() {
    let (world, places) = (example(), work_places(5, 8, 9, 16));
    for (k, minute) in [(3, 1), (11, 1), (0, 1), (8, 0), (1, 10), (1, 0), (9, 5), (7, MAX), (15, MAX)] {
        let mut damaged = world.tables.clone();
        damaged.windows[k] = minute;
        let sound = model::sound::is_sound(world.record, &damaged);
        assert_eq!((sound, damaged == world.tables), ((k, minute) == (8, 0), (k, minute) == (8, 0)));
        if !sound {
            every_call(world.record, &damaged, places, 6);
        }
    }
}
