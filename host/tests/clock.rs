//! Clock changes beside the definition: who leaves and enters, the report, what stays; more columns than one group has; changes that do not fit and leave everything as
//! it was. Random histories (histories.rs) set the clock too.
mod model;

use model::booked::{Line, Lists};
use model::early::{each_early, work_stays};
use model::random::Random;
use model::world::World;
use model::{Book, Live, Pattern, Sizes, OLD_LIMITS};
use nigvalds::lent::{Changed, Record, Tables};
use nigvalds::{Factor, Refusal};
use std::collections::BTreeSet;

const MAX: u32 = u32::MAX;
const SIZES: Sizes = Sizes { m: 5, n: 8, f: 9, c: 16 };
const FRESH: &str = "1 0 1:1\n2 0 2:1\n3 0 3:1\n4 0 4:1\n5 0 5:1\n";

// {1, 3} always, {1, 4} from minute 5 up to 10, {2, 3} from 8 up to 20.
const LINES: [(u32, &[u32], u32, u32); 3] = [(1, &[1, 3], 0, 0), (2, &[1, 4], 5, 10), (3, &[2, 3], 8, 20)];

fn example() -> World {
    let mut world = World::open(SIZES, OLD_LIMITS, &mut Random::new(1));
    assert_eq!(world.add(&Lists::of(&LINES)), (0, 0));
    world
}

fn wrapped() -> Factor {
    let mut factor = Factor::open(5, 8, 9, 16).unwrap();
    factor.add_with_windows(&[(1, &[1, 3], None), (2, &[1, 4], Some(5..10)), (3, &[2, 3], Some(8..20))]).unwrap();
    factor
}

// ---- answers

// A minute, the columns that the change to it touches, its entries, and the listing after it.
type Step<'a> = (u32, &'a [u16], u32, &'a str);

const STEPS: [Step; 9] = [
    (4, &[], 0, "1 3 1:2 3:1\n2 0 2:1\n3 0 3:2\n4 0 4:1\n5 0 5:1\n"),
    (5, &[1, 3, 4], 6, "1 3 1:3 3:1 4:1\n2 0 2:1\n3 4 3:2 4:1\n4 0 4:2\n5 0 5:1\n"),
    (5, &[], 0, "1 3 1:3 3:1 4:1\n2 0 2:1\n3 4 3:2 4:1\n4 0 4:2\n5 0 5:1\n"),
    (9, &[2, 3, 4], 5, "1 3 1:3 3:1 4:1\n2 3 2:2 3:1\n3 4 3:3 4:1\n4 0 4:2\n5 0 5:1\n"),
    (10, &[1, 3, 4], 6, "1 3 1:2 3:1\n2 3 2:2 3:1\n3 0 3:3\n4 0 4:1\n5 0 5:1\n"),
    (5, &[1, 2, 3, 4], 8, "1 3 1:3 3:1 4:1\n2 0 2:1\n3 4 3:2 4:1\n4 0 4:2\n5 0 5:1\n"),
    (19, &[1, 2, 3, 4], 8, "1 3 1:2 3:1\n2 3 2:2 3:1\n3 0 3:3\n4 0 4:1\n5 0 5:1\n"),
    (MAX, &[2, 3], 3, "1 3 1:2 3:1\n2 0 2:1\n3 0 3:2\n4 0 4:1\n5 0 5:1\n"),
    (0, &[], 0, "1 3 1:2 3:1\n2 0 2:1\n3 0 3:2\n4 0 4:1\n5 0 5:1\n"),
];

#[test]
fn forward_and_back() {
    let (mut factor, mut world) = (wrapped(), example());
    for (minute, touched, entries, listing) in STEPS {
        let report = factor.set_clock(minute).unwrap();
        let grade = u32::from(!touched.is_empty());
        assert_eq!((report.touched, report.labels, report.entries, report.grade), (touched, &vec![0; touched.len()][..], entries, grade), "to {minute}");
        assert_eq!((factor.clock(), format!("{factor:?}"), factor.check()), (minute, listing.into(), Ok(())));
        assert_eq!(world.set_clock(minute), (0, 0));
        world.ask();
    }
}

// An opening stands at minute 0; a refused one keeps the clock, as every refused call does, and so do batches and questions.
#[test]
fn how_long_it_stays() {
    let mut factor = wrapped();
    assert_eq!(factor.clock(), 0);
    factor.set_clock(6).unwrap();
    factor.remove(&[3]).unwrap();
    factor.add(&[(3, &[5])]).unwrap();
    assert_eq!(factor.add(&[(3, &[5])]).err(), Some(Refusal::IdBooked { position: 1 }));
    assert_eq!(factor.reopen(6, 8, 9, 16).unwrap_err(), Refusal::Short);
    assert_eq!((factor.clock(), factor.record().clock, factor.parent(1)), (6, 6, Ok(Some(3))));
    factor.reopen(5, 8, 9, 16).unwrap();
    assert_eq!((factor.clock(), format!("{factor:?}")), (0, FRESH.into()));
}

// A column leaves and another with the same rows enters: nothing in the factor differs, and all columns on the path are listed.
#[test]
fn equal_rows() {
    let mut world = World::open(SIZES, OLD_LIMITS, &mut Random::new(2));
    assert_eq!(world.add(&Lists::of(&[(1, &[1, 3], 0, 5), (2, &[1, 3], 5, 9), (3, &[3, 4], 0, 0)])), (0, 0));
    for minute in [5, 4, 8, 0] {
        let before = world.factor();
        assert_eq!(world.set_clock(minute), (0, 0));
        assert_eq!((world.factor() == before, &world.touched[..3]), (true, &[1, 3, 4][..]));
    }
}

// The last minutes: a window that ends at 2^32 - 1 counts at the minute before; a column without a window counts at 2^32 - 1 too.
#[test]
fn last_minutes() {
    let mut factor = Factor::open(5, 8, 9, 16).unwrap();
    factor.add_with_windows(&[(1, &[1], Some(MAX - 1..MAX)), (2, &[2], Some(0..MAX)), (3, &[3], None)]).unwrap();
    let diagonal = |factor: &Factor| [1, 2, 3].map(|j| factor.next_row(1, j).unwrap().unwrap().multiplicity);
    for (minute, live) in [(0, [1, 2, 2]), (MAX - 2, [1, 2, 2]), (MAX - 1, [2, 2, 2]), (MAX, [1, 1, 2]), (MAX - 1, [2, 2, 2]), (0, [1, 2, 2])] {
        factor.set_clock(minute).unwrap();
        assert_eq!(diagonal(&factor), live, "at {minute}");
    }
}

// ---- refusals

// 1 to 6 stand before 16, for any minute; the answer has the record that was given, and lists stay.
fn every_minute(t: &Tables, record: Record, places: usize, number: u32) {
    for minute in [0, record.clock, 1, 9, MAX] {
        let (mut x, mut work, mut touched, mut labels) = (t.clone(), vec![9; places], vec![7; 5], vec![7; 5]);
        let changed = x.set_clock(record, &mut work, &mut touched, &mut labels, minute);
        assert_eq!(changed, Changed { number, position: 0, touched: 0, entries: 0, grade: 0, record });
        assert!(x == *t && work_stays(record, number, &work) && touched == [7; 5] && labels == [7; 5]);
    }
}

#[test]
fn sizes_and_tables_first() {
    let mut factor = Factor::open(5, 8, 9, 16).unwrap();
    factor.add(&[(1, &[1, 3]), (2, &[1, 4]), (3, &[2, 3])]).unwrap();
    each_early(factor.tables(), factor.record(), every_minute);
}

// 16 by the patterns after the change: one that does not fit leaves everything as it was, the clock too; one that fits since others leave is accepted.
#[test]
fn too_large_a_pattern() {
    let mut world = World::open(SIZES, OLD_LIMITS, &mut Random::new(3));
    // Nine records: five diagonals, and four more at most.
    let lines: [(u32, &[u32], u32, u32); 5] = [(1, &[1, 2], 0, 0), (2, &[1, 2, 3], 0, 5), (3, &[3, 4, 5], 3, 8), (4, &[1, 5], 5, 9), (5, &[4, 5], 0, 0)];
    assert_eq!(world.add(&Lists::of(&lines)), (0, 0));
    for (minute, number) in [(3, 16), (5, 16), (4, 16), (8, 0), (0, 0), (2, 0), (7, 16), (9, 0), (4, 16), (0, 0), (MAX, 0), (3, 16), (8, 0)] {
        let clock = world.clock;
        assert_eq!(world.set_clock(minute), (number, 0), "to {minute}");
        assert_eq!((world.record.clock, world.clock), if number == 0 { (minute, minute) } else { (clock, clock) });
        world.ask();
    }
    // Leavers make the room: at 8 the columns of 0 would not fit beside those of 8.
    let both: Book = world.book.iter().map(|(id, line)| (*id, Line { first: 0, second: 0, ..line.clone() })).collect();
    assert!(model::size(&model::factor(5, &model::live(&both, 0))) > SIZES.f as usize);
}

#[test]
fn refused_in_rust() {
    let mut factor = Factor::open(5, 8, 9, 16).unwrap();
    factor.add_with_windows(&[(1, &[1, 3], Some(0..4)), (2, &[1, 2, 3, 4, 5], Some(3..4)), (3, &[2, 4], Some(2..9))]).unwrap();
    factor.set_clock(2).unwrap();
    let (tables, record, listing) = (factor.tables().clone(), factor.record(), format!("{factor:?}"));
    assert_eq!(factor.set_clock(3).err(), Some(Refusal::FactorFull));
    assert!(*factor.tables() == tables);
    assert_eq!((factor.record(), factor.clock(), format!("{factor:?}"), factor.check()), (record, 2, listing, Ok(())));
    assert_eq!(factor.set_clock(4).map(|r| r.touched.to_vec()), Ok(vec![1, 3]));
}

// ---- many columns

const MANY: Sizes = Sizes { m: 40, n: 400, f: 820, c: 2000 };

// So many columns with this window, from an id on; a few rows of a narrow band each.
fn book_many(world: &mut World, random: &mut Random, from: u32, count: u32, first: u32, second: u32) {
    let ids: Vec<u32> = (from..from + count).collect();
    for some in ids.chunks(64) {
        let mut x = Lists::default();
        for id in some {
            let (start, k) = (random.within(0, world.sizes.m - 6), random.within(1, 4));
            let rows: Vec<u32> = random.rising(k, 6).iter().map(|i| start + i).collect();
            x.push(*id, &rows, first, second);
        }
        assert_eq!(world.add(&x), (0, 0));
    }
}

// Groups of 64 and one more or fewer that leave, that enter, and that do both.
#[test]
fn groups() {
    let mut random = Random::new(4);
    for (leave, enter) in [(1, 0), (63, 0), (64, 0), (65, 0), (0, 64), (0, 65), (64, 64), (65, 63), (128, 129), (150, 190), (200, 200)] {
        let mut world = World::open(MANY, OLD_LIMITS, &mut random);
        book_many(&mut world, &mut random, 1, leave, 0, 5);
        book_many(&mut world, &mut random, 1 + leave, enter, 5, 9);
        for minute in [5, 0, 8, 9, 2, MAX] {
            assert_eq!(world.set_clock(minute), (0, 0), "{leave} leave and {enter} enter");
        }
        world.ask_meeting(&mut random);
    }
}

// All groups leave and some enter before one does not fit: everything is as it was, free chains too; without the last columns it fits.
#[test]
fn groups_that_do_not_fit() {
    let mut random = Random::new(5);
    for last in [1, 40] {
        let mut world = World::open(Sizes { f: 300, c: 4000, ..MANY }, OLD_LIMITS, &mut random);
        book_many(&mut world, &mut random, 1, 130, 0, 5);
        book_many(&mut world, &mut random, 131, 150, 5, 9);
        let rows: Vec<u32> = (1..=40).collect();
        let mut x = Lists::default();
        (0..last).for_each(|k| x.push(361 + k, &rows, 5, 9));
        assert_eq!(world.add(&x), (0, 0));
        for minute in [5, 8] {
            assert_eq!(world.set_clock(minute), (16, 0));
        }
        assert_eq!(world.set_clock(MAX), (0, 0));
        assert_eq!(world.set_clock(6), (16, 0));
        assert_eq!(world.set_clock(0), (0, 0));
        assert_eq!(world.remove(&x.ids), (0, 0));
        assert_eq!(world.set_clock(5), (0, 0));
        assert_eq!(world.set_clock(4), (0, 0));
    }
}

// Random clocks over many columns with windows of their own, batches between them, some of which and some of the changes do not fit.
#[test]
fn random_clocks() {
    let mut numbers = [0; 22];
    for seed in 0..25 {
        let mut random = Random::new(seed);
        let sizes = Sizes { f: random.within(120, 500), ..MANY };
        let mut world = World::open(sizes, [20, 200, 400], &mut random);
        for _ in 0..40 {
            let mut x = Lists::default();
            let free: Vec<u32> = (1..=sizes.n).filter(|id| !world.book.contains_key(id)).collect();
            for id in free.iter().skip(random.within(0, 40) as usize).take(random.within(1, 64) as usize) {
                let (start, k, (first, second)) = (random.within(0, 30), random.within(1, 4), random.window());
                let rows: Vec<u32> = random.rising(k, 10).iter().map(|i| start + i).collect();
                x.push(*id, &rows, first, second);
            }
            numbers[world.add(&x).0 as usize] += 1;
            let minute = random.minute();
            numbers[world.set_clock(minute).0 as usize] += 1;
            if random.once_in(4) {
                let ids: Vec<u32> = world.book.keys().copied().filter(|_| random.once_in(5)).take(64).collect();
                numbers[world.remove(&ids).0 as usize] += 1;
            }
        }
        world.ask_meeting(&mut random);
    }
    assert!(numbers[0] > 500 && numbers[16] > 50, "{numbers:?}");
}

// The columns on the paths of these live columns, up to rows that are there already.
fn mark(factor: &[Pattern], live: Live, columns: &mut BTreeSet<u32>) {
    for rows in live.into_values() {
        let mut at = rows[0];
        while at != 0 && columns.insert(at) {
            at = factor[at as usize - 1].parent;
        }
    }
}

// Every id of the largest n moves, half of them out and half in; then the one half out and in again.
#[test]
fn largest() {
    let (m, n) = (Factor::MOST_ROWS, Factor::MOST_IDS);
    let mut factor = Factor::open(m, n, 0, 5 * n).unwrap();
    let (mut random, mut book) = (Random::new(6), Book::new());
    let ids: Vec<u32> = (1..=n).collect();
    for some in ids.chunks(64) {
        let mut x = Lists::default();
        for id in some {
            let (start, k) = (random.within(0, m - 12), random.within(1, 5));
            let rows: Vec<u32> = random.rising(k, 12).iter().map(|i| start + i).collect();
            let (first, second) = if id % 2 == 0 { (0, 10) } else { (10, 20) };
            x.push(*id, &rows, first, second);
            book.insert(*id, Line { rows, first, second });
        }
        factor.add_lists(&x.ids, &x.counts, &x.rows, &x.firsts, &x.seconds).unwrap();
    }
    let mut before = model::factor(m, &model::live(&book, 0));
    for minute in [10, 9, 20, 19] {
        let after = model::factor(m, &model::live(&book, minute));
        let was = factor.clock();
        let moved = |a: u32, b: u32| model::booked::chosen(&book, |line| line.counts_at(a) && !line.counts_at(b));
        let (mut old, mut new) = (BTreeSet::new(), BTreeSet::new());
        mark(&before, moved(was, minute), &mut old);
        mark(&after, moved(minute, was), &mut new);
        let touched: Vec<u16> = old.union(&new).map(|j| *j as u16).collect();
        let size = |j: usize| before[j - 1].entries.len().max(after[j - 1].entries.len()) as u32;
        let entries: u32 = touched.iter().map(|j| size(*j as usize)).sum();
        let r = factor.set_clock(minute).unwrap();
        assert_eq!((r.touched, r.entries, r.grade), (&touched[..], entries, model::grade(OLD_LIMITS, entries)), "to {minute}");
        assert!(r.labels.len() == touched.len() && r.labels.iter().all(|label| *label == 0));
        let columns: Vec<Vec<(u32, u32)>> = factor.columns().map(|c| c.entries().map(|e| (e.row, e.multiplicity)).collect()).collect();
        assert!(columns.iter().zip(&after).all(|(c, p)| *c == p.entries));
        before = after;
    }
    assert_eq!(factor.check(), Ok(()));
}
