//! Damaged and rearranged tables: check and every other call answer 6 exactly if the definition says that the tables are not sound.
mod model;

use model::random::{Random, LAST};
use model::sound::{is_sound, stored};
use model::world::World;
use nigvalds::lent::{Changed, Found, Record, Tables};

// A world with some columns.
fn filled(seed: u64) -> (World, Random) {
    let mut random = Random::new(seed);
    let (sizes, limits) = (random.sizes(), random.limits());
    let mut world = World::open(sizes, limits, &mut random);
    for _ in 0..12 {
        let lists = random.addition(sizes, &world.book);
        world.add(&lists);
        if random.once_in(3) {
            let ids = random.removal(sizes, &world.book);
            world.remove(&ids);
        }
        if random.once_in(2) {
            let minute = random.minute();
            world.set_clock(minute);
        }
    }
    (world, random)
}

// A number to write in the place of another: near it, small, or large.
fn other(random: &mut Random, was: u32, most: u32) -> u32 {
    match random.within(1, 5) {
        1 => was.wrapping_add(1),
        2 => was.wrapping_sub(1),
        3 => random.within(0, most.saturating_add(1)),
        4 => 0,
        _ => random.next() as u32,
    }
}

fn change16(random: &mut Random, table: &mut [u16], most: u32) {
    let k = random.within(0, table.len() as u32 - 1) as usize;
    table[k] = other(random, table[k] as u32, most) as u16;
}

fn change32(random: &mut Random, table: &mut [u32], most: u32) {
    let k = random.within(0, table.len() as u32 - 1) as usize;
    table[k] = other(random, table[k], most);
}

// Changes one place of the tables, perhaps one beyond the sizes, a free head, a limit or the clock.
fn damage(random: &mut Random, record: &mut Record, t: &mut Tables) {
    let r = *record;
    match random.within(1, 16) {
        1 => change32(random, &mut t.heads, r.f),
        2 => change16(random, &mut t.parents, r.m),
        3 => change16(random, &mut t.rows, r.m),
        4 => change16(random, &mut t.counts, r.m),
        5 => change32(random, &mut t.next, r.f),
        6 => change32(random, &mut t.book_heads, r.c),
        7 => change16(random, &mut t.book_rows, r.m),
        8 => change32(random, &mut t.book_next, r.c),
        9 => record.free = other(random, r.free, r.f),
        10 => record.book_free = other(random, r.book_free, r.c),
        11 => record.grade2 = other(random, r.grade2, r.grade3),
        12 => record.grade3 = other(random, r.grade3, r.grade4),
        13 | 14 => change32(random, &mut t.windows, LAST),
        15 => record.clock = other(random, r.clock, LAST),
        _ => record.grade4 = other(random, r.grade4, r.grade4),
    }
}

// Exchanges factor records a and b: the tables stay sound.
fn exchange(record: &mut Record, t: &mut Tables, a: u32, b: u32) {
    let renamed = |x: &mut u32| match *x {
        x0 if x0 == a => *x = b,
        x0 if x0 == b => *x = a,
        _ => {}
    };
    let (m, f, i, j) = (record.m as usize, record.f as usize, a as usize - 1, b as usize - 1);
    t.heads[..m].iter_mut().for_each(renamed);
    t.next[..f].iter_mut().for_each(renamed);
    renamed(&mut record.free);
    t.rows.swap(i, j);
    t.counts.swap(i, j);
    t.next.swap(i, j);
}

// Every call that looks at contents, on tables that the definition has judged.
fn calls_agree(record: Record, t: &mut Tables, w: &World) -> bool {
    let sound = is_sound(record, t);
    let number = if sound { 0 } else { 6 };
    let before = t.clone();
    let (mut work, mut touched, mut labels, mut list) = (w.work.clone(), w.touched.clone(), w.labels.clone(), vec![5; 2 * w.sizes.m as usize]);
    assert_eq!(t.check(record, &mut work).number, number);
    let found = t.next_row(record, &mut work, 1, 1);
    assert_eq!((found.number, found.row, found.multiplicity == 0), (number, sound.into(), !sound));
    assert_eq!(t.parent(record, &mut work, 1).number, number);
    assert_eq!(t.path(record, &mut work, &mut list, 1, 0).number, number);
    assert_eq!(t.column(record, &mut work, &mut list, 1, 0).number, number);
    assert_eq!(t.common(record, &mut work, &[1]).number, number);
    let reply = t.meets(record, &mut work, &mut list, record.m, 0);
    assert_eq!(reply.number, number);
    if sound {
        let columns: Vec<u32> = (1..=record.m).filter(|j| t.next_row(record, &mut work, record.m, *j).row != 0).collect();
        assert_eq!(list[..reply.value as usize], columns);
    }
    assert_eq!(*t, before);
    if !sound {
        assert_eq!(t.add(record, &mut work, &mut touched, &mut labels, &[1], &[1], &[1], &[0], &[0]).number, 6);
        assert_eq!(t.remove(record, &mut work, &mut touched, &mut labels, &[1]).number, 6);
        assert_eq!(t.set_clock(record, &mut work, &mut touched, &mut labels, record.clock).number, 6);
        assert!(*t == before && touched == w.touched && labels == w.labels && list.iter().all(|x| *x == 5));
    }
    if sound {
        let mut x = t.clone();
        let changed = x.set_clock(record, &mut work, &mut touched, &mut labels, record.clock);
        let after = Record { free: changed.record.free, ..record };
        assert_eq!(changed, Changed { number: 0, position: 0, touched: 0, entries: 0, grade: 0, record: after });
        assert!(is_sound(after, &x) && touched == w.touched && labels == w.labels);
    }
    assert_eq!(work, w.work);
    sound
}

// The next row from every row in every column, on sound tables.
fn next_rows_agree(record: Record, t: &Tables, w: &World) {
    let (mut work, columns) = (w.work.clone(), stored(record, t).expect("sound tables"));
    for (j, column) in (1..).zip(&columns) {
        for i in 1..=record.m {
            let (row, multiplicity) = model::next_row(column, i);
            assert_eq!(t.next_row(record, &mut work, i, j), Found { number: 0, row, multiplicity });
        }
    }
}

#[test]
fn check_answers_by_the_definition() {
    let mut found = [0, 0];
    for seed in 0..150 {
        let (w, mut random) = filled(seed);
        for _ in 0..100 {
            let (mut record, mut tables) = (w.record, w.tables.clone());
            for _ in 0..random.within(1, 2) {
                damage(&mut random, &mut record, &mut tables);
            }
            found[calls_agree(record, &mut tables, &w) as usize] += 1;
        }
    }
    assert!(found[0] > 1000 && found[1] > 1000, "{found:?}");
}

#[test]
fn exchanged_records_stay_sound() {
    for seed in 200..300 {
        let (w, mut random) = filled(seed);
        let (mut record, mut tables) = (w.record, w.tables.clone());
        for _ in 0..30 {
            exchange(&mut record, &mut tables, random.within(1, w.sizes.f), random.within(1, w.sizes.f));
            assert!(calls_agree(record, &mut tables, &w));
            next_rows_agree(record, &tables, &w);
        }
    }
}

#[test]
fn reader_over_any_tables() {
    let mut random = Random::new(7);
    for _ in 0..2000 {
        let lengths = [random.within(0, 6), random.within(0, 6), random.within(0, 6)];
        let mut few = |k: u32| -> Vec<u32> { (0..k).map(|_| random.within(0, 7)).collect() };
        let narrow = |list: Vec<u32>| -> Vec<u16> { list.into_iter().map(|x| x as u16).collect() };
        let (rows, counts, next) = (narrow(few(lengths[0])), narrow(few(lengths[1])), few(lengths[2]));
        let t = Tables { rows, counts, next, ..Tables::default() };
        for record in (0..9).chain([u32::MAX]) {
            let k = (record as usize).wrapping_sub(1);
            let entry = match (t.rows.get(k), t.counts.get(k), t.next.get(k)) {
                (Some(row), Some(count), Some(next)) if *row != 0 => (*row as u32, *count as u32, *next),
                _ => (0, 0, 0),
            };
            let read = t.read(record);
            assert_eq!((read.row, read.multiplicity, read.next), entry);
        }
    }
}
