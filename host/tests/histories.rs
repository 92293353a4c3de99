//! Random histories of openings, additions, removals, clock changes and questions, accepted and refused, against the definition.
mod model;

use model::random::Random;
use model::world::World;

// An opening, a removal, a clock change or an addition. Gives the number.
fn step(world: &mut World, random: &mut Random) -> u32 {
    if random.once_in(10) {
        let (sizes, limits) = (random.any_sizes(), random.any_limits());
        return world.reopen(sizes, limits);
    }
    if random.once_in(4) {
        let minute = random.minute();
        return world.set_clock(minute).0;
    }
    if random.once_in(3) {
        let ids = random.removal(world.sizes, &world.book);
        return world.remove(&ids).0;
    }
    let lists = random.addition(world.sizes, &world.book);
    world.add(&lists).0
}

#[test]
fn random_histories() {
    let mut numbers = [0; 22];
    for seed in 0..500 {
        let mut random = Random::new(seed);
        let (sizes, limits) = (random.sizes(), random.limits());
        let mut world = World::open(sizes, limits, &mut random);
        for _ in 0..60 {
            let number = step(&mut world, &mut random);
            numbers[number as usize] += 1;
            if random.once_in(10) {
                world.ask();
                world.ask_meeting(&mut random);
            }
        }
        world.ask();
        world.ask_meeting(&mut random);
    }
    for number in [0, 1, 2, 3, 4, 5, 7, 8, 9, 10, 11, 12, 13, 14, 15, 16, 20, 21] {
        assert!(numbers[number] > 20, "number {number} came up {} times", numbers[number]);
    }
}

#[test]
fn removing_every_column_gives_the_fresh_patterns() {
    for seed in 1000..1100 {
        let mut random = Random::new(seed);
        let mut sizes = random.sizes();
        sizes.f = sizes.m * (sizes.m + 1) / 2;
        let limits = random.limits();
        let mut world = World::open(sizes, limits, &mut random);
        let fresh = world.factor();
        for _ in 0..10 {
            let lists = random.addition(sizes, &world.book);
            world.add(&lists);
            let minute = random.minute();
            world.set_clock(minute);
        }
        while let Some(id) = world.book.keys().next().copied() {
            assert_eq!(world.remove(&[id]), (0, 0));
        }
        assert_eq!(model::sound::stored(world.record, &world.tables), Some(fresh));
    }
}
