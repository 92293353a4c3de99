//! The columns that meet a row and the common row of some rows, by the words of their definitions; and both asked of a world, with all that a call leaves.
use super::random::Random;
use super::world::{World, BEYOND};
use super::{path, Pattern};
use nigvalds::lent::Reply;

/// "all factor columns whose pattern holds it, ascending".
pub fn meets(factor: &[Pattern], i: u32) -> Vec<u32> {
    (1..=factor.len() as u32).filter(|j| factor[*j as usize - 1].entries.iter().any(|e| e.0 == i)).collect()
}

/// "the smallest row that lies on all their paths, or 0 where there is none".
pub fn common(factor: &[Pattern], rows: &[u32]) -> u32 {
    let paths: Vec<Vec<u32>> = rows.iter().map(|i| path(factor, *i)).collect();
    (1..=factor.len() as u32).find(|k| paths.iter().all(|p| p.contains(k))).unwrap_or(0)
}

/// "An empty or longer list of rows falls under 7, a row out of range under 17 .. in that order".
pub fn common_number(m: u32, rows: &[u32]) -> u32 {
    match rows {
        [] => 7,
        _ if rows.len() > 64 => 7,
        _ if rows.iter().any(|i| !(1..=m).contains(i)) => 17,
        _ => 0,
    }
}

impl World {
    // A question on a work table of any contents: tables stay, and the work table is zero within its places.
    fn asked(&mut self, random: &mut Random, call: impl FnOnce(&mut World) -> Reply) -> Reply {
        self.work = random.contents(self.work.len());
        let (tables, work) = (self.tables.clone(), self.work.clone());
        let reply = call(self);
        assert!(self.tables == tables);
        self.is_cleared(&work);
        reply
    }

    /// The columns that meet row i, written from a place on to a list that has so many places from there on. The answer is the model's, none for a row outside.
    /// Gives the number.
    pub fn ask_meets(&mut self, random: &mut Random, i: u32, answer: Option<&[u32]>, place: usize, room: usize) -> u32 {
        let lent = random.contents(place + room);
        let mut list = lent.clone();
        let reply = self.asked(random, |w| w.tables.meets(w.record, &mut w.work, &mut list, i, place));
        let expected = match answer {
            None => (17, &[][..]),
            Some(columns) if columns.len() > room => (18, &[][..]),
            Some(columns) => (0, columns),
        };
        assert_eq!((reply.number, reply.value), (expected.0, expected.1.len() as u32), "columns that meet {i}");
        let end = place + expected.1.len();
        assert_eq!((&list[..place], &list[place..end], &list[end..]), (&lent[..place], expected.1, &lent[end..]));
        reply.number
    }

    /// The common row of some rows. Gives the number.
    pub fn ask_common(&mut self, random: &mut Random, patterns: &[Pattern], rows: &[u32]) -> u32 {
        let number = common_number(self.sizes.m, rows);
        let value = if number == 0 { common(patterns, rows) } else { 0 };
        let reply = self.asked(random, |w| w.tables.common(w.record, &mut w.work, rows));
        assert_eq!(reply, Reply { number, value }, "common row of {rows:?}");
        number
    }

    /// Both questions: every row with room for its answer, with more and with less, and random lists of rows, most of them acceptable.
    pub fn ask_meeting(&mut self, random: &mut Random) {
        let (m, patterns) = (self.sizes.m, self.factor());
        for i in 0..=m + 1 {
            let answer = (1..=m).contains(&i).then(|| meets(&patterns, i));
            let filled = answer.as_ref().map_or(0, Vec::len);
            for (place, room) in [(0, filled), (0, filled + BEYOND), (2, filled), (1, filled + BEYOND), (0, filled.saturating_sub(1)), (3, 0)] {
                self.ask_meets(random, i, answer.as_deref(), place, room);
            }
        }
        for _ in 0..12 {
            let rows = random.named(m);
            self.ask_common(random, &patterns, &rows);
        }
    }
}
