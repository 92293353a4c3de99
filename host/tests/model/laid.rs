//! Tables laid out by the model alone, with the records of their chains in any order; and the links of one pool, to be read and changed.
use super::random::Random;
use super::world::BEYOND;
use super::{factor, live, Book, Limits, Sizes};
use nigvalds::lent::{Record, Tables};

/// Record and tables.
#[derive(Clone, PartialEq, Debug)]
pub struct Laid {
    pub record: Record,
    pub tables: Tables,
}

/// The order in which records are taken, first by the columns, then by the free chain.
#[derive(Clone, Copy, Debug)]
pub enum Order {
    Rising,
    Falling,
    /// One of every so many records, and again from the next one on.
    Strides(usize),
    Random,
}

/// The two pools.
#[derive(Clone, Copy, Debug, PartialEq)]
pub enum Part {
    Factor,
    Book,
}

/// A place that leads to a record.
#[derive(Clone, Copy, Debug, PartialEq)]
pub enum Link {
    Head(u32),
    Free,
    Next(u32),
}

fn taken(order: Order, most: u32, random: &mut Random) -> Vec<u32> {
    let mut records: Vec<u32> = (1..=most).collect();
    match order {
        Order::Rising => {}
        Order::Falling => records.reverse(),
        Order::Strides(k) => records.sort_by_key(|r| (*r as usize % k, *r)),
        Order::Random => (1..records.len()).for_each(|k| records.swap(k, random.within(0, k as u32) as usize)),
    }
    records
}

// Links these records and gives their head.
fn linked(next: &mut [u32], records: &[u32]) -> u32 {
    for (k, r) in records.iter().enumerate() {
        next[*r as usize - 1] = records.get(k + 1).copied().unwrap_or(0);
    }
    records.first().copied().unwrap_or(0)
}

impl Laid {
    /// Sound tables of the booked columns at a minute, if there are no more than 256 rows in each; places beyond the sizes have any contents.
    pub fn out(s: Sizes, limits: Limits, book: &Book, clock: u32, order: Order, random: &mut Random) -> Laid {
        let [grade2, grade3, grade4] = limits;
        let (mut records, mut booked) = (&taken(order, s.f, random)[..], &taken(order, s.c, random)[..]);
        let mut t = Tables::for_sizes(s.m, s.n, s.f, s.c);
        for (j, column) in factor(s.m, &live(book, clock)).iter().enumerate() {
            let (mine, rest) = records.split_at(column.entries.len());
            t.heads[j] = linked(&mut t.next, mine);
            t.parents[j] = column.parent as u16;
            for (r, (row, count)) in mine.iter().zip(&column.entries) {
                (t.rows[*r as usize - 1], t.counts[*r as usize - 1]) = (*row as u16, *count as u16);
            }
            records = rest;
        }
        for (id, line) in book {
            let (mine, rest) = booked.split_at(line.rows.len());
            t.book_heads[*id as usize - 1] = linked(&mut t.book_next, mine);
            mine.iter().zip(&line.rows).for_each(|(r, row)| t.book_rows[*r as usize - 1] = *row as u16);
            (t.windows[*id as usize - 1], t.windows[(s.n + *id) as usize - 1]) = (line.first, line.second);
            booked = rest;
        }
        let (free, book_free) = (linked(&mut t.next, records), linked(&mut t.book_next, booked));
        [&mut t.heads, &mut t.next, &mut t.book_heads, &mut t.book_next, &mut t.windows].into_iter().for_each(|x| x.extend(random.contents(BEYOND)));
        let narrow = [&mut t.parents, &mut t.rows, &mut t.counts, &mut t.book_rows];
        narrow.into_iter().for_each(|x| x.extend(random.contents(BEYOND).into_iter().map(|y| y as u16)));
        Laid { record: Record { m: s.m, n: s.n, f: s.f, c: s.c, free, book_free, grade2, grade3, grade4, clock }, tables: t }
    }

    /// The number of records of a pool.
    pub fn most(&self, part: Part) -> u32 {
        match part {
            Part::Factor => self.record.f,
            Part::Book => self.record.c,
        }
    }

    pub fn link(&mut self, part: Part, link: Link) -> &mut u32 {
        let t = &mut self.tables;
        match (part, link) {
            (Part::Factor, Link::Head(k)) => &mut t.heads[k as usize - 1],
            (Part::Factor, Link::Free) => &mut self.record.free,
            (Part::Factor, Link::Next(k)) => &mut t.next[k as usize - 1],
            (Part::Book, Link::Head(k)) => &mut t.book_heads[k as usize - 1],
            (Part::Book, Link::Free) => &mut self.record.book_free,
            (Part::Book, Link::Next(k)) => &mut t.book_next[k as usize - 1],
        }
    }

    /// The row of a record.
    pub fn row(&mut self, part: Part, r: u32) -> &mut u16 {
        match part {
            Part::Factor => &mut self.tables.rows[r as usize - 1],
            Part::Book => &mut self.tables.book_rows[r as usize - 1],
        }
    }

    /// The records from a link on, in sound tables.
    pub fn chain(&mut self, part: Part, from: Link) -> Vec<u32> {
        let (mut records, mut at) = (Vec::new(), *self.link(part, from));
        while at != 0 {
            records.push(at);
            at = *self.link(part, Link::Next(at));
        }
        records
    }

    /// The chains of a pool that have a record, by the number of their column or id.
    pub fn columns(&mut self, part: Part) -> Vec<(u32, Vec<u32>)> {
        let most = if part == Part::Factor { self.record.m } else { self.record.n };
        (1..=most).map(|k| (k, self.chain(part, Link::Head(k)))).filter(|c| !c.1.is_empty()).collect()
    }
}
