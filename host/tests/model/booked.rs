//! Booked columns with their windows, which of them are live at a minute, and the lists of an addition.
use super::Live;
use std::collections::BTreeMap;

/// A booked column: its rows, and "a window of two minutes".
#[derive(Clone, Debug, PartialEq, Eq)]
pub struct Line {
    pub rows: Vec<u32>,
    pub first: u32,
    pub second: u32,
}

/// "The book now holds booked columns", by id.
pub type Book = BTreeMap<u32, Line>;

/// Not "A window other than 0 and 0 whose second minute is not later than its first".
pub fn is_window(first: u32, second: u32) -> bool {
    (first, second) == (0, 0) || second > first
}

impl Line {
    /// "it counts from the first minute up to, not including, the second. Minutes 0 and 0 mean none: it always counts".
    pub fn counts_at(&self, minute: u32) -> bool {
        (self.first, self.second) == (0, 0) || (self.first..self.second).contains(&minute)
    }
}

/// The columns that a choice takes.
pub fn chosen(book: &Book, choice: impl Fn(&Line) -> bool) -> Live {
    book.iter().filter(|(_, line)| choice(line)).map(|(id, line)| (*id, line.rows.clone())).collect()
}

/// "live means booked and inside its window at the factor's clock".
pub fn live(book: &Book, clock: u32) -> Live {
    chosen(book, |line| line.counts_at(clock))
}

/// Columns that always count.
pub fn always(live: &Live) -> Book {
    live.iter().map(|(id, rows)| (*id, Line { rows: rows.clone(), first: 0, second: 0 })).collect()
}

/// The lists of an addition.
#[derive(Clone, Debug, Default, PartialEq, Eq)]
pub struct Lists {
    pub ids: Vec<u32>,
    pub counts: Vec<u32>,
    pub rows: Vec<u32>,
    pub firsts: Vec<u32>,
    pub seconds: Vec<u32>,
}

impl Lists {
    /// Of columns that always count.
    pub fn always(ids: &[u32], counts: &[u32], rows: &[u32]) -> Lists {
        let none = vec![0; ids.len()];
        Lists { ids: ids.to_vec(), counts: counts.to_vec(), rows: rows.to_vec(), firsts: none.clone(), seconds: none }
    }

    /// Of columns with windows: an id, its rows and two minutes.
    pub fn of(columns: &[(u32, &[u32], u32, u32)]) -> Lists {
        let mut x = Lists::default();
        columns.iter().for_each(|(id, rows, first, second)| x.push(*id, rows, *first, *second));
        x
    }

    pub fn push(&mut self, id: u32, rows: &[u32], first: u32, second: u32) {
        self.ids.push(id);
        self.counts.push(rows.len() as u32);
        self.rows.extend(rows);
        self.firsts.push(first);
        self.seconds.push(second);
    }
}

/// The booked columns after an accepted addition.
pub fn added(book: &Book, x: &Lists) -> Book {
    let mut after = book.clone();
    let mut used = 0;
    for (k, (id, count)) in x.ids.iter().zip(&x.counts).enumerate() {
        let rows = x.rows[used..used + *count as usize].to_vec();
        after.insert(*id, Line { rows, first: x.firsts[k], second: x.seconds[k] });
        used += *count as usize;
    }
    after
}
