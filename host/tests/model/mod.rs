//! A second implementation, by the definition's words alone: which columns are booked and live, the factor of these, what a batch or a clock change reports, and by
//! which number a call is turned down. It shares nothing with the library but the order of the tables' names.
#![allow(dead_code)]
pub mod booked;
pub mod calls;
pub mod early;
pub mod judging;
pub mod laid;
pub mod meeting;
pub mod random;
pub mod sound;
pub mod world;

pub use booked::{added, live, Book, Lists};

use std::collections::BTreeMap;

/// Rows, ids, factor records, book records.
#[derive(Clone, Copy, Debug, PartialEq, Eq)]
pub struct Sizes {
    pub m: u32,
    pub n: u32,
    pub f: u32,
    pub c: u32,
}

/// "three limits, the first entries of grades 2, 3 and 4".
pub type Limits = [u32; 3];

/// "the old ones".
pub const OLD_LIMITS: Limits = [256, 4096, 65536];

/// "The first must be at least 2 and each must exceed the one before".
pub fn are_limits(limits: Limits) -> bool {
    limits[0] >= 2 && limits.windows(2).all(|w| w[1] > w[0])
}

/// "Three zeros mean the old ones, which the factor then keeps".
pub fn limits_for(asked: Limits) -> Limits {
    if asked == [0; 3] {
        OLD_LIMITS
    } else {
        asked
    }
}

/// The grade of some entries: the last one whose first entries are reached; "A call that touches nothing has grade 0".
pub fn grade(limits: Limits, entries: u32) -> u32 {
    let firsts = [(1, 1), (2, limits[0]), (3, limits[1]), (4, limits[2])];
    firsts.iter().filter(|(_, first)| entries >= *first).map(|(grade, _)| *grade).max().unwrap_or(0)
}

/// Rows with their multiplicities, rising, and the parent.
#[derive(Clone, Debug, PartialEq, Eq)]
pub struct Pattern {
    pub entries: Vec<(u32, u32)>,
    pub parent: u32,
}

/// The live columns, by id.
pub type Live = BTreeMap<u32, Vec<u32>>;

/// "The multiplicity of i in L_j": children that hold i, live columns that start at j and hold i, and 1 on the diagonal. L_j is at place j - 1.
pub fn factor(m: u32, live: &Live) -> Vec<Pattern> {
    let mut patterns: Vec<Pattern> = Vec::new();
    let mut children: Vec<Vec<u32>> = vec![Vec::new(); m as usize + 1];
    let mut starting: Vec<Vec<&Vec<u32>>> = vec![Vec::new(); m as usize + 1];
    live.values().for_each(|rows| starting[rows[0] as usize].push(rows));
    let mut times = vec![0; m as usize + 1];
    for j in 1..=m {
        times.iter_mut().for_each(|t| *t = 0);
        times[j as usize] = 1;
        for c in &children[j as usize] {
            let held = &patterns[*c as usize - 1].entries;
            held.iter().filter(|e| e.0 != *c).for_each(|e| times[e.0 as usize] += 1);
        }
        for rows in &starting[j as usize] {
            rows.iter().for_each(|i| times[*i as usize] += 1);
        }
        let entries: Vec<(u32, u32)> = (j..=m).map(|i| (i, times[i as usize])).filter(|e| e.1 != 0).collect();
        let parent = entries.iter().map(|e| e.0).find(|i| *i > j).unwrap_or(0);
        children[parent as usize].push(j);
        patterns.push(Pattern { entries, parent });
    }
    patterns
}

/// "j, its parent, and so on up to its root".
pub fn path(factor: &[Pattern], j: u32) -> Vec<u32> {
    let mut rows = vec![j];
    let mut at = factor[j as usize - 1].parent;
    while at != 0 {
        rows.push(at);
        at = factor[at as usize - 1].parent;
    }
    rows
}

/// "the first row at or above i in column j and its multiplicity, both 0 if the column ends before".
pub fn next_row(column: &Pattern, i: u32) -> (u32, u32) {
    column.entries.iter().copied().find(|e| e.0 >= i).unwrap_or((0, 0))
}

/// The sum of all pattern sizes.
pub fn size(factor: &[Pattern]) -> usize {
    factor.iter().map(|p| p.entries.len()).sum()
}

/// What an accepted batch or clock change reports.
#[derive(Clone, Debug, PartialEq, Eq)]
pub struct Report {
    pub touched: Vec<u16>,
    pub labels: Vec<u16>,
    pub entries: u32,
    pub grade: u32,
}

/// Paths with their labels.
pub type Paths = Vec<(Vec<u32>, u16)>;

/// The paths of columns that start at these rows, by position, which is the label; a column that does not count has none, and keeps its position.
pub fn positions(factor: &[Pattern], starts: &[Option<u32>]) -> Paths {
    (1..).zip(starts).filter_map(|(k, start)| start.map(|j| (path(factor, j), k))).collect()
}

/// The report of a change from one factor to another along these paths: each column on them once, with the largest label; "Entries take the larger of a column's
/// sizes before and after".
pub fn report(limits: Limits, before: &[Pattern], after: &[Pattern], paths: &Paths) -> Report {
    let mut labels: BTreeMap<u32, u16> = BTreeMap::new();
    for (path, label) in paths {
        path.iter().for_each(|j| {
            let largest = labels.entry(*j).or_default();
            *largest = (*largest).max(*label);
        });
    }
    let size = |factor: &[Pattern], j: u32| factor[j as usize - 1].entries.len() as u32;
    let entries = labels.keys().map(|j| size(before, *j).max(size(after, *j))).sum();
    let touched = labels.keys().map(|j| *j as u16).collect();
    Report { touched, labels: labels.values().copied().collect(), entries, grade: grade(limits, entries) }
}

/// Number and position.
pub type Number = (u32, u32);

/// The sizes that an opening gets for those it asks: F = 0 means 32 × m.
pub fn sizes_for(asked: Sizes) -> Sizes {
    let f = if asked.f == 0 { asked.m.saturating_mul(32) } else { asked.f };
    Sizes { f, ..asked }
}

/// The number of an opening, 0 if it is accepted; 1 to 4, then 20, "after 4", then 5 for sizes for which what is lent is not long enough.
pub fn open_number(asked: Sizes, limits: Limits, is_long_for: impl Fn(Sizes) -> bool) -> u32 {
    let s = sizes_for(asked);
    let checks = [
        (1, (1..=4096).contains(&s.m)),
        (2, (1..=16384).contains(&s.n)),
        (3, (s.m..=1048576).contains(&s.f)),
        (4, (1..=262144).contains(&s.c)),
        (20, are_limits(limits_for(limits))),
        (5, is_long_for(s)),
    ];
    checks.iter().find(|(_, holds)| !holds).map_or(0, |(number, _)| *number)
}

/// The number of an addition, 0 if it is accepted; 7 to 16 and 21.
pub fn add_number(s: Sizes, book: &Book, clock: u32, x: &Lists) -> Number {
    let r = x.ids.len();
    if !(1..=64).contains(&r) || x.counts.len() != r || x.firsts.len() != r || x.seconds.len() != r {
        return (7, 0);
    }
    let mut used = 0;
    for (k, (id, count)) in x.ids.iter().zip(&x.counts).enumerate() {
        let position = k as u32 + 1;
        if !(1..=s.n).contains(id) {
            return (8, position);
        }
        if x.ids[..k].contains(id) {
            return (9, position);
        }
        if book.contains_key(id) {
            return (10, position);
        }
        if !(1..=256).contains(count) || *count as usize > x.rows.len() - used {
            return (12, position);
        }
        let number = rows_number(s.m, &x.rows[used..used + *count as usize]);
        if number != 0 {
            return (number, position);
        }
        if !booked::is_window(x.firsts[k], x.seconds[k]) {
            return (21, position);
        }
        used += *count as usize;
    }
    if used < x.rows.len() {
        return (12, 0);
    }
    room_number(s, &added(book, x), clock)
}

// 13 or 14 of a column's rows, in turn.
fn rows_number(m: u32, rows: &[u32]) -> u32 {
    let mut above = 0;
    for row in rows {
        if !(1..=m).contains(row) {
            return 13;
        }
        if *row <= above {
            return 14;
        }
        above = *row;
    }
    0
}

// 15 of the booked columns after an addition, or 16 of the live ones.
fn room_number(s: Sizes, book: &Book, clock: u32) -> Number {
    if book.values().map(|line| line.rows.len()).sum::<usize>() > s.c as usize {
        return (15, 0);
    }
    clock_number(s, book, clock)
}

/// "Limit 16 is checked on the final patterns, after a clock change too": of the columns that are live at a minute.
pub fn clock_number(s: Sizes, book: &Book, minute: u32) -> Number {
    if size(&factor(s.m, &live(book, minute))) > s.f as usize {
        return (16, 0);
    }
    (0, 0)
}

/// The number of a removal, 0 if it is accepted; 7, 8, 9, 11.
pub fn remove_number(s: Sizes, book: &Book, ids: &[u32]) -> Number {
    if ids.is_empty() || ids.len() > 64 {
        return (7, 0);
    }
    for (k, id) in ids.iter().enumerate() {
        let position = k as u32 + 1;
        if !(1..=s.n).contains(id) {
            return (8, position);
        }
        if ids[..k].contains(id) {
            return (9, position);
        }
        if !book.contains_key(id) {
            return (11, position);
        }
    }
    (0, 0)
}
