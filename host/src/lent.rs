//! The calls over tables of any lengths and contents, as numbers: safe, since the library asks nothing of what is lent, and Rust's references are valid and
//! apart. [`crate::Factor`] stands on these; a host that keeps its tables elsewhere uses them itself.
pub use crate::ffi::{Changed, Found, Opened, Read, Record, Reply};
use crate::{ffi, Factor};
use std::fmt;

/// W, the places of the work table; f is F itself, not 0.
pub fn work_places(m: u32, n: u32, f: u32, c: u32) -> usize {
    8 * m as usize + 4 * f as usize + c as usize + n as usize + 1024
}

/// The limits of the grades. The first must be at least 2 and each above the one before, or an opening is refused by 20; three zeros mean the default ones.
///
/// ```
/// # use nigvalds::{Factor, Limits};
/// let limits = Limits { grade4: 100_000, ..Limits::default() };
/// assert_eq!(Factor::open_with_limits(5, 8, 80, 16, limits)?.limits(), limits);
/// # Ok::<(), nigvalds::Refusal>(())
/// ```
#[derive(Clone, Copy, Debug, PartialEq, Eq, Hash)]
pub struct Limits {
    /// From so many entries on the grade is 2.
    pub grade2: u32,
    /// From so many entries on the grade is 3.
    pub grade3: u32,
    /// From so many entries on the grade is 4.
    pub grade4: u32,
}

/// Those that the library takes for three zeros: 256, 4,096 and 65,536.
impl Default for Limits {
    fn default() -> Limits {
        Limits { grade2: 256, grade3: 4096, grade4: 65536 }
    }
}

/// The record's numbers in order, to store: m, n, F, C, both free heads, the three limits, the clock. Before 0.7 there was no clock, in 0.1 no limits either.
impl From<Record> for [u32; 10] {
    fn from(r: Record) -> [u32; 10] {
        [r.m, r.n, r.f, r.c, r.free, r.book_free, r.grade2, r.grade3, r.grade4, r.clock]
    }
}

/// The record of these numbers; what an older version stored gets the default limits and clock 0 for those that it lacks.
impl From<[u32; 10]> for Record {
    fn from([m, n, f, c, free, book_free, grade2, grade3, grade4, clock]: [u32; 10]) -> Record {
        Record { m, n, f, c, free, book_free, grade2, grade3, grade4, clock }
    }
}

/// A table or list that is too short.
#[derive(Clone, Copy, Debug, PartialEq, Eq, Hash)]
pub struct Short {
    /// Its name, as [`Tables`] has it, `work`, `touched` or `labels`.
    pub name: &'static str,
    /// The places that it has.
    pub has: usize,
    /// The places that it needs.
    pub needs: usize,
}

impl fmt::Display for Short {
    fn fmt(&self, f: &mut fmt::Formatter<'_>) -> fmt::Result {
        write!(f, "{} has {} of {} places", self.name, self.has, self.needs)
    }
}

// F as an opening takes it.
pub(crate) fn records(m: u32, f: u32) -> u32 {
    if f == 0 {
        m.saturating_mul(Factor::RECORDS_PER_ROW)
    } else {
        f
    }
}

// Whether an opening takes these sizes; otherwise it gives 1 to 4.
fn sizes_fit(m: u32, n: u32, f: u32, c: u32) -> bool {
    let within = |x: u32, most: u32| (1..=most).contains(&x);
    within(m, Factor::MOST_ROWS) && within(n, Factor::MOST_IDS) && (m..=Factor::MOST_RECORDS).contains(&f) && within(c, Factor::MOST_BOOKED)
}

/// The nine tables; what belongs to number k stands at place k - 1.
#[derive(Clone, Debug, Default, PartialEq, Eq)]
pub struct Tables {
    /// The first record of each factor column.
    pub heads: Vec<u32>,
    /// The parent of each column, 0 for a root.
    pub parents: Vec<u16>,
    /// The row of each factor record, 0 where it is free.
    pub rows: Vec<u16>,
    /// Its multiplicity.
    pub counts: Vec<u16>,
    /// The record after it, 0 at the end of a chain.
    pub next: Vec<u32>,
    /// The first book record of each id, 0 where it is not booked.
    pub book_heads: Vec<u32>,
    /// The row of each book record, 0 where it is free.
    pub book_rows: Vec<u16>,
    /// The book record after it, 0 at the end of a chain.
    pub book_next: Vec<u32>,
    /// The first minutes of ids 1 to n, then their second minutes; 0 and 0 where a column always counts, or an id is not booked.
    pub windows: Vec<u32>,
}

macro_rules! written {
    ($($table:expr),*; $f:ident($($first:expr),*) $($last:expr),*) => {
        // SAFETY: each pointer comes from a vector or slice of its length, and the borrows show that what is written is apart from the rest.
        unsafe { ffi::$f($($first,)* $($table.as_mut_ptr(), $table.len(),)* $($last,)*) }
    };
}

macro_rules! read {
    ($t:expr, $work:expr; $f:ident($($first:expr),*) $($last:expr),*) => {
        // SAFETY: as above; the tables are only read.
        unsafe {
            ffi::$f(
                $($first,)*
                $t.heads.as_ptr(), $t.heads.len(),
                $t.parents.as_ptr(), $t.parents.len(),
                $t.rows.as_ptr(), $t.rows.len(),
                $t.counts.as_ptr(), $t.counts.len(),
                $t.next.as_ptr(), $t.next.len(),
                $t.book_heads.as_ptr(), $t.book_heads.len(),
                $t.book_rows.as_ptr(), $t.book_rows.len(),
                $t.book_next.as_ptr(), $t.book_next.len(),
                $t.windows.as_ptr(), $t.windows.len(),
                $work.as_mut_ptr(), $work.len(),
                $($last,)*
            )
        }
    };
}

impl Tables {
    /// Tables of zeros with the places that these sizes need; f is F itself, not 0.
    pub fn for_sizes(m: u32, n: u32, f: u32, c: u32) -> Tables {
        let (m, n, f, c) = (m as usize, n as usize, f as usize, c as usize);
        Tables {
            heads: vec![0; m],
            parents: vec![0; m],
            rows: vec![0; f],
            counts: vec![0; f],
            next: vec![0; f],
            book_heads: vec![0; n],
            book_rows: vec![0; c],
            book_next: vec![0; c],
            windows: vec![0; 2 * n],
        }
    }

    /// After number 5: the first table or list that is too short for these sizes, f = 0 as at an opening, or for those in the record of the call. `work` is the length
    /// of the work table, `report` those of the lists of touched columns and labels, for a batch or a clock change. None for sizes that an opening refuses: 1 to 4
    /// come before 5.
    pub fn first_short(&self, m: u32, n: u32, f: u32, c: u32, work: usize, report: Option<(usize, usize)>) -> Option<Short> {
        let f = records(m, f);
        if !sizes_fit(m, n, f, c) {
            return None;
        }
        let (rows, ids, factor, booked) = (m as usize, n as usize, f as usize, c as usize);
        let (touched, labels) = report.unwrap_or((rows, rows));
        [
            ("heads", self.heads.len(), rows),
            ("parents", self.parents.len(), rows),
            ("rows", self.rows.len(), factor),
            ("counts", self.counts.len(), factor),
            ("next", self.next.len(), factor),
            ("book_heads", self.book_heads.len(), ids),
            ("book_rows", self.book_rows.len(), booked),
            ("book_next", self.book_next.len(), booked),
            ("windows", self.windows.len(), 2 * ids),
            ("work", work, work_places(m, n, f, c)),
            ("touched", touched, rows),
            ("labels", labels, rows),
        ]
        .into_iter()
        .find(|(_, has, needs)| has < needs)
        .map(|(name, has, needs)| Short { name, has, needs })
    }

    /// Opens a fresh factor at minute 0: writes all tables. f = 0 means [`crate::Factor::RECORDS_PER_ROW`] × m, three zeros for limits mean the default ones.
    pub fn open(&mut self, m: u32, n: u32, f: u32, c: u32, limits: Limits, work: &mut [u32]) -> Opened {
        written!(self.heads, self.parents, self.rows, self.counts, self.next, self.book_heads, self.book_rows, self.book_next, self.windows, work;
            nigvalds_open(m, n, f, c, limits.grade2, limits.grade3, limits.grade4))
    }

    /// Adds a batch: by position, each id with as many of the rows not yet used as its count says, and with a window from its first minute up to, not
    /// including, its second; minutes 0 and 0 mean none: it always counts. Counts and both lists of minutes must be as long as the ids, or 7 is given.
    #[allow(clippy::too_many_arguments)]
    pub fn add(
        &mut self,
        record: Record,
        work: &mut [u32],
        touched: &mut [u16],
        labels: &mut [u16],
        ids: &[u32],
        counts: &[u32],
        rows: &[u32],
        firsts: &[u32],
        seconds: &[u32],
    ) -> Changed {
        written!(self.heads, self.parents, self.rows, self.counts, self.next, self.book_heads, self.book_rows, self.book_next, self.windows, work, touched, labels;
            nigvalds_add(record) ids.as_ptr(), ids.len(), counts.as_ptr(), counts.len(), rows.as_ptr(), rows.len(),
            firsts.as_ptr(), firsts.len(), seconds.as_ptr(), seconds.len())
    }

    /// Removes the columns of a batch of ids.
    pub fn remove(&mut self, record: Record, work: &mut [u32], touched: &mut [u16], labels: &mut [u16], ids: &[u32]) -> Changed {
        written!(self.heads, self.parents, self.rows, self.counts, self.next, self.book_heads, self.book_rows, self.book_next, self.windows, work, touched, labels;
            nigvalds_remove(record) ids.as_ptr(), ids.len())
    }

    /// Sets the clock: booked columns whose windows end leave the factor, those whose windows begin enter it. The touched columns have label 0. 16 where the
    /// columns that count then do not fit. Book and windows stay.
    pub fn set_clock(&mut self, record: Record, work: &mut [u32], touched: &mut [u16], labels: &mut [u16], minute: u32) -> Changed {
        written!(self.heads, self.parents, self.rows, self.counts, self.next, self.book_heads, self.book_rows, self.book_next, self.windows, work, touched, labels;
            nigvalds_set_clock(record) minute)
    }

    /// Whether the tables are sound and the record's limits keep the rule: number 0, or 6 for no; 1 to 5 where the sizes or tables cannot be used.
    pub fn check(&self, record: Record, work: &mut [u32]) -> Reply {
        read!(self, work; nigvalds_check(record))
    }

    /// The first row at or above i in column j and its multiplicity, both 0 if the column ends before; 17 for a row or column outside 1 to m.
    pub fn next_row(&self, record: Record, work: &mut [u32], i: u32, j: u32) -> Found {
        read!(self, work; nigvalds_next_row(record) i, j)
    }

    /// The parent of j, 0 for a root.
    pub fn parent(&self, record: Record, work: &mut [u32], j: u32) -> Reply {
        read!(self, work; nigvalds_parent(record) j)
    }

    /// The path of j, a row to a place from the given place of the list on.
    pub fn path(&self, record: Record, work: &mut [u32], list: &mut [u32], j: u32, place: usize) -> Reply {
        read!(self, work; nigvalds_path(record) list.as_mut_ptr(), list.len(), j, place)
    }

    /// Column j, row then multiplicity from the given place of the list on.
    pub fn column(&self, record: Record, work: &mut [u32], list: &mut [u32], j: u32, place: usize) -> Reply {
        read!(self, work; nigvalds_column(record) list.as_mut_ptr(), list.len(), j, place)
    }

    /// The columns whose pattern holds row i, ascending, a column to a place from the given place of the list on. The value is the number of places filled;
    /// 17 for a row outside 1 to m, then 18 for a list that ends before the answer does.
    pub fn meets(&self, record: Record, work: &mut [u32], list: &mut [u32], i: u32, place: usize) -> Reply {
        read!(self, work; nigvalds_meets(record) list.as_mut_ptr(), list.len(), i, place)
    }

    /// The smallest row that lies on the paths of all of these rows, 0 where there is none; 7 for no row or more than 64, then 17 for one outside 1 to m.
    pub fn common(&self, record: Record, work: &mut [u32], rows: &[u32]) -> Reply {
        read!(self, work; nigvalds_common(record) rows.as_ptr(), rows.len())
    }

    /// The entry at a record.
    pub fn read(&self, record: u32) -> Read {
        // SAFETY: each pointer comes from a vector of its length, and the library only reads.
        unsafe { ffi::nigvalds_read(self.rows.as_ptr(), self.rows.len(), self.counts.as_ptr(), self.counts.len(), self.next.as_ptr(), self.next.len(), record) }
    }
}
