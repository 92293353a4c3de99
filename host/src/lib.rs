//! The pattern of the sparse Cholesky factor of I + AA^T, kept while columns of A enter and leave.
//!
//! A [`Factor`] owns its tables. Each call goes to the proved library, which reads the tables through first; what it refuses comes back as a [`Refusal`].
//!
//! ```
//! let mut factor = nigvalds::Factor::open(5, 8, 80, 16)?;
//! let report = factor.add(&[(1, &[1, 3]), (2, &[1, 4]), (3, &[2, 3])])?;
//! assert_eq!((report.touched, report.entries, report.grade), (&[1, 2, 3, 4][..], 8, 1));
//! assert_eq!(factor.path(1)?.collect::<Vec<_>>(), [1, 3, 4]);
//! assert_eq!(format!("{:?}", factor.columns().next().unwrap()), "1 3 1:3 3:1 4:1");
//! assert_eq!(factor.remove(&[3, 3]).unwrap_err(), nigvalds::Refusal::IdRepeated { position: 2 });
//! # Ok::<(), nigvalds::Refusal>(())
//! ```
//!
//! A column may be booked with a window, and counts while the factor's clock stands in it ([`Factor::add_with_windows`], [`Factor::set_clock`]). A factor can be stored
//! and [restored](Factor::restore), and a larger one takes its place when it is full ([growing](Factor#growing)).
//!
//! `cargo run --example planner` runs an active-set loop over it, values and all.
#![warn(missing_docs)]

mod columns;
mod ffi;
pub mod lent;
mod refusal;

pub use columns::{Column, Columns, Entries, Entry, Meets, Path, Walk};
pub use lent::{Limits, Short};
pub use refusal::{Refusal, Refused};

use lent::{Changed, Found, Record, Tables};
use std::cell::RefCell;
use std::fmt;
use std::ops::Range;

/// The minutes at which a column counts: a range `a..b`, or `None` for always.
///
/// That says what a window means in Rust's own words: a half-open range has its first minute and not its second, and no range is no window. An empty range is
/// refused by [`Refusal::Window`], also `0..0`, though as two minutes 0 and 0 would mean none; no window has minute `u32::MAX`.
pub type Window = Option<Range<u32>>;

/// A factor of m rows for columns with ids 1 to n, in F factor records and C book records.
///
/// # Growing
///
/// A factor keeps its sizes. Where C or F is too small ([`Refusal::BookFull`], [`Refusal::FactorFull`]) nothing has changed; a host grows by opening a larger factor
/// and adding its columns again. The pattern is the same, in records of other numbers. No question reads a booked column back, so the host keeps its columns:
///
/// ```
/// # use nigvalds::{Factor, Refusal, Window};
/// // A larger factor with the same limits, clock and columns. The clock is set before columns come, so that just those count that counted before.
/// fn grown(factor: &Factor, f: u32, c: u32, booked: &[(u32, &[u32], Window)]) -> Result<Factor, Refusal> {
///     let record = factor.record();
///     let mut larger = Factor::open_with_limits(record.m, record.n, f, c, factor.limits())?;
///     larger.set_clock(record.clock)?;
///     for batch in booked.chunks(64) {
///         larger.add_with_windows(batch)?;
///     }
///     Ok(larger)
/// }
///
/// let lines: [(u32, &[u32], Window); 3] = [(1, &[1, 3], None), (2, &[1, 4], Some(480..720)), (3, &[2, 3, 5], None)];
/// let mut factor = Factor::open(5, 8, 6, 16)?;
/// factor.add_with_windows(&lines[..2])?;
/// assert_eq!(factor.add_with_windows(&lines[2..]).unwrap_err(), Refusal::FactorFull);
/// factor = grown(&factor, 12, 16, &lines[..2])?;
/// factor.add_with_windows(&lines[2..])?;
/// # assert_eq!(factor.check(), Ok(()));
/// # Ok::<(), Refusal>(())
/// ```
///
/// # Threads
///
/// It is `Send`: it owns all that the library works on, and the library has no global state, so a factor may move to another thread and different factors may
/// be used in parallel. It is not `Sync`: a question needs the work table, which every call fills and clears, so two questions at once would write the same places.
///
/// ```compile_fail,E0277
/// fn shared<T: Sync>() {}
/// shared::<nigvalds::Factor>();
/// ```
pub struct Factor {
    record: Record,
    tables: Tables,
    work: RefCell<Vec<u32>>,
    touched: Vec<u16>,
    labels: Vec<u16>,
}

/// What an accepted batch or clock change reports. One that touches nothing, since it moves no column that counts, reports no column, 0 entries and grade 0.
#[derive(Clone, Copy, Debug, PartialEq, Eq)]
pub struct Report<'a> {
    /// The touched columns, rising.
    pub touched: &'a [u16],
    /// For each, the largest position in the batch whose path passes through it; 0 for each in a clock change.
    pub labels: &'a [u16],
    /// What to size the work on values by: the sum of the touched columns' sizes, of each the larger of before and after the call: for an addition those after
    /// it, for a removal those before it.
    pub entries: u32,
    /// 1 to 4, by the entries: 1, and one more for each of the factor's [`Limits`] that they reach; 0 for no entries.
    pub grade: u32,
}

impl Factor {
    /// The largest m.
    pub const MOST_ROWS: u32 = 4096;
    /// The largest n.
    pub const MOST_IDS: u32 = 16384;
    /// The largest F.
    pub const MOST_RECORDS: u32 = 1048576;
    /// The largest C.
    pub const MOST_BOOKED: u32 = 262144;
    /// F is so many times m where an opening asks for 0.
    pub const RECORDS_PER_ROW: u32 = 32;

    /// A fresh factor with the default limits of the grades; f = 0 means [`Factor::RECORDS_PER_ROW`] × m.
    ///
    /// ```
    /// # use nigvalds::Factor;
    /// assert_eq!(Factor::open(5, 8, 80, 16)?.record().f, 80);
    /// assert_eq!(Factor::open(5, 8, 0, 16)?.record().f, Factor::RECORDS_PER_ROW * 5);
    /// # Ok::<(), nigvalds::Refusal>(())
    /// ```
    pub fn open(m: u32, n: u32, f: u32, c: u32) -> Result<Factor, Refusal> {
        Factor::open_with_limits(m, n, f, c, Limits::default())
    }

    /// A fresh factor with these limits, which it keeps until it is opened anew; three zeros mean the default ones. Limits that break the rule are refused by
    /// [`Refusal::Limits`]. f = 0 means [`Factor::RECORDS_PER_ROW`] × m.
    pub fn open_with_limits(m: u32, n: u32, f: u32, c: u32, limits: Limits) -> Result<Factor, Refusal> {
        let [rows, ids, records, booked] = at_most(m, n, f, c);
        let mut factor = Factor::over(Record { m, n, f, c, ..Record::default() }, Tables::for_sizes(rows, ids, records, booked));
        factor.reopen_with_limits(m, n, f, c, limits)?;
        Ok(factor)
    }

    // Over tables that may be too short, and a record that may not be theirs. The lists of a report serve as many rows as the tables do.
    fn over(record: Record, tables: Tables) -> Factor {
        let [rows, ids, records, booked] = at_most(record.m, record.n, record.f, record.c);
        let report = tables.heads.len().min(Self::MOST_ROWS as usize);
        let work = RefCell::new(vec![0; lent::work_places(rows, ids, records, booked)]);
        Factor { record, tables, work, touched: vec![0; report], labels: vec![0; report] }
    }

    /// Opens anew in the tables there are, without a column, at minute 0 and with the default limits; f = 0 as in [`Factor::open`]. Where it is refused, for the sizes or
    /// since the tables are too short for them, the factor stays.
    pub fn reopen(&mut self, m: u32, n: u32, f: u32, c: u32) -> Result<(), Refused> {
        self.reopen_with_limits(m, n, f, c, Limits::default())
    }

    /// Opens anew likewise, with these limits, three zeros for the default ones; limits that break the rule are refused too.
    pub fn reopen_with_limits(&mut self, m: u32, n: u32, f: u32, c: u32, limits: Limits) -> Result<(), Refused> {
        let opened = self.tables.open(m, n, f, c, limits, self.work.get_mut());
        answered(opened.number, 0).map_err(|refusal| self.refused(refusal, m, n, f, c))?;
        self.record = opened.record;
        Ok(())
    }

    // A refusal in the tables there are, with the one that is too short.
    fn refused(&self, refusal: Refusal, m: u32, n: u32, f: u32, c: u32) -> Refused {
        let short = self.tables.first_short(m, n, f, c, self.work.borrow().len(), None);
        Refused { refusal, short: short.filter(|_| refusal == Refusal::Short) }
    }

    /// A factor from a record and tables that were stored: those of [`record`](Factor::record) and [`tables`](Factor::tables). They are read through first; what is
    /// damaged, or belongs to another record, is refused by [`Refusal::Unsound`], sizes and lengths that cannot be used by 1 to 5.
    ///
    /// To what a version before 0.7 stored add clock 0, the last number of the record, and windows of 2 × n zeros; to a record of 0.1 also limits of the grades.
    ///
    /// ```
    /// use nigvalds::lent::{Record, Tables};
    /// use nigvalds::{Factor, Refusal};
    ///
    /// // A file: the record's ten numbers, the tables of 32-bit places, then those of 16-bit places.
    /// fn stored(factor: &Factor) -> Vec<u8> {
    ///     let (record, t) = (<[u32; 10]>::from(factor.record()), factor.tables());
    ///     let wide = [&record[..], &t.heads, &t.next, &t.book_heads, &t.book_next, &t.windows].concat();
    ///     let narrow = [&t.parents[..], &t.rows, &t.counts, &t.book_rows].concat();
    ///     wide.iter().flat_map(|x| x.to_le_bytes()).chain(narrow.iter().flat_map(|x| x.to_le_bytes())).collect()
    /// }
    ///
    /// // So many places from the front of a file; none where it ends early.
    /// fn places<T, const N: usize>(file: &mut &[u8], length: u32, number: fn([u8; N]) -> T) -> Option<Vec<T>> {
    ///     let mut place = || {
    ///         let (place, rest) = file.split_first_chunk()?;
    ///         *file = rest;
    ///         Some(number(*place))
    ///     };
    ///     (0..length).map(|_| place()).collect()
    /// }
    ///
    /// fn fetched(mut file: &[u8]) -> Option<(Record, Tables)> {
    ///     let record = Record::from(<[u32; 10]>::try_from(places(&mut file, 10, u32::from_le_bytes)?).ok()?);
    ///     let Record { m, n, f, c, .. } = record;
    ///     let mut wide = |length| places(&mut file, length, u32::from_le_bytes);
    ///     let (heads, next, book_heads, book_next, windows) = (wide(m)?, wide(f)?, wide(n)?, wide(c)?, wide(2 * n)?);
    ///     let mut narrow = |length| places(&mut file, length, u16::from_le_bytes);
    ///     let (parents, rows, counts, book_rows) = (narrow(m)?, narrow(f)?, narrow(f)?, narrow(c)?);
    ///     Some((record, Tables { heads, parents, rows, counts, next, book_heads, book_rows, book_next, windows }))
    /// }
    ///
    /// let mut factor = Factor::open(5, 8, 80, 16)?;
    /// factor.add_with_windows(&[(1, &[1, 3], None), (2, &[1, 4], Some(480..720))])?;
    /// let path = std::env::temp_dir().join(format!("nigvalds-{}", std::process::id()));
    /// std::fs::write(&path, stored(&factor))?;
    ///
    /// let mut file = std::fs::read(&path)?; // after a restart
    /// let (record, tables) = fetched(&file).ok_or("the file ends early")?;
    /// let mut factor = Factor::restore(record, tables)?;
    /// assert_eq!(factor.set_clock(500)?.touched, [1, 3, 4]);
    ///
    /// file[40] = 2; // the first record of column 1
    /// let (record, tables) = fetched(&file).ok_or("the file ends early")?;
    /// assert_eq!(Factor::restore(record, tables).unwrap_err(), Refusal::Unsound);
    /// # std::fs::remove_file(&path)?;
    /// # Ok::<(), Box<dyn std::error::Error>>(())
    /// ```
    pub fn restore(record: Record, tables: Tables) -> Result<Factor, Refused> {
        let Record { m, n, f, c, .. } = record;
        let factor = Factor::over(record, tables);
        factor.check().map_err(|refusal| factor.refused(refusal, m, n, f, c))?;
        Ok(factor)
    }

    /// Record and tables, to store or to lend elsewhere.
    pub fn into_parts(self) -> (Record, Tables) {
        (self.record, self.tables)
    }

    /// Adds columns, each an id with its rows, as one batch. They always count.
    pub fn add(&mut self, columns: &[(u32, &[u32])]) -> Result<Report<'_>, Refusal> {
        let (ids, counts, rows) = lists(columns.iter().copied());
        let none = vec![0; ids.len()];
        self.add_lists(&ids, &counts, &rows, &none, &none)
    }

    /// Adds columns with windows as one batch: each an id with its rows and the minutes at which it counts. A [`Window`] that lies in the past or the future is
    /// taken: its column is booked, and counts when [`set_clock`](Factor::set_clock) comes to it.
    ///
    /// ```
    /// # let mut factor = nigvalds::Factor::open(5, 8, 80, 16)?;
    /// let report = factor.add_with_windows(&[(1, &[1, 3], None), (2, &[1, 4], Some(480..720))])?;
    /// assert_eq!((report.touched, report.labels, report.entries), (&[1, 3][..], &[1, 1][..], 3)); // at minute 0 column 2 is booked, and does not count
    /// assert_eq!(factor.add(&[(2, &[5])]).unwrap_err(), nigvalds::Refusal::IdBooked { position: 1 });
    /// let report = factor.set_clock(480)?;
    /// assert_eq!((report.touched, report.labels, report.entries), (&[1, 3, 4][..], &[0, 0, 0][..], 6));
    /// assert_eq!(factor.add_with_windows(&[(3, &[5], Some(9..9))]).unwrap_err(), nigvalds::Refusal::Window { position: 1 });
    /// # Ok::<(), nigvalds::Refusal>(())
    /// ```
    pub fn add_with_windows(&mut self, columns: &[(u32, &[u32], Window)]) -> Result<Report<'_>, Refusal> {
        let (ids, counts, rows) = lists(columns.iter().map(|c| (c.0, c.1)));
        let (firsts, seconds): (Vec<u32>, Vec<u32>) = columns.iter().map(|c| minutes(&c.2)).unzip();
        self.add_lists(&ids, &counts, &rows, &firsts, &seconds)
    }

    /// Adds a batch: by position, each id with as many of the rows not yet used as its count says, and a window of its first and second minutes, 0 and 0 for
    /// none. Counts and both lists of minutes must be as long as the ids, or [`Refusal::Shape`] is given.
    pub fn add_lists(&mut self, ids: &[u32], counts: &[u32], rows: &[u32], firsts: &[u32], seconds: &[u32]) -> Result<Report<'_>, Refusal> {
        let changed = self.tables.add(self.record, self.work.get_mut(), &mut self.touched, &mut self.labels, ids, counts, rows, firsts, seconds);
        self.report(changed)
    }

    /// Removes the columns of these ids, as one batch, those too that do not count now. The report's entries are those that the touched columns had before.
    pub fn remove(&mut self, ids: &[u32]) -> Result<Report<'_>, Refusal> {
        let changed = self.tables.remove(self.record, self.work.get_mut(), &mut self.touched, &mut self.labels, ids);
        self.report(changed)
    }

    /// Sets the clock, forward or back, as one change however many columns it moves: those whose windows end leave the factor, those whose windows begin enter it.
    /// The report has the columns on the old paths of the ones and on the new paths of the others. Where what counts then does not fit, it is refused by
    /// [`Refusal::FactorFull`], and the clock stays.
    ///
    /// ```
    /// # let mut factor = nigvalds::Factor::open(5, 8, 80, 16)?;
    /// factor.add_with_windows(&[(1, &[1, 3], Some(480..600)), (2, &[1, 4], Some(540..720))])?;
    /// assert_eq!(factor.set_clock(500)?.touched, [1, 3]);
    /// assert_eq!(factor.set_clock(600)?.touched, [1, 3, 4]); // column 1 leaves, column 2 enters
    /// assert_eq!((factor.set_clock(719)?.touched.len(), factor.clock()), (0, 719)); // nobody moves
    /// # Ok::<(), nigvalds::Refusal>(())
    /// ```
    pub fn set_clock(&mut self, minute: u32) -> Result<Report<'_>, Refusal> {
        let changed = self.tables.set_clock(self.record, self.work.get_mut(), &mut self.touched, &mut self.labels, minute);
        self.report(changed)
    }

    fn report(&mut self, changed: Changed) -> Result<Report<'_>, Refusal> {
        answered(changed.number, changed.position)?;
        self.record = changed.record;
        let k = changed.touched as usize;
        Ok(Report { touched: &self.touched[..k], labels: &self.labels[..k], entries: changed.entries, grade: changed.grade })
    }

    /// Reads all tables through. They are this value's own, so it finds them sound.
    pub fn check(&self) -> Result<(), Refusal> {
        answered(self.tables.check(self.record, &mut self.work.borrow_mut()).number, 0)
    }

    /// The first row at or above i in column j, with its multiplicity; none if the column ends before. For i up to j that is the diagonal; for j below m, asking
    /// for j + 1 gives j's parent. A row or column outside 1 to m is refused by [`Refusal::AskedOutside`].
    ///
    /// ```
    /// # let mut factor = nigvalds::Factor::open(5, 8, 80, 16)?;
    /// factor.add(&[(1, &[1, 3]), (2, &[1, 4]), (3, &[2, 3])])?; // column 1 has rows 1, 3 and 4
    /// assert_eq!(factor.next_row(2, 1)?, Some(nigvalds::Entry { row: 3, multiplicity: 1 }));
    /// assert_eq!(factor.next_row(5, 1)?, None);
    /// assert_eq!(factor.next_row(6, 1), Err(nigvalds::Refusal::AskedOutside));
    /// # Ok::<(), nigvalds::Refusal>(())
    /// ```
    pub fn next_row(&self, i: u32, j: u32) -> Result<Option<Entry>, Refusal> {
        let Found { number, row, multiplicity } = self.tables.next_row(self.record, &mut self.work.borrow_mut(), i, j);
        answered(number, 0).map(|()| (row != 0).then_some(Entry { row, multiplicity }))
    }

    /// The parent of column j; none for a root.
    pub fn parent(&self, j: u32) -> Result<Option<u32>, Refusal> {
        let reply = self.tables.parent(self.record, &mut self.work.borrow_mut(), j);
        answered(reply.number, 0).map(|()| (reply.value != 0).then_some(reply.value))
    }

    /// The path of column j, up to its root.
    pub fn path(&self, j: u32) -> Result<Path, Refusal> {
        let mut list = vec![0; self.record.m as usize];
        let reply = self.tables.path(self.record, &mut self.work.borrow_mut(), &mut list, j, 0);
        answered(reply.number, 0)?;
        list.truncate(reply.value as usize);
        Ok(Path::new(list))
    }

    /// The entries of column j, asked for as one answer.
    pub fn column(&self, j: u32) -> Result<Vec<Entry>, Refusal> {
        let mut list = vec![0; 2 * self.record.m as usize];
        let reply = self.tables.column(self.record, &mut self.work.borrow_mut(), &mut list, j, 0);
        answered(reply.number, 0)?;
        Ok(list.chunks_exact(2).take(reply.value as usize).map(|e| Entry { row: e[0], multiplicity: e[1] }).collect())
    }

    /// The entries of column j, walked by questions: [`next_row`](Factor::next_row) from row 1, then from one above each row given, until row m or none. A column
    /// outside 1 to m is refused by [`Refusal::AskedOutside`]. Each step reads all tables through; [`columns`](Factor::columns) is the cheap way.
    ///
    /// ```
    /// # let mut factor = nigvalds::Factor::open(5, 8, 80, 16)?;
    /// factor.add(&[(1, &[1, 3]), (2, &[1, 4]), (3, &[2, 3])])?;
    /// assert_eq!(factor.walk(1)?.map(|e| e.row).collect::<Vec<_>>(), [1, 3, 4]);
    /// assert_eq!(factor.walk(6).err(), Some(nigvalds::Refusal::AskedOutside));
    /// # Ok::<(), nigvalds::Refusal>(())
    /// ```
    pub fn walk(&self, j: u32) -> Result<Walk<'_>, Refusal> {
        Walk::new(self, j)
    }

    /// The columns whose pattern holds row i, rising; the last is i itself. A row outside 1 to m is refused by [`Refusal::AskedOutside`].
    ///
    /// ```
    /// # let mut factor = nigvalds::Factor::open(5, 8, 80, 16)?;
    /// factor.add(&[(1, &[1, 3]), (2, &[1, 4]), (3, &[2, 3])])?;
    /// assert_eq!(factor.meets(4)?.collect::<Vec<_>>(), [1, 3, 4]);
    /// assert_eq!(factor.meets(6).err(), Some(nigvalds::Refusal::AskedOutside));
    /// # Ok::<(), nigvalds::Refusal>(())
    /// ```
    pub fn meets(&self, i: u32) -> Result<Meets, Refusal> {
        let mut list = vec![0; self.record.m as usize];
        let reply = self.tables.meets(self.record, &mut self.work.borrow_mut(), &mut list, i, 0);
        answered(reply.number, 0)?;
        list.truncate(reply.value as usize);
        Ok(Meets::new(list))
    }

    /// The smallest row that lies on the paths of all of these rows; none where there is no such row. A path starts with its own row, so one row alone gives
    /// itself, and a row may be named again. No row or more than 64 are refused by [`Refusal::Shape`], then one outside 1 to m by [`Refusal::AskedOutside`].
    ///
    /// ```
    /// # let mut factor = nigvalds::Factor::open(5, 8, 80, 16)?;
    /// factor.add(&[(1, &[1, 3]), (2, &[1, 4]), (3, &[2, 3])])?; // paths 1 3 4 and 2 3 4; 5 is alone
    /// assert_eq!(factor.common(&[1, 2])?, Some(3));
    /// assert_eq!(factor.common(&[1, 5])?, None);
    /// assert_eq!(factor.common(&[]), Err(nigvalds::Refusal::Shape));
    /// # Ok::<(), nigvalds::Refusal>(())
    /// ```
    pub fn common(&self, rows: &[u32]) -> Result<Option<u32>, Refusal> {
        let reply = self.tables.common(self.record, &mut self.work.borrow_mut(), rows);
        answered(reply.number, 0).map(|()| (reply.value != 0).then_some(reply.value))
    }

    /// All columns, read entry by entry without a look at the rest of the tables.
    pub fn columns(&self) -> Columns<'_> {
        Columns::new(&self.tables, self.record.m)
    }

    /// The limits of its grades.
    pub fn limits(&self) -> Limits {
        let Record { grade2, grade3, grade4, .. } = self.record;
        Limits { grade2, grade3, grade4 }
    }

    /// The minute at which it stands: 0 from an opening on, until it is set.
    pub fn clock(&self) -> u32 {
        self.record.clock
    }

    /// The record of sizes, free heads, limits and clock.
    pub fn record(&self) -> Record {
        self.record
    }

    /// The tables.
    pub fn tables(&self) -> &Tables {
        &self.tables
    }
}

/// Record and tables are copied; the copy has a work table of its own.
impl Clone for Factor {
    fn clone(&self) -> Factor {
        let places = self.work.borrow().len();
        Factor { work: RefCell::new(vec![0; places]), ..Factor::over(self.record, self.tables.clone()) }
    }
}

/// The listing: a line for each column.
impl fmt::Debug for Factor {
    fn fmt(&self, f: &mut fmt::Formatter<'_>) -> fmt::Result {
        self.columns().try_for_each(|column| writeln!(f, "{column:?}"))
    }
}

// The ids, row counts and rows of some columns.
fn lists<'a>(columns: impl Iterator<Item = (u32, &'a [u32])>) -> (Vec<u32>, Vec<u32>, Vec<u32>) {
    let (mut ids, mut counts, mut rows) = (Vec::new(), Vec::new(), Vec::new());
    for (id, column) in columns {
        ids.push(id);
        counts.push(column.len().min(u32::MAX as usize) as u32);
        rows.extend(column);
    }
    (ids, counts, rows)
}

// The two minutes of a window, 0 and 0 for none. The empty range of these goes as another empty one, for the library to refuse in its place.
fn minutes(window: &Window) -> (u32, u32) {
    match window {
        None => (0, 0),
        Some(Range { start: 0, end: 0 }) => (1, 1),
        Some(range) => (range.start, range.end),
    }
}

// The sizes to make tables for, F = 0 as at an opening: those beyond the largest need none, since the library refuses them.
fn at_most(m: u32, n: u32, f: u32, c: u32) -> [u32; 4] {
    let rows = m.min(Factor::MOST_ROWS);
    [rows, n.min(Factor::MOST_IDS), lent::records(rows, f).min(Factor::MOST_RECORDS), c.min(Factor::MOST_BOOKED)]
}

// Accepted, or the refusal of an answer.
fn answered(number: u32, position: u32) -> Result<(), Refusal> {
    Refusal::of(number, position).map_or(Ok(()), Err)
}

// README's Rust program is run with the tests of the documentation.
#[cfg(doctest)]
#[doc = include_str!("../../README.md")]
struct Readme;
