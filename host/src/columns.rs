//! What is read of a factor: entries of a column, by the reader or by questions, whole columns, paths, and the columns that meet a row.
use crate::lent::Tables;
use crate::{Factor, Refusal};
use std::fmt;

/// An entry of a factor column: a row and its multiplicity.
#[derive(Clone, Copy, Debug, PartialEq, Eq)]
pub struct Entry {
    /// The row, at least the column's number.
    pub row: u32,
    /// How many children and live columns hold it, and 1 on the diagonal.
    pub multiplicity: u32,
}

/// The entries of one column, rows rising: a step of the library's reader for each.
#[derive(Clone)]
pub struct Entries<'a> {
    tables: &'a Tables,
    record: u32,
}

impl<'a> Entries<'a> {
    pub(crate) fn new(tables: &'a Tables, record: u32) -> Entries<'a> {
        Entries { tables, record }
    }
}

impl Iterator for Entries<'_> {
    type Item = Entry;

    fn next(&mut self) -> Option<Entry> {
        let e = self.tables.read(self.record);
        self.record = e.next;
        (e.row != 0).then_some(Entry { row: e.row, multiplicity: e.multiplicity })
    }
}

impl std::iter::FusedIterator for Entries<'_> {}

/// The entries of one column, rows rising: each step is a question for the next row, which reads all tables through. [`Factor::columns`] is the cheap way to the
/// same entries.
#[derive(Clone)]
pub struct Walk<'a> {
    factor: &'a Factor,
    j: u32,
    // The answer that is not given yet.
    ahead: Option<Entry>,
}

impl<'a> Walk<'a> {
    pub(crate) fn new(factor: &'a Factor, j: u32) -> Result<Walk<'a>, Refusal> {
        Ok(Walk { factor, j, ahead: factor.next_row(1, j)? })
    }
}

impl Iterator for Walk<'_> {
    type Item = Entry;

    fn next(&mut self) -> Option<Entry> {
        let entry = self.ahead.take()?;
        if entry.row < self.factor.record().m {
            self.ahead = self.factor.next_row(entry.row + 1, self.j).expect("a factor's own tables are sound");
        }
        Some(entry)
    }
}

impl std::iter::FusedIterator for Walk<'_> {}

/// A factor column. Its `Debug` is a line of the listing: j, parent, then row:multiplicity pairs.
#[derive(Clone, Copy)]
pub struct Column<'a> {
    tables: &'a Tables,
    j: u32,
}

impl<'a> Column<'a> {
    /// Its number, 1 to m.
    pub fn number(&self) -> u32 {
        self.j
    }

    /// Its parent; none for a root.
    pub fn parent(&self) -> Option<u32> {
        let p = self.tables.parents[self.j as usize - 1] as u32;
        (p != 0).then_some(p)
    }

    /// Its entries.
    pub fn entries(&self) -> Entries<'a> {
        Entries::new(self.tables, self.tables.heads[self.j as usize - 1])
    }
}

impl fmt::Debug for Column<'_> {
    fn fmt(&self, f: &mut fmt::Formatter<'_>) -> fmt::Result {
        write!(f, "{} {}", self.j, self.parent().unwrap_or(0))?;
        self.entries().try_for_each(|e| write!(f, " {}:{}", e.row, e.multiplicity))
    }
}

/// All columns, 1 to m.
#[derive(Clone)]
pub struct Columns<'a> {
    tables: &'a Tables,
    left: std::ops::RangeInclusive<u32>,
}

impl<'a> Columns<'a> {
    pub(crate) fn new(tables: &'a Tables, m: u32) -> Columns<'a> {
        Columns { tables, left: 1..=m }
    }
}

impl<'a> Iterator for Columns<'a> {
    type Item = Column<'a>;

    fn next(&mut self) -> Option<Column<'a>> {
        self.left.next().map(|j| Column { tables: self.tables, j })
    }

    fn size_hint(&self) -> (usize, Option<usize>) {
        self.left.size_hint()
    }
}

// An answer that the library writes to a list, a row or column to a place: a type with its documentation.
macro_rules! listed {
    ($($(#[$doc:meta])* $name:ident;)*) => {
        $($(#[$doc])*
        pub struct $name {
            places: std::vec::IntoIter<u32>,
        }

        impl $name {
            pub(crate) fn new(places: Vec<u32>) -> $name {
                $name { places: places.into_iter() }
            }
        }

        impl Iterator for $name {
            type Item = u32;

            fn next(&mut self) -> Option<u32> {
                self.places.next()
            }

            fn size_hint(&self) -> (usize, Option<usize>) {
                self.places.size_hint()
            }
        }

        impl ExactSizeIterator for $name {})*
    };
}

listed! {
    /// The rows of a path, from its column up to the root.
    Path;
    /// The columns whose pattern holds a row, rising; the last is the row's own.
    Meets;
}
