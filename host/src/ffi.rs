//! The library's functions as `include/nigvalds.h` declares them; `tools/check-header` compares both with crates/nigvalds/src.
//! A slice crosses as a pointer and a length in places; structs cross by value. The archive's names end in the interface's version (`INTERFACE` in
//! `build/archive.rs`), so a package of another interface does not link.

/// The record of sizes, free heads, limits of the grades and clock. It goes with the tables.
#[repr(C)]
#[derive(Clone, Copy, Debug, Default, PartialEq, Eq)]
pub struct Record {
    /// Rows.
    pub m: u32,
    /// Ids.
    pub n: u32,
    /// Factor records.
    pub f: u32,
    /// Book records.
    pub c: u32,
    /// The first free factor record, 0 for none.
    pub free: u32,
    /// The first free book record, 0 for none.
    pub book_free: u32,
    /// From so many entries on the grade is 2.
    pub grade2: u32,
    /// From so many entries on the grade is 3.
    pub grade3: u32,
    /// From so many entries on the grade is 4.
    pub grade4: u32,
    /// The minute at which the factor stands.
    pub clock: u32,
}

/// What an opening answers: number 0 and the record, or the refusal's number and a record of zeros.
#[repr(C)]
#[derive(Clone, Copy, Debug, PartialEq, Eq)]
pub struct Opened {
    /// 0, or why not.
    pub number: u32,
    /// The record of the fresh factor; zeros where it is refused, and then the record from before serves on.
    pub record: Record,
}

/// What a batch or a clock change answers, with the record after it.
#[repr(C)]
#[derive(Clone, Copy, Debug, PartialEq, Eq)]
pub struct Changed {
    /// 0, or why not.
    pub number: u32,
    /// The position that goes with the number, or 0.
    pub position: u32,
    /// How many columns the lists report.
    pub touched: u32,
    /// The sum of their sizes, of each the larger of before and after the call: for an addition those after it, for a removal those before it.
    pub entries: u32,
    /// 1 to 4, by the entries and the limits in the record; 0 where it is refused, and where it touches nothing.
    pub grade: u32,
    /// The record after the call; where it is refused, the one that was given.
    pub record: Record,
}

/// What a check answers, or a question but the one for the next row.
#[repr(C)]
#[derive(Clone, Copy, Debug, PartialEq, Eq)]
pub struct Reply {
    /// 0, or why not.
    pub number: u32,
    /// The value if the number is 0.
    pub value: u32,
}

/// What the question for the next row answers.
#[repr(C)]
#[derive(Clone, Copy, Debug, PartialEq, Eq)]
pub struct Found {
    /// 0, or why not.
    pub number: u32,
    /// The row, 0 where it is refused or the column ends before.
    pub row: u32,
    /// Its multiplicity, 0 with row 0.
    pub multiplicity: u32,
}

/// What is read at a record; row 0 is the end.
#[repr(C)]
#[derive(Clone, Copy, Debug, PartialEq, Eq)]
pub struct Read {
    /// The row, 0 at the end.
    pub row: u32,
    /// Its multiplicity, 0 at the end.
    pub multiplicity: u32,
    /// The record after it, 0 for none.
    pub next: u32,
}

// A function with its first parameters, the nine tables and the work table (whether the heads, the other tables of the factor, and those of the book with the
// windows are written), and its last parameters.
macro_rules! declare {
    ($($(#[$doc:meta])* fn $name:ident($($first:ident: $first_type:ty),*; $heads:ident $stored:ident $book:ident; $($last:ident: $last_type:ty),*) -> $answer:ty;)*) => {
        extern "C" {
            $($(#[$doc])*
            #[link_name = concat!(stringify!($name), env!("NIGVALDS_INTERFACE"))]
            pub fn $name(
                $($first: $first_type,)*
                heads: pointer!($heads u32), heads_length: usize,
                parents: pointer!($stored u16), parents_length: usize,
                rows: pointer!($stored u16), rows_length: usize,
                counts: pointer!($stored u16), counts_length: usize,
                next: pointer!($stored u32), next_length: usize,
                book_heads: pointer!($book u32), book_heads_length: usize,
                book_rows: pointer!($book u16), book_rows_length: usize,
                book_next: pointer!($book u32), book_next_length: usize,
                windows: pointer!($book u32), windows_length: usize,
                work: *mut u32, work_length: usize,
                $($last: $last_type,)*
            ) -> $answer;)*
        }
    };
}

macro_rules! pointer {
    (written $t:ty) => { *mut $t };
    (read $t:ty) => { *const $t };
}

declare! {
    fn nigvalds_open(m: u32, n: u32, f: u32, c: u32, grade2: u32, grade3: u32, grade4: u32; written written written;) -> Opened;
    fn nigvalds_add(factor: Record; read written written;
        touched: *mut u16, touched_length: usize, labels: *mut u16, labels_length: usize, ids: *const u32, ids_length: usize,
        row_counts: *const u32, row_counts_length: usize, row_list: *const u32, row_list_length: usize,
        firsts: *const u32, firsts_length: usize, seconds: *const u32, seconds_length: usize) -> Changed;
    fn nigvalds_remove(factor: Record; read written written;
        touched: *mut u16, touched_length: usize, labels: *mut u16, labels_length: usize, ids: *const u32, ids_length: usize) -> Changed;
    fn nigvalds_set_clock(factor: Record; read written read;
        touched: *mut u16, touched_length: usize, labels: *mut u16, labels_length: usize, minute: u32) -> Changed;
    fn nigvalds_check(factor: Record; read read read;) -> Reply;
    fn nigvalds_next_row(factor: Record; read read read; i: u32, j: u32) -> Found;
    fn nigvalds_parent(factor: Record; read read read; j: u32) -> Reply;
    fn nigvalds_path(factor: Record; read read read; list: *mut u32, list_length: usize, j: u32, place: usize) -> Reply;
    fn nigvalds_column(factor: Record; read read read; list: *mut u32, list_length: usize, j: u32, place: usize) -> Reply;
    fn nigvalds_meets(factor: Record; read read read; list: *mut u32, list_length: usize, i: u32, place: usize) -> Reply;
    fn nigvalds_common(factor: Record; read read read; row_list: *const u32, row_list_length: usize) -> Reply;
}

extern "C" {
    #[link_name = concat!("nigvalds_read", env!("NIGVALDS_INTERFACE"))]
    pub fn nigvalds_read(
        rows: *const u16,
        rows_length: usize,
        counts: *const u16,
        counts_length: usize,
        next: *const u32,
        next_length: usize,
        record: u32,
    ) -> Read;
}
