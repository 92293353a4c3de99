//! The numbers by which a call is turned down, as a type; and an error that says which table is too short.
use crate::lent::Short;
use std::fmt;

// A line for each number: its name, whether it comes with a position, its words.
macro_rules! refusals {
    ($($number:literal $name:ident $({ $position:ident })? $words:literal;)*) => {
        /// Why a call was turned down. The first that applies is given; nothing has changed then. A `position` is that of the column in the batch, from 1; in
        /// `Count`, 0 says that rows are left over.
        ///
        /// Later versions of the library may have more numbers, so a `match` needs an arm for the rest.
        #[derive(Clone, Copy, Debug, PartialEq, Eq, Hash)]
        #[non_exhaustive]
        pub enum Refusal {
            $(#[doc = concat!(stringify!($number), ": ", $words, ".")]
            $name $({
                /// The column's position in the batch.
                $position: u32,
            })?,)*
            /// A number that this package does not know: the archive is of another version.
            Unknown {
                /// The number.
                number: u32,
                /// The position that came with it.
                position: u32,
            },
        }

        impl Refusal {
            /// The refusal of an answer's number and position; nothing for 0, which says accepted.
            pub fn of(number: u32, position: u32) -> Option<Refusal> {
                match number {
                    0 => None,
                    $($number => Some(Refusal::$name $({ $position: position })?),)*
                    _ => Some(Refusal::Unknown { number, position }),
                }
            }

            /// Its number, as the table of docs/REFERENCE.md has it.
            pub fn number(self) -> u32 {
                match self {
                    $(Refusal::$name { .. } => $number,)*
                    Refusal::Unknown { number, .. } => number,
                }
            }

            /// The position of the column that it is given for, 0 where there is none.
            pub fn position(self) -> u32 {
                match self {
                    $($(Refusal::$name { $position } => $position,)?)*
                    Refusal::Unknown { position, .. } => position,
                    _ => 0,
                }
            }

            /// What it says, in plain words.
            pub fn words(self) -> &'static str {
                match self {
                    $(Refusal::$name { .. } => $words,)*
                    Refusal::Unknown { .. } => "no number of this library",
                }
            }
        }
    };
}

refusals! {
    1 Rows "m is outside 1 to 4,096";
    2 Ids "n is outside 1 to 16,384";
    3 Records "F is outside m to 1,048,576";
    4 Booked "C is outside 1 to 262,144";
    5 Short "a table or list that is needed is too short";
    6 Unsound "the tables are not sound";
    7 Shape "not 1 to 64 columns or rows named, or not as many counts or minutes as ids";
    8 IdOutside { position } "an id is outside 1 to n";
    9 IdRepeated { position } "an id stands earlier in the batch";
    10 IdBooked { position } "an id to add is booked";
    11 IdNotBooked { position } "an id to remove is not booked";
    12 Count { position } "a count is outside 1 to 256, or there are fewer or more rows than the counts say";
    13 RowOutside { position } "a row is outside 1 to m";
    14 RowOrder { position } "a row is not above the row before";
    15 BookFull "the rows of the booked columns would exceed C";
    16 FactorFull "the sum of all pattern sizes would exceed F";
    17 AskedOutside "a row or column asked about is outside 1 to m";
    18 ListEnds "the list ends before the answer does";
    19 NoCommand "a line is no command";
    20 Limits "a limit of the grades is below 2 or not above the limit before";
    21 Window { position } "the second minute of a window other than 0 and 0 is not later than its first";
}

impl fmt::Display for Refusal {
    fn fmt(&self, f: &mut fmt::Formatter<'_>) -> fmt::Result {
        match self.position() {
            0 => write!(f, "refused by {}: {}", self.number(), self.words()),
            p => write!(f, "refused by {} at position {p}: {}", self.number(), self.words()),
        }
    }
}

impl std::error::Error for Refusal {}

/// Why opening anew or restoring was turned down, in tables that are there: the refusal and, where that is [`Refusal::Short`], the first table that is too short. It
/// is equal to its refusal, and `?` turns it into that.
///
/// ```
/// let mut factor = nigvalds::Factor::open(5, 8, 80, 16)?;
/// let refused = factor.reopen(5, 8, 100, 16).unwrap_err();
/// assert_eq!(refused, nigvalds::Refusal::Short);
/// assert_eq!(refused.to_string(), "refused by 5: a table or list that is needed is too short: rows has 80 of 100 places");
/// # Ok::<(), nigvalds::Refusal>(())
/// ```
#[derive(Clone, Copy, Debug, PartialEq, Eq, Hash)]
pub struct Refused {
    /// The refusal.
    pub refusal: Refusal,
    /// The first table that is too short.
    pub short: Option<Short>,
}

impl fmt::Display for Refused {
    fn fmt(&self, f: &mut fmt::Formatter<'_>) -> fmt::Result {
        self.refusal.fmt(f)?;
        self.short.map_or(Ok(()), |short| write!(f, ": {short}"))
    }
}

impl std::error::Error for Refused {}

impl PartialEq<Refusal> for Refused {
    fn eq(&self, refusal: &Refusal) -> bool {
        self.refusal == *refusal
    }
}

impl From<Refused> for Refusal {
    fn from(refused: Refused) -> Refusal {
        refused.refusal
    }
}
