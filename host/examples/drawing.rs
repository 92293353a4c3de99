//! Writes a factor before and after its clock moves, for tools/draw: `cargo run --offline --example drawing | ../tools/draw --change > clock.svg`.
use nigvalds::{Factor, Refusal, Window};
use std::fmt;

/// A state as tools/draw reads it: the clock, a line for each booked column (id, two minutes, rows), and the listing.
struct State<'a>(&'a Factor);

impl fmt::Display for State<'_> {
    fn fmt(&self, f: &mut fmt::Formatter<'_>) -> fmt::Result {
        let (t, n) = (self.0.tables(), self.0.record().n as usize);
        writeln!(f, "clock {}", self.0.clock())?;
        for k in (0..n).filter(|k| t.book_heads[*k] != 0) {
            write!(f, "line {} {} {}", k + 1, t.windows[k], t.windows[n + k])?;
            let mut at = t.book_heads[k] as usize;
            while at != 0 {
                write!(f, " {}", t.book_rows[at - 1])?;
                at = t.book_next[at - 1] as usize;
            }
            writeln!(f)?;
        }
        write!(f, "{:?}", self.0)
    }
}

fn main() -> Result<(), Refusal> {
    let lines: [(u32, &[u32], Window); 5] =
        [(1, &[1, 3], None), (2, &[1, 4], Some(480..720)), (3, &[2, 4], Some(0..600)), (4, &[5, 6, 7], None), (5, &[3, 7], Some(600..900))];
    let mut factor = Factor::open(7, 8, 80, 32)?;
    factor.add_with_windows(&lines)?;
    for minute in [540, 600] {
        factor.set_clock(minute)?;
        print!("{}", State(&factor));
    }
    Ok(())
}
