//! A small active-set loop, as a planner runs it: the library keeps the pattern, the planner its values.
//!
//! Delivery runs are rows, order lines are columns. Prices y of the runs minimise |y - b|² / 2 plus, for each line k whose runs together cost more than its
//! limit c, (sum of y over its runs - c)² / 2. With the active lines known, that is the system (I + AA^T) y = b + A c over the active columns A; the solution
//! says which lines are active, so lines leave and enter until the set stays.
use nigvalds::{Factor, Refusal};
use std::collections::BTreeSet;

const RUNS: u32 = 40;
const LINES: u32 = 120;
const ROUNDS: u32 = 20;
/// Factor records for a run: few lines share runs of other regions, so columns stay short, and less to read through makes calls cheaper.
const RECORDS_PER_RUN: u32 = 16;

struct Line {
    runs: Vec<u32>,
    limit: f64,
}

/// The same lines in every run of the program: one to four of a region's twelve runs, and for one line in three one of the four runs that regions share.
fn lines() -> Vec<Line> {
    let mut state: u32 = 1;
    let mut below = |most: u32| {
        state = state.wrapping_mul(1664525).wrapping_add(1013904223);
        (state >> 16) % most
    };
    (0..LINES)
        .map(|_| {
            let (region, many, shared) = (12 * below(3), 2 + below(3), below(3) == 0);
            let mut runs: BTreeSet<u32> = (0..many).map(|_| region + 1 + below(12)).collect();
            runs.extend(shared.then(|| 37 + below(4)));
            let limit = 0.6 * runs.len() as f64 + 0.01 * below(100) as f64;
            Line { runs: runs.into_iter().collect(), limit }
        })
        .collect()
}

/// What a run would cost by itself.
fn wish(run: u32) -> f64 {
    0.5 + 0.1 * (run * 7 % 11) as f64
}

/// The sum of the prices of a line's runs above its limit; active while it is above 0.
fn excess(line: &Line, prices: &[f64]) -> f64 {
    line.runs.iter().map(|i| prices[*i as usize - 1]).sum::<f64>() - line.limit
}

/// The factor's pattern, and its values: a list of row and value for each column, the diagonal first.
struct System {
    pattern: Factor,
    values: Vec<Vec<(u32, f64)>>,
    active: BTreeSet<u32>,
}

impl System {
    fn open() -> Result<System, Refusal> {
        let pattern = Factor::open(RUNS, LINES, RECORDS_PER_RUN * RUNS, 4 * LINES)?;
        let values = (1..=RUNS).map(|j| vec![(j, 1.0)]).collect();
        Ok(System { pattern, values, active: BTreeSet::new() })
    }

    /// Drops some lines and adds others, a batch of at most 64 at a time; after each batch the values of the touched columns are made anew.
    fn change(&mut self, lines: &[Line], leave: &[u32], enter: &[u32]) -> Result<(), Refusal> {
        for ids in leave.chunks(64) {
            let report = self.pattern.remove(ids)?;
            let columns = mended("left", ids.len(), report);
            self.active.retain(|id| !ids.contains(id));
            self.refactor(lines, &columns);
        }
        for ids in enter.chunks(64) {
            let batch: Vec<(u32, &[u32])> = ids.iter().map(|id| (*id, &lines[*id as usize - 1].runs[..])).collect();
            let report = self.pattern.add(&batch)?;
            let columns = mended("entered", ids.len(), report);
            self.active.extend(ids);
            self.refactor(lines, &columns);
        }
        Ok(())
    }

    /// Values of these columns, rising, from the lines and the columns to their left.
    fn refactor(&mut self, lines: &[Line], columns: &[u32]) {
        for &j in columns {
            let mut sums = vec![0.0; RUNS as usize + 1];
            sums[j as usize] = 1.0;
            for line in self.active.iter().map(|id| &lines[*id as usize - 1]).filter(|line| line.runs.contains(&j)) {
                line.runs.iter().for_each(|i| sums[*i as usize] += 1.0);
            }
            for left in &self.values[..j as usize - 1] {
                if let Some(at) = left.iter().position(|e| e.0 == j) {
                    left[at..].iter().for_each(|e| sums[e.0 as usize] -= left[at].1 * e.1);
                }
            }
            let root = sums[j as usize].sqrt();
            let rows = self.pattern.columns().nth(j as usize - 1).expect("a touched column is one of them").entries();
            self.values[j as usize - 1] = rows.map(|e| (e.row, if e.row == j { root } else { sums[e.row as usize] / root })).collect();
        }
    }

    /// The prices for the active lines: down the columns with L, up again with its transpose.
    fn solve(&self, lines: &[Line]) -> Vec<f64> {
        let mut y: Vec<f64> = (1..=RUNS).map(wish).collect();
        for line in self.active.iter().map(|id| &lines[*id as usize - 1]) {
            line.runs.iter().for_each(|i| y[*i as usize - 1] += line.limit);
        }
        for (j, column) in self.values.iter().enumerate() {
            y[j] /= column[0].1;
            let x = y[j];
            column[1..].iter().for_each(|e| y[e.0 as usize - 1] -= e.1 * x);
        }
        for (j, column) in self.values.iter().enumerate().rev() {
            let sum: f64 = column[1..].iter().map(|e| e.1 * y[e.0 as usize - 1]).sum();
            y[j] = (y[j] - sum) / column[0].1;
        }
        y
    }
}

/// Says what a batch did, and which columns need new values: the touched ones, or all where the grade says that so much has changed.
fn mended(what: &str, many: usize, report: nigvalds::Report<'_>) -> Vec<u32> {
    println!("  {many} {what}: {} of {RUNS} columns touched, {} entries, grade {}", report.touched.len(), report.entries, report.grade);
    match report.grade {
        1 | 2 => report.touched.iter().map(|j| u32::from(*j)).collect(),
        _ => (1..=RUNS).collect(),
    }
}

/// How far prices are from the minimum, by the lines alone: the largest number in the gradient.
fn residual(lines: &[Line], prices: &[f64]) -> f64 {
    let mut gradient: Vec<f64> = (1..=RUNS).map(|i| prices[i as usize - 1] - wish(i)).collect();
    for line in lines {
        let over = excess(line, prices).max(0.0);
        line.runs.iter().for_each(|i| gradient[*i as usize - 1] += over);
    }
    gradient.iter().fold(0.0, |most, g| g.abs().max(most))
}

fn main() -> Result<(), Refusal> {
    let lines = lines();
    let mut system = System::open()?;
    for round in 1..=ROUNDS {
        let prices = system.solve(&lines);
        let wanted: BTreeSet<u32> = (1..=LINES).filter(|id| excess(&lines[*id as usize - 1], &prices) > 0.0).collect();
        if wanted == system.active {
            println!("settled in round {round}: {} lines active, run 1 costs {:.4}", wanted.len(), prices[0]);
            println!("at the minimum: {}", residual(&lines, &prices) < 1e-9);
            return Ok(());
        }
        println!("round {round}: {} lines active", system.active.len());
        let leave: Vec<u32> = system.active.difference(&wanted).copied().collect();
        let enter: Vec<u32> = wanted.difference(&system.active).copied().collect();
        system.change(&lines, &leave, &enter)?;
    }
    println!("not settled after {ROUNDS} rounds");
    Ok(())
}
