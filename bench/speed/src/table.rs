//! The tables: nanoseconds, growth, the ratio of two cores, and the worst of them.

use crate::cases::{ROWS, SINGLES};
use crate::sheets::SIZES;

/// Nanoseconds by row, size and core; and by row of one size and core.
pub struct Times {
    pub cores: Vec<&'static str>,
    pub rows: Vec<Vec<Vec<f64>>>,
    pub singles: Vec<Vec<f64>>,
}

impl Times {
    pub fn time(&self, row: usize, size: usize, core: usize) -> f64 {
        self.rows[row][size][core]
    }

    /// Each ratio of the second core to the first, with the names of its row and size.
    fn ratios(&self) -> Vec<(f64, &'static str, String)> {
        let mut found = Vec::new();
        for (times, (_, label)) in self.rows.iter().zip(ROWS) {
            for (pair, size) in times.iter().zip(SIZES) {
                found.push((pair[1] / pair[0], label, size.name()));
            }
        }
        for (pair, (label, size)) in self.singles.iter().zip(SINGLES) {
            found.push((pair[1] / pair[0], label, size.to_string()));
        }
        found
    }
}

pub fn print(times: &Times) {
    for (core, name) in times.cores.iter().enumerate() {
        heading(&format!("{name}: ns per call"), "   16 to 256 cells   600 to 2048 steps");
        for (row, (_, label)) in ROWS.iter().enumerate() {
            let cells = (0..SIZES.len()).map(|size| format!("{:>12.0}", times.time(row, size, core)));
            println!("{label:<26}{}{}", cells.collect::<String>(), growth(times, row, core));
        }
        for (single, (label, size)) in times.singles.iter().zip(SINGLES) {
            println!("{label:<26}{:>12.0}   ({size})", single[core]);
        }
        println!();
    }
    if times.cores.len() == 2 {
        heading(&format!("{} / {}", times.cores[1], times.cores[0]), "");
        for (row, (_, label)) in ROWS.iter().enumerate() {
            let ratio = |size| times.time(row, size, 1) / times.time(row, size, 0);
            let cells = (0..SIZES.len()).map(|size| format!("{:>12.2}", ratio(size)));
            println!("{label:<26}{}", cells.collect::<String>());
        }
        for (single, (label, size)) in times.singles.iter().zip(SINGLES) {
            println!("{label:<26}{:>12.2}   ({size})", single[1] / single[0]);
        }
        println!();
    }
}

fn heading(title: &str, last: &str) {
    let sizes: String = SIZES.iter().map(|size| format!("{:>12}", size.name())).collect();
    println!("{title:<26}{sizes}{last}");
}

/// How often the time is multiplied from 16 to 256 cells and from 600 to 2,048 steps, and the power of the size that
/// this is.
fn growth(times: &Times, row: usize, core: usize) -> String {
    let grown = |from: usize, to: usize, factor_of_size: f64| {
        let factor = times.time(row, to, core) / times.time(row, from, core);
        format!("   x{factor:<5.1} n^{:<8.2}", factor.ln() / factor_of_size.ln())
    };
    grown(0, 2, 256.0 / 16.0) + &grown(3, 4, 2_048.0 / 600.0)
}

/// The last line: the worst ratio and where it is.
pub fn worst(times: &Times) -> String {
    if times.cores.len() < 2 {
        return "no worst ratio: plain alone was timed".to_string();
    }
    let all = times.ratios();
    let (ratio, label, size) = all.iter().max_by(|a, b| a.0.total_cmp(&b.0)).expect("a row");
    format!("worst ratio {ratio:.2} ({label}, {size})")
}
