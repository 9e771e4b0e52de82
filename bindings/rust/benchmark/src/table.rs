//! The table that is printed, in Markdown.
use crate::timing::{Work, best_times};

/// A line for each side that ours was measured against, of the functions whose name has the wanted part.
pub struct Table<'w> {
    wanted: &'w str,
    lines: Vec<[String; 7]>,
}

/// What a rate counts.
#[derive(Clone, Copy)]
pub enum Unit {
    /// 1,000,000 bytes a second
    Megabytes,
    /// 1,000,000 calls a second; of a walk, packets
    Calls,
}

/// A side that ours is measured against, and its name.
pub type Other<'a> = (&'static str, Work<'a>);

impl<'w> Table<'w> {
    pub fn new(wanted: &'w str) -> Self {
        let names = [
            "function", "input", "against", "unit", "ours", "theirs", "ratio",
        ];
        Table {
            wanted,
            lines: vec![names.map(String::from)],
        }
    }

    /// Measures ours against the others. `amount` is what one round does, in bytes or calls.
    pub fn measure(
        &mut self,
        function: &str,
        input: &str,
        (amount, unit): (usize, Unit),
        ours: Work,
        others: Vec<Other>,
    ) {
        if !function.contains(self.wanted) {
            return;
        }
        eprintln!("measuring {function}, {input}");
        let (names, mut sides): (Vec<_>, Vec<_>) = others.into_iter().unzip();
        sides.insert(0, ours);
        let rates: Vec<f64> = best_times(&mut sides)
            .iter()
            .map(|seconds| amount as f64 / seconds / 1e6)
            .collect();
        let unit = match unit {
            Unit::Megabytes => "MB/s",
            Unit::Calls => "M calls/s",
        };
        for (name, theirs) in names.iter().zip(&rates[1..]) {
            let rate = |rate: f64| {
                if rate < 100.0 {
                    format!("{rate:.1}")
                } else {
                    format!("{rate:.0}")
                }
            };
            let ratio = format!("{:.2}", rates[0] / theirs);
            self.lines.push([
                function.into(),
                input.into(),
                (*name).into(),
                unit.into(),
                rate(rates[0]),
                rate(*theirs),
                ratio,
            ]);
        }
    }

    /// Prints the table, unless nothing was measured.
    pub fn print(&self, title: &str) {
        if self.lines.len() == 1 {
            return;
        }
        println!("\n{title}:\n");
        let widths: Vec<usize> = (0..7)
            .map(|column| {
                self.lines
                    .iter()
                    .map(|line| line[column].len())
                    .max()
                    .unwrap_or(0)
            })
            .collect();
        for (i, line) in self.lines.iter().enumerate() {
            let cells: Vec<String> = line
                .iter()
                .zip(&widths)
                .map(|(cell, width)| format!("{cell:width$}"))
                .collect();
            println!("| {} |", cells.join(" | "));
            if i == 0 {
                let rules: Vec<String> = widths.iter().map(|width| "-".repeat(width + 2)).collect();
                println!("|{}|", rules.join("|"));
            }
        }
    }
}
