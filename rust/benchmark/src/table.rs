//! The table: a line for each file and function, which a Markdown page takes as it is.

use crate::measure::Row;
use crate::work::Pair;

/// Headings as wide as their columns; the first two columns are names, the others numbers.
const TIMES: [&str; 5] = [
    "file                ",
    "work   ",
    "library ns/slot",
    "plain ns/slot",
    "ratio",
];
const COUNTS: [&str; 5] = [
    "library instr/call",
    "plain instr/call",
    "library instr/slot",
    "plain instr/slot",
    "ratio",
];
const NAMES: usize = 2;

pub fn head(counted: bool) {
    let counts = if counted { &COUNTS[..] } else { &[] };
    let headings = || TIMES.iter().chain(counts);
    line(headings().map(|heading| heading.to_string()));
    line(headings().enumerate().map(|(column, heading)| {
        let end = if column < NAMES { '-' } else { ':' };
        format!("{}{end}", "-".repeat(heading.len() - 1))
    }));
}

pub fn row(row: &Row) {
    let slots = row.slots as f64;
    let mut cells = vec![row.file.to_string(), row.work.name().to_string()];
    cells.extend(both(row.nanoseconds.over(slots), 1));
    cells.push(format!("{:.2}", row.nanoseconds.ratio()));
    if let Some(instructions) = row.instructions {
        cells.extend(both(instructions, 0));
        cells.extend(both(instructions.over(slots), 1));
        cells.push(format!("{:.3}", instructions.ratio()));
    }
    let widths = TIMES.iter().chain(&COUNTS).map(|heading| heading.len());
    line(
        widths
            .zip(&cells)
            .enumerate()
            .map(|(column, (width, cell))| {
                if column < NAMES {
                    format!("{cell:<width$}")
                } else {
                    format!("{cell:>width$}")
                }
            }),
    );
}

fn both(pair: Pair, decimals: usize) -> [String; 2] {
    [pair.library, pair.plain].map(|number| format!("{number:.decimals$}"))
}

fn line(cells: impl Iterator<Item = String>) {
    let cells: Vec<String> = cells.collect();
    println!("| {} |", cells.join(" | "));
}
