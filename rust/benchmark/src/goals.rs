//! Growth with the number of slots, and the goals.

use crate::files::{HELD, LARGE, SMALL};
use crate::measure::Row;
use crate::work::{Pair, Work};

/// Times the plain calculation's instructions.
const GOAL: f64 = 1.0;
const ACCEPTED: f64 = 1.5;

/// Times the plain calculation's time, of files in a row.
const ROW_GOAL: f64 = 0.85;

fn find<'a>(rows: &'a [Row], file: &str, work: Work) -> Option<&'a Row> {
    rows.iter().find(|row| row.file == file && row.work == work)
}

/// What a slot costs: instructions, or nanoseconds where none were counted.
fn per_slot(row: &Row) -> Pair {
    row.instructions
        .unwrap_or(row.nanoseconds)
        .over(row.slots as f64)
}

/// A slot's cost in the large file over that in the small one: 1 is linear, and a fixed cost that
/// more slots share makes it less.
pub fn tell_growth(rows: &[Row]) {
    for work in Work::ALL {
        let (Some(small), Some(large)) = (find(rows, SMALL, work), find(rows, LARGE, work)) else {
            continue;
        };
        let unit = match large.instructions {
            Some(_) => "instructions",
            None => "nanoseconds",
        };
        let (small, large) = (per_slot(small), per_slot(large));
        println!(
            "growth of {}, {unit} per slot, {LARGE} over {SMALL}: library {:.3}, plain {:.3}",
            work.name(),
            large.library / small.library,
            large.plain / small.plain
        );
    }
}

/// Whether none is over what is accepted.
pub fn tell_goals(rows: &[Row]) -> bool {
    let mut kept = true;
    for file in HELD {
        for work in Work::ALL {
            kept &= tell_goal(file, work, find(rows, file, work));
        }
    }
    kept
}

fn tell_goal(file: &str, work: Work, row: Option<&Row>) -> bool {
    let name = work.name();
    let Some(instructions) = row.and_then(|row| row.instructions) else {
        println!("{name}, {file}: not counted, so not held to the goal");
        return true;
    };
    let ratio = instructions.ratio();
    let within = if ratio <= GOAL {
        "within the goal of 1.0"
    } else if ratio <= ACCEPTED {
        "over the goal of 1.0, within the 1.5 that is accepted"
    } else {
        "OVER the 1.5 that is accepted"
    };
    println!("{name}, {file}: {ratio:.3} times the plain instructions, {within}");
    ratio <= ACCEPTED
}

/// Times go by what else the machine does, so a time over the goal is told and no more.
pub fn tell_row(milliseconds: Pair) {
    let ratio = milliseconds.ratio();
    let within = if ratio <= ROW_GOAL { "within" } else { "OVER" };
    println!("files in a row: {ratio:.2} times the plain time, {within} the goal of {ROW_GOAL}");
}
