//! What is measured of a function on a file.

use crate::count;
use crate::files::Measured;
use crate::time;
use crate::work::{Pair, Work};

/// Figures of a call.
pub struct Row {
    pub file: &'static str,
    pub slots: usize,
    pub work: Work,
    pub nanoseconds: Pair,
    /// None where valgrind is missing.
    pub instructions: Option<Pair>,
}

pub fn row(measured: &Measured, work: Work, counted: bool) -> Result<Row, String> {
    let slots = measured.size.slots();
    let times = calls(slots);
    let instructions = if counted {
        Some(count::instructions(work, &measured.path, times)?)
    } else {
        None
    };
    Ok(Row {
        file: measured.name,
        slots,
        work,
        nanoseconds: time::nanoseconds(work, &measured.file, times),
        instructions,
    })
}

/// How many calls take about the same time whatever the file's length.
fn calls(slots: usize) -> u32 {
    4_096 / slots as u32
}
