//! Instructions of a call, by callgrind.

use std::env;
use std::path::Path;
use std::process::Command;

use crate::work::{Pair, Side, Work};

/// Whether valgrind is there.
pub fn available() -> bool {
    Command::new("valgrind")
        .arg("--version")
        .output()
        .is_ok_and(|output| output.status.success())
}

/// So many calls are counted, and twice as many: what the second count has more is theirs alone,
/// without start and end of the process.
pub fn instructions(work: Work, path: &Path, times: u32) -> Result<Pair, String> {
    let of = |side| -> Result<f64, String> {
        let once = collected(side, work, path, times)?;
        let twice = collected(side, work, path, 2 * times)?;
        Ok(twice - once)
    };
    let pair = Pair {
        library: of(Side::Library)?,
        plain: of(Side::Plain)?,
    };
    Ok(pair.over(f64::from(times)))
}

/// Instructions of this program as a process that only repeats the work.
fn collected(side: Side, work: Work, path: &Path, times: u32) -> Result<f64, String> {
    let program = env::current_exe().map_err(|error| format!("benchmark: {error}"))?;
    let output = Command::new("valgrind")
        .args(["--tool=callgrind", "--callgrind-out-file=/dev/null"])
        .arg(program)
        .args(["repeat", side.name(), work.name()])
        .arg(path)
        .arg(times.to_string())
        .output()
        .map_err(|error| format!("valgrind: {error}"))?;
    let said = String::from_utf8_lossy(&output.stderr);
    match read(&said) {
        Some(count) if output.status.success() => Ok(count),
        _ => Err(format!("valgrind: {}\n{said}", output.status)),
    }
}

/// The number of callgrind's line `Collected : N`.
fn read(said: &str) -> Option<f64> {
    let (_, rest) = said.split_once("Collected : ")?;
    rest.split_whitespace().next()?.parse().ok()
}
