//! Files loaded in a row, each by a process of its own.

use std::env;
use std::fs::File;
use std::path::{Path, PathBuf};
use std::process::{Command, Stdio};
use std::time::Instant;

use crate::work::Pair;

const ROUNDS: u32 = 25;

/// The program `inventory`, and the plain calculation as a program.
struct Programs {
    library: PathBuf,
    plain: PathBuf,
}

/// Milliseconds for all the files: the least of several rounds, the two programs in turn. An error
/// where they do not both print the same listing of each file.
pub fn milliseconds(files: &[PathBuf]) -> Result<Pair, String> {
    let programs = programs()?;
    for file in files {
        same(&programs, file)?;
    }
    let mut least = Pair {
        library: f64::INFINITY,
        plain: f64::INFINITY,
    };
    for _ in 0..ROUNDS {
        least.library = least.library.min(load(&programs.library, files)?);
        least.plain = least.plain.min(load(&programs.plain, files)?);
    }
    Ok(least)
}

/// `tests/build.sh inventory` writes the one, and cargo the other, beside this program.
fn programs() -> Result<Programs, String> {
    let this = env::current_exe().map_err(|error| format!("benchmark: {error}"))?;
    Ok(Programs {
        library: Path::new(env!("CARGO_MANIFEST_DIR")).join("../../target/bin/inventory"),
        plain: this.with_file_name("plain_inventory"),
    })
}

fn same(programs: &Programs, file: &Path) -> Result<(), String> {
    let library = printed(&programs.library, file)?;
    let plain = printed(&programs.plain, file)?;
    if library == plain && library.starts_with(b"code ") {
        return Ok(());
    }
    Err(format!(
        "{}: not the same listing\nlibrary:\n{}\nplain:\n{}",
        file.display(),
        String::from_utf8_lossy(&library),
        String::from_utf8_lossy(&plain)
    ))
}

fn load(program: &Path, files: &[PathBuf]) -> Result<f64, String> {
    let start = Instant::now();
    for file in files {
        printed(program, file)?;
    }
    Ok(start.elapsed().as_secs_f64() * 1_000.0)
}

fn printed(program: &Path, file: &Path) -> Result<Vec<u8>, String> {
    let tell = |error| format!("{}: {error}", program.display());
    let input = File::open(file).map_err(tell)?;
    let output = Command::new(program)
        .stdin(Stdio::from(input))
        .output()
        .map_err(tell)?;
    if !output.status.success() {
        return Err(format!("{}: {}", program.display(), output.status));
    }
    Ok(output.stdout)
}
