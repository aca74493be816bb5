//! Compares the verified library with the plain calculation, on files by seed, and with each file
//! on a source of each kind by the rules alone.
//!
//!     compare SEED COUNT [FILE_OF_CASES]
//!
//! The cases are records as in crates/file_cases/stdin and come before the files by seed. The
//! first difference is told with its source, or its file goes to target/difference.slots, and the
//! status is 1.

#![forbid(unsafe_code)]

mod cases;
mod difference;
mod files;
mod rules;
mod sources;
mod tally;
mod values;

use std::path::Path;
use std::process::ExitCode;
use std::time::Instant;
use std::{env, fs};

use difference::Difference;
use files::Trial;
use tally::Tally;

fn main() -> ExitCode {
    let arguments: Vec<String> = env::args().skip(1).collect();
    let Some((seed, count)) = numbers(&arguments) else {
        eprintln!("usage: compare SEED COUNT [FILE_OF_CASES]");
        return ExitCode::from(2);
    };
    let start = Instant::now();
    let mut tally = Tally::default();
    let compared = match arguments.get(2) {
        Some(path) => compare_cases(path, &mut tally),
        None => Ok(()),
    };
    match compared.and_then(|()| compare_inputs(seed, count, &mut tally)) {
        Ok(()) => {
            print!("{tally}");
            println!("seconds {:.1}", start.elapsed().as_secs_f64());
            ExitCode::SUCCESS
        }
        Err(told) => {
            println!("{told}");
            ExitCode::FAILURE
        }
    }
}

fn numbers(arguments: &[String]) -> Option<(u64, u64)> {
    if arguments.len() > 3 {
        return None;
    }
    let seed = arguments.first()?.parse().ok()?;
    let count = arguments.get(1)?.parse().ok()?;
    Some((seed, count))
}

fn compare_cases(path: &str, tally: &mut Tally) -> Result<(), String> {
    let input = fs::read(path).map_err(|error| format!("{path}: {error}"))?;
    for (index, case) in cases::cases(&input).enumerate() {
        let trial = case.trial();
        files::compare(&trial, tally)
            .map_err(|difference| tell(&format!("case {index}"), &trial, &difference))?;
    }
    Ok(())
}

fn compare_inputs(seed: u64, count: u64, tally: &mut Tally) -> Result<(), String> {
    for index in 0..count {
        let input = inputs::input(seed, index);
        let trial = Trial::of_input(&input, seed, index);
        files::compare(&trial, tally).map_err(|difference| {
            tell(&format!("seed {seed} index {index}"), &trial, &difference)
        })?;
        rules::compare(seed, index, &mut tally.rules)
            .map_err(|difference| format!("seed {seed} index {index}: {difference}"))?;
    }
    Ok(())
}

/// What differs, and where the file is kept.
fn tell(name: &str, trial: &Trial, difference: &Difference) -> String {
    let target = Path::new(env!("CARGO_MANIFEST_DIR")).join("../../target");
    let kept = fs::create_dir_all(&target)
        .and_then(|()| fs::write(target.join("difference.slots"), trial.file));
    let file = match kept {
        Ok(()) => "the file is target/difference.slots".to_string(),
        Err(error) => format!("target/difference.slots: {error}"),
    };
    format!("{name}: {difference}\n{file}")
}
