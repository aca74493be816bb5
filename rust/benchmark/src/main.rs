//! Measures the verified library beside the plain calculation, on the same files in the same run.
//!
//!     benchmark
//!     benchmark repeat SIDE WORK FILE TIMES
//!
//! The second form only does the work, for callgrind to count. The status is 1 where the two sides
//! differ on a file, or where the library takes more instructions than is accepted.

#![forbid(unsafe_code)]

mod agree;
mod count;
mod files;
mod goals;
mod measure;
mod processes;
mod table;
mod time;
mod work;

use std::process::ExitCode;
use std::{env, fs};

use files::Measured;
use measure::Row;
use work::{Side, Work};

fn main() -> ExitCode {
    let arguments: Vec<String> = env::args().skip(1).collect();
    let words: Vec<&str> = arguments.iter().map(String::as_str).collect();
    let done = match words[..] {
        [] => measure(),
        ["repeat", side, work, path, times] => repeat(side, work, path, times),
        _ => Err("usage: benchmark [repeat SIDE WORK FILE TIMES]".to_string()),
    };
    match done {
        Ok(true) => ExitCode::SUCCESS,
        Ok(false) => ExitCode::FAILURE,
        Err(told) => {
            eprintln!("{told}");
            ExitCode::FAILURE
        }
    }
}

/// Whether the library stays within what is accepted.
fn measure() -> Result<bool, String> {
    let told = |error| format!("target/benchmark: {error}");
    let folder = files::folder().map_err(told)?;
    let files = files::measured(&folder).map_err(told)?;
    for measured in &files {
        tell(measured)?;
    }
    let rows = rows(&files)?;
    println!();
    goals::tell_growth(&rows);
    println!();
    let row = files::row(&folder).map_err(told)?;
    let milliseconds = processes::milliseconds(&row)?;
    println!(
        "{} files of 1 to 1,024 slots in a row, a process for each: library {:.1} ms, plain {:.1} ms, ratio {:.2}; \
         the same bytes printed",
        row.len(),
        milliseconds.library,
        milliseconds.plain,
        milliseconds.ratio()
    );
    println!();
    goals::tell_row(milliseconds);
    Ok(goals::tell_goals(&rows))
}

/// Says what is in a file that both sides agree on.
fn tell(measured: &Measured) -> Result<(), String> {
    agree::agree(&measured.file).map_err(|told| format!("{}: {told}", measured.name))?;
    let size = measured.size;
    println!(
        "{}: slots {}, groups {}, sets of coefficients {}, store records {}, locomotives {}",
        measured.name,
        size.slots(),
        size.groups,
        size.sets,
        size.stores,
        size.locomotives
    );
    Ok(())
}

fn rows(files: &[Measured]) -> Result<Vec<Row>, String> {
    let counted = count::available();
    if !counted {
        println!("valgrind is missing: no instructions are counted");
    }
    println!();
    table::head(counted);
    let mut rows = Vec::new();
    for measured in files {
        for work in Work::ALL {
            let row = measure::row(measured, work, counted)?;
            table::row(&row);
            rows.push(row);
        }
    }
    Ok(rows)
}

fn repeat(side: &str, work: &str, path: &str, times: &str) -> Result<bool, String> {
    let side = Side::named(side).ok_or("SIDE is library or plain")?;
    let work = Work::named(work).ok_or("WORK is check, answer or listing")?;
    let times = times.parse().map_err(|_| "TIMES is a number")?;
    let file = fs::read(path).map_err(|error| format!("{path}: {error}"))?;
    work::repeat(side, work, &file, times);
    Ok(true)
}
