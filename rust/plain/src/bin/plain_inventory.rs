//! The plain calculation as a program: standard input's listing, or its refusal line. It reads and
//! writes as the program `inventory` does.

#![forbid(unsafe_code)]

use std::io::{self, Read, Write};

/// One byte more than the longest file has.
const ROOM: usize = 65_537;

fn main() -> io::Result<()> {
    let mut file = Vec::with_capacity(ROOM);
    let input = io::stdin().lock();
    if let Err(error) = input.take(ROOM as u64).read_to_end(&mut file) {
        eprintln!("plain_inventory: standard input: {error}");
        file.clear();
    }
    io::stdout().write_all(&plain::print(&file))
}
