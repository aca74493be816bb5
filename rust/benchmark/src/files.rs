//! The files that are measured.

use std::path::{Path, PathBuf};
use std::{fs, io};

use inputs::{plant, Size};

const SEED: u64 = 1;

/// How many files the desk loads in a row.
const ROW: usize = 40;

/// A file, and what is in it.
pub struct Measured {
    pub name: &'static str,
    pub size: Size,
    pub file: Vec<u8>,
    /// Where the file is kept, for processes that are counted.
    pub path: PathBuf,
}

/// The names of the files that growth is taken from.
pub const SMALL: &str = "mix of 64";
pub const LARGE: &str = "mix of 1,024";

const EMPTY: &str = "empty file";
const STORES: &str = "stores of 1,024";
const GROUPS: &str = "groups of 1,024";

/// The names of the files that are held to the goal.
pub const HELD: [&str; 4] = [EMPTY, LARGE, STORES, GROUPS];

/// A plant of so many slots. Of each 63 behind slot 0, 9 are groups, 5 with six coefficient slots of
/// their own and 4 that share those, 21 are store records, as many of each kind, and 3 locomotives.
fn mix(slots: usize) -> Size {
    let rest = slots - 1;
    let sets = rest * 5 / 63;
    let groups = if sets == 0 { 0 } else { rest * 9 / 63 };
    let locomotives = rest * 3 / 63;
    Size {
        groups,
        sets,
        stores: rest - groups - 6 * sets - locomotives,
        locomotives,
    }
}

const NONE: Size = Size {
    groups: 0,
    sets: 0,
    stores: 0,
    locomotives: 0,
};

fn sizes() -> [(&'static str, Size); 6] {
    let stores = Size {
        stores: 1_023,
        ..NONE
    };
    // the most work that slots can be
    let groups = Size {
        groups: 1_017,
        sets: 1,
        ..NONE
    };
    let locomotives = Size {
        locomotives: 1_023,
        ..NONE
    };
    [
        (EMPTY, mix(1)),
        (SMALL, mix(64)),
        (LARGE, mix(1_024)),
        (STORES, stores),
        (GROUPS, groups),
        ("locomotives of 1,024", locomotives),
    ]
}

/// The folder that files are kept in, made where it is missing.
pub fn folder() -> io::Result<PathBuf> {
    let folder = Path::new(env!("CARGO_MANIFEST_DIR")).join("../../target/benchmark");
    fs::create_dir_all(&folder)?;
    folder.canonicalize()
}

/// The files that each function is measured on, kept in the folder.
pub fn measured(folder: &Path) -> io::Result<Vec<Measured>> {
    let mut files = Vec::new();
    for (index, (name, size)) in sizes().into_iter().enumerate() {
        let file = plant(SEED, size);
        let path = folder.join(format!("measured-{index}.slots"));
        fs::write(&path, &file)?;
        files.push(Measured {
            name,
            size,
            file,
            path,
        });
    }
    Ok(files)
}

/// The files that are loaded in a row, of 1 to 1,024 slots with small and large ones mixed.
pub fn row(folder: &Path) -> io::Result<Vec<PathBuf>> {
    let mut paths = Vec::new();
    for index in 0..ROW {
        let step = index * 17 % ROW;
        let file = plant(SEED + 1, mix(1 + 1_023 * step / (ROW - 1)));
        let path = folder.join(format!("row-{index:02}.slots"));
        fs::write(&path, file)?;
        paths.push(path);
    }
    Ok(paths)
}
