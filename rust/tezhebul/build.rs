//! Links the archive that `bash tests/build.sh tezhebul` writes.

use std::path::Path;

fn main() {
    let here = std::env::var("CARGO_MANIFEST_DIR").expect("cargo names the crate's directory");
    let archives = Path::new(&here).join("../../target/staticlib");
    let archive = archives.join("libtezhebul.a");
    println!("cargo:rerun-if-changed={}", archive.display());
    if !archive.is_file() {
        eprintln!(
            "target/staticlib/libtezhebul.a is missing: run bash tests/build.sh tezhebul first, \
             from the root of the repository"
        );
        std::process::exit(1);
    }
    println!("cargo:rustc-link-search=native={}", archives.display());
    println!("cargo:rustc-link-lib=static=tezhebul");
}
