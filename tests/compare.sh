#!/usr/bin/env bash
# Compares the verified library with the plain calculation of rust/plain on COUNT files of SEED, and by the rules alone on as many sources of each kind:
#     tests/compare.sh SEED COUNT [FILE_OF_CASES]
# The cases are records as in crates/file_cases/stdin, by a path from the root of the repository.
set -eu
cd "$(dirname "$0")/.."
bash tests/build.sh tezhebul
cargo run --release --offline --manifest-path rust/Cargo.toml -p compare -- "$@"
