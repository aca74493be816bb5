#!/usr/bin/env bash
# Measures the verified library and its program beside the plain calculation of rust/plain; docs/BENCHMARK.md says what is measured and how to read it.
set -eu
cd "$(dirname "$0")/.."
bash tests/build.sh tezhebul
bash tests/build.sh inventory
cargo build --release --offline --manifest-path rust/Cargo.toml -p plain -p benchmark
cargo run --quiet --release --offline --manifest-path rust/Cargo.toml -p benchmark
