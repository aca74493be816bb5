#!/usr/bin/env bash
# All tests: the gate, the library by its C header, the tests of the Rust workspace, the library against the plain calculation of rust/plain, and the program under valgrind:
#     tests/all.sh [--after-gate] [SEED]
# --after-gate leaves the gate out, where it has just passed. SEED, else 1, is that of the files and sources that are compared.
set -eu
cd "$(dirname "$0")/.."

gate=yes
if [ "${1-}" = --after-gate ]; then
    gate=no
    shift
fi
seed=${1-1}
if [ "$#" -gt 1 ] || [[ ! $seed =~ ^[0-9]+$ ]]; then
    echo "usage: tests/all.sh [--after-gate] [SEED]" >&2
    exit 2
fi

for tool in rt python3 cc cargo; do
    if ! command -v "$tool" >/dev/null; then
        echo "$tool is not installed" >&2
        exit 2
    fi
done
if [ "$gate" = yes ]; then
    bash .ci/run
fi
bash tests/build.sh tezhebul
bash tests/build.sh inventory
cc -std=c11 -Wall -Wextra -Werror -Iinclude tests/interface.c target/staticlib/libtezhebul.a -o target/interface
target/interface examples/tikhvin.slots examples/tikhvin.listing
cargo test --release --offline --workspace --manifest-path rust/Cargo.toml
cargo run --release --offline --manifest-path rust/Cargo.toml -p compare -- "$seed" 200000
if command -v valgrind >/dev/null; then
    python3 tests/hard_input.py target/bin/inventory --valgrind
else
    echo "valgrind is not installed: the program is not run under it"
fi
echo "all tests passed"
