#!/usr/bin/env bash
# Proves and builds what the tests run and what C callers link, and puts it below target/:
#     tests/build.sh inventory     target/bin/inventory, the program
#     tests/build.sh tezhebul      target/staticlib/libtezhebul.a, the library with its C interface
set -eu
cd "$(dirname "$0")/.."
case "${1-}" in
inventory)
    (cd crates/inventory && rt run <stdin >/dev/null)
    mkdir -p target/bin
    cp crates/inventory/out/inventory target/bin/inventory
    ;;
tezhebul)
    (cd crates/tezhebul_c && rt lib)
    mkdir -p target/staticlib
    cp crates/tezhebul_c/out/libtezhebul_c.a target/staticlib/libtezhebul.a
    ;;
*)
    echo "usage: tests/build.sh inventory | tezhebul" >&2
    exit 2
    ;;
esac
