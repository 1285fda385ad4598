#!/bin/sh
# Nanoseconds of the tree index alone and of a free into a tree, the sources as they stand beside those of an earlier commit, in one run.
#   compare/index_speed.sh COMMIT
# Both are compiled alike, without proof, by build_library.sh; nothing in the repository is touched but compare's own build folder.
set -eu

here=$(cd "$(dirname "$0")" && pwd -P)
[ $# -eq 1 ] || { echo "usage: compare/index_speed.sh COMMIT" >&2; exit 2; }
work=$(mktemp -d)
trap 'rm -rf "$work"' EXIT

# One version as a shared library; its crates stand in the folder already.
shared() { # FOLDER
    mkdir -p "$1/compare"
    cp -R "$here/build_library.sh" "$here/early" "$1/compare/"
    "$1/compare/build_library.sh" --unproved >"$1/log" 2>&1 || { cat "$1/log" >&2; exit 1; }
    cc -shared -o "$1.so" -Wl,--whole-archive "$1/target/host/libabi.a" -Wl,--no-whole-archive
}

mkdir "$work/before" "$work/after"
git -C "$here/.." archive "$1" crates | tar -x -C "$work/before"
cp -R "$here/../crates" "$work/after/"
shared "$work/before"
shared "$work/after"
cd "$here"
cargo run --quiet --release --bin index_speed -- "$work/before.so" "$work/after.so"
