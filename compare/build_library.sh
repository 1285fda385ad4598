#!/bin/sh
# Makes target/host/libabi.a, the library for the machine at hand: proves the crate abi_c and all below it first.
#
#   compare/build_library.sh
#
# The kit compiles for x86-64 alone, and builds nothing that is not proved: `--unproved`, which an older kit allowed, says so and stops.
set -eu

root=$(cd "$(dirname "$0")/.." && pwd -P)
out=$root/target/host
case ${1-} in
'') ;;
--unproved) echo "build_library: this kit builds only what is proved; --unproved was the older kit's" >&2; exit 2 ;;
*) echo "usage: compare/build_library.sh" >&2; exit 2 ;;
esac
[ "$(uname -m)" = x86_64 ] || { echo "build_library: the kit has no compiler for $(uname -m)" >&2; exit 2; }

mkdir -p "$out"
(cd "$root/crates/abi_c" && rt lib)
# the crate is abi_c; who links it keeps the archive's name
cp "$root/crates/abi_c/out/libabi_c.a" "$out/libabi.a"
echo "build_library: target/host/libabi.a"
