#!/bin/sh
# Compiles and runs c_test.c against libabi.a, from the folder that NUKASOBE_LIB names (default: target/host).
set -eu
here=$(cd "$(dirname "$0")" && pwd -P)
folder=${NUKASOBE_LIB:-$here/../target/host}
[ -f "$folder/libabi.a" ] || { echo "c_test: no libabi.a in $folder: run compare/build_library.sh" >&2; exit 2; }
work=$(mktemp -d)
trap 'rm -rf "$work"' EXIT
${CC:-cc} -std=c99 -Wall -Wextra -Werror -O2 "$here/c_test.c" "$folder/libabi.a" -o "$work/c_test"
"$work/c_test"
