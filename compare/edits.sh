#!/bin/sh
# Tries the comparison itself: each must-fail edit of code is compiled, with no proof, and the lockstep must find a difference.
#   compare/edits.sh [CALLS [CRATE..]]      calls for each edit (default 300000), crates whose edits are tried (default: all)
# Edits that no call on one arena can show are told as 'not seen'; README.md says which and why.
set -eu

here=$(cd "$(dirname "$0")" && pwd -P)
calls=${1:-300000}
[ $# -eq 0 ] || shift
work=$(mktemp -d)
trap 'rm -rf "$work"' EXIT
CARGO_TARGET_DIR=$work/cargo
NUKASOBE_LIB=$work/root/target/host
export CARGO_TARGET_DIR NUKASOBE_LIB

# Puts each 'new' in place of its 'old', once, in a copy of the crates.
edited() { # CRATE EDIT
    rm -rf "$work/root/crates"
    cp -R "$here/../crates" "$work/root/crates"
    while IFS= read -r line; do
        case $line in
        'file: '*) file=$work/root/crates/$1/${line#file: } ;;
        'old: '*) old=${line#old: } ;;
        'new:'*)
            new=${line#new:}
            OLD=$old NEW=${new# } awk '
                (i = index($0, ENVIRON["OLD"])) && !done {
                    $0 = substr($0, 1, i - 1) ENVIRON["NEW"] substr($0, i + length(ENVIRON["OLD"])); done = 1 }
                { print }
                END { exit !done }' "$file" >"$work/edited" || return 1
            cp "$work/edited" "$file"
            ;;
        esac
    done <"$2"
}

found=0 unseen=0
one() { # CRATE EDIT
    name=$1/$(basename "$2" .edit)
    edited "$1" "$2" || { echo "$name: the edit does not fit"; return; }
    if ! "$work/root/compare/build_library.sh" --unproved >"$work/log" 2>&1; then
        echo "$name: does not compile"
        return
    fi
    cargo build --release --quiet --bin lockstep
    if timeout 300 "$CARGO_TARGET_DIR/release/lockstep" "$calls" >"$work/log" 2>&1; then
        unseen=$((unseen + 1))
        echo "$name: not seen in $calls calls"
        return
    fi
    found=$((found + 1))
    if grep -q '^DIFFERENCE' "$work/log"; then echo "$name: $(tail -1 "$work/log" | sed 's/^ *//')"; else echo "$name: it stopped"; fi
}

mkdir -p "$work/root/compare"
cp -R "$here/build_library.sh" "$here/early" "$work/root/compare/"
cd "$here"
for edit in ../crates/*/must-fail/*.edit; do
    crate=${edit#../crates/}
    crate=${crate%%/*}
    case " ${*:-$crate} " in *" $crate "*) ;; *) continue ;; esac
    # an edit of specs alone changes no code
    if grep -q '^file: src/' "$edit"; then one "$crate" "$edit"; fi
done
echo "$found edits found, $unseen not seen"
