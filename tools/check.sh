#!/bin/sh
# All that speaks of one crate, cheapest first: its format, its proof, its tests, its wrong edits; the rows, where the program stands; the
# documents. It stops at the first that fails.
#
#     sh tools/check.sh CRATE [--planted]        --planted tries the crate's further wrong edits too, which takes minutes
set -eu
top=$(cd "$(dirname "$0")/.." && pwd)
crate=${1:?usage: sh tools/check.sh CRATE [--planted]}
folder=$top/crates/$crate
program=$top/crates/rollback_program/out/rollback_program
[ -d "$folder" ] || { echo "check: no crate $crate" >&2; exit 2; }
step() {
    echo "== $*"
    "$@"
}
cd "$folder"
before=$(git -C "$top" status --porcelain -- "$folder")
step rt fmt
if [ "$(git -C "$top" status --porcelain -- "$folder")" != "$before" ]; then
    echo "check: files of $crate were formatted"
fi
step rt check
step rt test
cd "$top"
[ ! -d "$folder/must-fail" ] || step rt must-fail "$crate"
[ "${2:-}" != --planted ] || [ ! -d "$folder/planted" ] || step python3 tools/planted.py "$crate"
step sh tools/docs.sh --names
if [ -x "$program" ]; then
    echo "check: rows over the program as it was built last"
    step python3 tools/rows.py
fi
