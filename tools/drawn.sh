#!/bin/sh
# Drawn sessions of one seed after another, until so many lines were given in all: for long runs, which may be broken off and gone on with.
#
#     sh tools/drawn.sh [LINES [SEED [WORD..]]]
#
# LINES is 10,000,000 where it is left out, SEED the first seed, 1. Each seed is one run of tools/drawn.py, of some 60,000 lines, which
# ends by itself; the WORDs are given to it, as `--program PATH` or `--jobs N`. After each run stands the sum of the lines so far.
# The last line is `N passed, M failed`, of sessions. The first run in which something differs is the last, and the status is 1 then.
set -u
cd "$(dirname "$0")/.."
lines=${1:-10000000} seed=${2:-1}
[ $# -lt 2 ] || shift
[ $# -lt 1 ] || shift
room=$(mktemp -d)
trap 'rm -rf "$room"' EXIT
given=0 passed=0 failed=0

# The number that stands in what a run has said.
said() {
    number=$(sed -n "s/$1/\\1/p" "$room/said" | tail -n 1)
    echo "${number:-0}"
}

while [ "$given" -lt "$lines" ] && [ "$failed" -eq 0 ]; do
    status=0
    python3 tools/drawn.py --sessions 1000 --seed "$seed" "$@" >"$room/said" 2>&1 || status=1
    cat "$room/said"
    given=$((given + $(said '^\([0-9]*\) lines in .*')))
    passed=$((passed + $(said '^\([0-9]*\) passed, .*'))) failed=$(said '^[0-9]* passed, \([0-9]*\) failed')
    [ "$failed" -gt 0 ] || failed=$status
    echo "$given lines up to seed $seed"
    seed=$((seed + 1))
done
echo "$passed passed, $failed failed"
[ "$failed" -eq 0 ]
