#!/bin/sh
# All tests: `rt ci`, which proves every crate and leaves the programs in crates/*/out, and then what runs on these programs, in two lanes
# side by side. Each part shows what it prints and how many seconds it took, and ends with a line `N passed, M failed`, with `, K skipped`
# if the machine lacks something; so does this, with their sums. The status is 1 if a part failed, or neither passed nor skipped anything.
# docs/TESTING.md says what each part is for, and how it is run alone.
#
#     sh tools/test.sh
set -u
cd "$(dirname "$0")/.."
room=$(mktemp -d)
trap 'rm -rf "$room"' EXIT

# Runs one part, and keeps the counts of the last line that it ends with: passed, failed, and whether that is wrong.
part() {
    echo "== $*"
    mine=$(mktemp -d "$room/part.XXXXXX")
    began=$(date +%s)
    { "$@" 2>&1 && echo 0 >"$mine/status" || echo 1 >"$mine/status"; } | tee "$mine/said"
    echo "== $* took $(($(date +%s) - began)) seconds"
    last=$(grep -E '^[0-9]+ passed, [0-9]+ failed' "$mine/said" | tail -n 1)
    status=$(cat "$mine/status")
    set -- $last
    if [ $# -lt 4 ]; then
        echo "test: that part gave no counts" >&2
        set -- 0 passed, 0 failed
    fi
    wrong=0 failed=$3 skipped=${5:-0}
    # a part that only skipped isn't wrong: it has said what it lacks
    if [ "$status" -ne 0 ] || [ "$failed" -ne 0 ] || [ $(($1 + skipped)) -eq 0 ]; then
        wrong=1
        [ "$failed" -ne 0 ] || failed=1
    fi
    echo "$1 $failed $wrong $skipped" >>"$room/counts"
}

part sh tools/docs.sh --names
part python3 tools/refusals.py
part python3 tools/definitions.py
part python3 tools/planted_tests.py
part python3 tools/planted.py --current
part python3 tools/gate_costs.py rt ci

{
    part python3 clients/python/tests
    part python3 clients/python/tests/browser
    part sh tools/docs.sh --replies
    part python3 tools/release.py check
} >"$room/lane" 2>&1 &
part python3 tools/rows.py
if command -v "${CC:-cc}" >"$room/compiler"; then
    part python3 tools/stopped_sessions.py
else
    echo "== python3 tools/stopped_sessions.py: skipped, for there is no C compiler"
fi
part python3 tools/faults.py disks --disks 12
part python3 tools/earlier_journals.py
part python3 tools/running_reads.py
part python3 tools/picture_files.py
part python3 tools/value_rows.py
part python3 tools/graph_rows.py
part python3 tools/drawn.py --sessions 400
part python3 tools/follower_ends.py
part python3 tools/plain_rows.py --sessions 300
wait
cat "$room/lane"
awk '{ passed += $1; failed += $2; wrong += $3; skipped += $4 }
    END { print passed " passed, " failed " failed" (skipped ? ", " skipped " skipped" : ""); exit wrong != 0 }' "$room/counts"
