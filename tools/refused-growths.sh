#!/bin/sh
# Runs what is there with each request for memory refused in turn: the first, then the second, until there is none left to refuse.
#
#     sh tools/refused-growths.sh [--program PATH]   all four parts; the program is rollback_program's where it is left out
#     sh tools/refused-growths.sh CRATE TEST         one test, as: book_tests acts::refused_growths_change_nothing
#
# The parts: the program on the sessions of rows/*.txt in memory, and on some of them on files (tools/refused_sessions.py, whose head
# says what may be told where a refusal falls); the tests in crates that are made for it; and the rows of values (tools/value_rows.py
# --refuse). Each part shows what it does and ends with a line `N passed, M failed`, and so does this, with their sums. The status is 1
# where one failed. A test has to pass, or to end with an error that says it is out of memory: so it ends where its own request is refused.
# The programs are those that `rt ci` at the top, or `rt test` and `rt run` in the crate, leaves in crates/CRATE/out.
# It wants Python 3, a C compiler (cc, or what CC names) and the GNU C library.
set -u
cd "$(dirname "$0")/.."
room=$(mktemp -d)
trap 'rm -rf "$room"' EXIT
passed=0 failed=0

# Runs one test until no request is left to refuse, and says how its runs ended.
refuse_each() {
    program=crates/$1/out/$1_tests
    if [ ! -x "$program" ]; then
        echo "$1 $2: no program: run rt test in crates/$1 first"
        return 1
    fi
    number=0 answered=0 ended=0
    while :; do
        number=$((number + 1))
        status=0
        REFUSE=$number LD_PRELOAD="$room/refusing.so" "$program" "$2" </dev/null >"$room/said" 2>&1 3>"$room/count" || status=$?
        requests=$(cat "$room/count")
        if [ "$status" -eq 0 ] && [ "${requests:-0}" -lt "$number" ]; then
            break
        elif [ "$status" -eq 0 ]; then
            answered=$((answered + 1))
        elif grep -Eq '^error: .*([Oo]ut of memory|Memory|AllocError|AllocFailed)' "$room/said"; then
            ended=$((ended + 1))
        else
            echo "$1 $2: FAILED with request $number refused, status $status:"
            cat "$room/said"
            return 1
        fi
    done
    echo "$1 $2: $((number - 1)) requests refused in turn: $answered times passed, $ended times the test's own"
    [ "$number" -gt 1 ]
}

refuse_in_tests() {
    good=0 bad=0
    while read -r crate test; do
        if refuse_each "$crate" "$test"; then good=$((good + 1)); else bad=$((bad + 1)); fi
    done <<'TESTS'
book_tests acts::refused_growths_change_nothing
book_tests acts::undoings_want_no_memory
book_tests plans::histories_by_hand
shared_tests passes::calls_of_two_passes
shared_tests turns::stale_turns
shared_tests workers::rounds_want_memory
shared_tests shares::a_refused_worker_gives_its_claim_back
session_tests journals::a_refused_growth_hands_the_journal_back
TESTS
    echo "$good passed, $bad failed"
}

# Runs one part, and adds the counts of the last line that it ends with.
part() {
    echo "== $*"
    "$@" 2>&1 | tee "$room/part"
    last=$(tail -n 1 "$room/part" | grep -E '^[0-9]+ passed, [0-9]+ failed$' || echo "0 passed, 1 failed")
    set -- $last
    passed=$((passed + $1)) failed=$((failed + $3))
}

${CC:-cc} -O2 -shared -fPIC -o "$room/refusing.so" tools/refusing_malloc.c || exit 1
case ${1:-} in
    "" | -*) ;;
    *)
        refuse_each "$@"
        exit
        ;;
esac
part python3 tools/refused_sessions.py "$@"
part python3 tools/refused_sessions.py "$@" --files --only first-path --only rollback-of-a-put --only parallel-retried \
    --only a-round-of-workers --only settled-between-fork-and-join --only hold-with-workers
part refuse_in_tests
part python3 tools/value_rows.py --refuse
echo "$passed passed, $failed failed"
[ "$failed" -eq 0 ]
