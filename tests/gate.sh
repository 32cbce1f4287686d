#!/bin/sh
# The gate: everything is proved, the files are in the layout, the must-fail edits are refused, none of them unreadable, and their
# twins accepted, the programs write what they should, the tests beside the proofs, those from C and those of the foreman's command
# pass, and no public routine lacks its promise in docs/. What each part compares with what is in tests/README.md. While a part runs, a line now
# and then says that it lives (tools/watch.sh); afterwards a line for each of its steps is written, or, where it failed, its last two
# hundred lines, and how long it took. The last line is 'N passed, M failed', and the status is 0 only where M is 0.
set -u
cd "$(dirname "$0")/.." || exit 2
passed=0 failed=0
log=$(mktemp)
trap 'rm -f "$log"' EXIT

count() { # STATUS WHAT
    if [ "$1" -eq 0 ]; then
        passed=$((passed + 1))
    else
        failed=$((failed + 1))
        echo "gate: FAILED: $2"
    fi
}

run() { # WHAT COMMAND..: its status is the command's
    what=$1 began=$(date +%s)
    shift
    sh tools/watch.sh "gate: $what" "$log" "$@"
    status=$?
    if [ "$status" -eq 0 ]; then
        grep '^[A-Za-z]*: ' "$log"
    else
        tail -n 200 "$log"
    fi
    echo "gate: $what: $(($(date +%s) - began)) s"
    return "$status"
}

part() { # WHAT COMMAND..: runs it and counts it
    run "$@"
    count $? "$1"
}

# `rt ci` counts by itself: crates, must-fail edits and programs. An edit that it cannot read does not fail it, but then its line
# `rt: ok` has the number of bad ones.
run "the proofs, the must-fail edits and the programs (rt ci)" rt ci
status=$?
verdict=$(tail -n 1 "$log")
case $verdict in
*[0-9]" passed, "[0-9]*" failed")
    passed=${verdict%% passed*}
    failed=${verdict##*passed, }
    failed=${failed%% failed*}
    ;;
*) status=2 ;;
esac
[ "$status" -eq 0 ] || [ "$failed" -gt 0 ] || count 1 "rt ci ended with status $status"
bad=$(sed -n 's/^rt: ok.*, \([0-9][0-9]*\) bad.*/\1/p' "$log")
[ "${bad:-0}" -eq 0 ] || count 1 "$bad must-fail edits could not be read"

part "the published vectors, held to what is made of them" python3 tools/vectors.py --check
part "the pictures, held to what they show" python3 tools/pictures.py --check
part "the wrong programs and the faults, held to what they edit" python3 tests/wrong/edits.py
part "the pages, held to the files" python3 tests/pages.py
part "the twins of the must-fail edits" python3 tests/wrong/shams.py --gate
part "the libraries as C has them" sh tests/c.sh
part "the foreman's command, as he runs it" sh tests/garage/all.sh
part "the proved programs beside the second one" sh tests/lockstep/programs.sh

echo "$passed passed, $failed failed"
[ "$failed" -eq 0 ]
