#!/bin/sh
# all.sh [TEST..]: the foreman's command, as he runs it: all tests, or some. What each says goes to target/native/*.log, and its
# last line is printed here. The last line is 'Garage: N passed, M failed', and the status is 0 only where M is 0.
set -u
cd "$(dirname "$0")/../.." || exit 2
out=target/native what=Garage
. tests/steps.sh

. tools/flags.sh

# The command and the board to try it on, also with gcc's checkers; and with another `main`, which draws random words for what reads
# words, or looks into its own memory before the command ends.
build() {
    sh tools/native-archive.sh she && sh tools/native-archive.sh garage || return 1
    # shellcheck disable=SC2086
    sh tools/build-garage.sh && sh tools/build-garage.sh -checked $checkers &&
        sh tools/build-garage.sh -words $checkers -Dmain=command_main tests/garage/words.c &&
        sh tools/build-garage.sh -wiped -O2 -Dmain=command_main tests/garage/wiped.c || return 1
    echo "the command, the board, and what tests them are built"
}

run build build
for test in ${*:-small morning refusals forms helps words lines installed damage altered own full cuts at_once wiped}; do
    script=usage
    grep -q "^def $test(" tests/garage/usage.py || script=books
    run "$test" python3 "tests/garage/$script.py" "$test"
done
finish
