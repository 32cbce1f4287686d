#!/bin/sh
# programs.sh: the proved programs `cases` and `vectors` beside the second program, which writes what they must write. For the
# lines of crates/*/stdin that is crates/*/stdout, to which `rt ci` holds the proved ones; on random lines both are run and
# compared. After build-c.sh.
#
# A portion in which they differ can be had again: target/native/second draw PROGRAM SEED NUMBER. What `cases` must write is made
# anew by target/native/second cases <crates/cases/stdin >crates/cases/stdout.
set -u
cd "$(dirname "$0")/../.." || exit 2
second=target/native/second
status=0

own_lines() { # PROGRAM
    "$second" "$1" <"crates/$1/stdin" >"target/native/$1.account" && cmp "target/native/$1.account" "crates/$1/stdout"
}

random_lines() { # PROGRAM SEED PORTIONS
    "$second" compare "$@" sh tools/run-program.sh "$1"
}

mkdir -p target/native
sh tools/build-program.sh cases vectors || exit 1
own_lines cases || status=1
own_lines vectors || status=1
random_lines cases 1 40 || status=1
random_lines vectors 1 92 || status=1
exit $status
