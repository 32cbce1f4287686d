#!/bin/sh
# build-program.sh NAME..: proves each program and builds it, as the kit does before it runs one; the run here is on an empty input.
set -eu
for name; do
    # shellcheck disable=SC2016
    sh tools/watch.sh "proving and compiling $name" "target/$name.log" sh -c 'cd "crates/$1" && exec rt run </dev/null' sh "$name" ||
        { cat "target/$name.log"; exit 1; }
done
