#!/bin/sh
# build-c.sh: builds what the tests of the C side run, into target/native/: the libraries for this machine (proved first), the demo,
# the second program by itself and as a library, and the comparison of both through include/she.h and include/garage.h, also with
# gcc's checkers in it.
set -eu
cd "$(dirname "$0")/.."
. tools/flags.sh
out=target/native
sh tools/native-archive.sh she
sh tools/native-archive.sh garage
rustc --edition 2021 -O -C panic=abort --crate-type staticlib -D warnings tests/lockstep/second/lib.rs -o "$out/libsecond.a"
rustc --edition 2021 -O -D warnings tests/lockstep/second/main.rs -o "$out/second"
compile() { # PROGRAM FLAGS SOURCE.. : every word of the flags by itself
    program=$1 flags=$2
    shift 2
    # shellcheck disable=SC2086
    gcc -std=c99 $warnings $flags -Iinclude "$@" "$out/libgarage.a" "$out/libshe.a" "$out/libsecond.a" -lpthread -ldl -lm \
        -o "$out/$program"
}
compile yard -O2 demo/yard.c
compile yard-checked "$checkers" demo/yard.c
compile lockstep -O2 tests/lockstep/*.c
compile lockstep-checked "$checkers" tests/lockstep/*.c
echo "the libraries, the demo, the second program and the comparison are built"
