#!/bin/sh
# build-garage.sh [SUFFIX FLAG..]: compiles the foreman's command and the board to try it on, over the libraries in target/native/, into
# that folder as garage and garage-board, with the suffix. A flag may be a further file.
set -eu
cd "$(dirname "$0")/.."
. tools/flags.sh
out=target/native suffix=${1-}
[ $# -eq 0 ] || shift
flags=${*:--O2}
shared="garage/command.c garage/input.c garage/store.c garage/tell.c garage/words.c"
compile() { # PROGRAM FILE..; what is linked is linked whole at the start, as docs/DECISIONS.md says
    program=$1
    shift
    # shellcheck disable=SC2086
    gcc -std=c11 -D_DEFAULT_SOURCE $warnings -Wl,-z,now $flags -Iinclude "$@" $shared "$out/libgarage.a" "$out/libshe.a" \
        -o "$out/$program$suffix"
}
compile garage garage/garage.c garage/book.c
compile garage-board garage/board.c
