#!/bin/sh
# shipped.sh: what the kit writes for firmware is code for x86-64. On another machine that code is tried too, under the kit's
# emulator: the demo writes what it should, and a run of the comparison leaves the same bytes, call by call, as on this machine,
# where they were compared with the second program's. There is no second program for x86-64 here, so that the libraries stand on
# both sides. After build-c.sh.
set -eu
cd "$(dirname "$0")/../.."
out=target/native
machine=$(uname -m)
if [ "$machine" = x86_64 ]; then
    echo "this machine is x86-64, so that everything was linked with what the kit writes"
    exit 0
fi
tools=$(dirname "$(rt doc)")/on/$machine/toolchain
lib=$tools/lib
if nm -u "$out/she-x86-64.o" "$out/garage-x86-64.o" | sed -n 's/^ *U //p' |
    grep -v -x -e memcpy -e memset -e memmove -e memcmp -e bcmp; then
    exit 1
fi

program() { # NAME SOURCE..: compiled for x86-64, and linked with the kit's objects
    name=$1 objects=
    shift
    for source; do
        object=$out/$name-$(basename "$source" .c)-x86-64.o
        clang --target=x86_64-linux-gnu -std=c99 -O2 -Iinclude -isystem "/usr/include/$machine-linux-gnu" \
            -include "$out/one-side.h" -c "$source" -o "$object"
        objects="$objects $object"
    done
    # shellcheck disable=SC2086
    "$tools/bin/ld.lld" -pie --dynamic-linker /lib64/ld-linux-x86-64.so.2 -o "$out/$name-x86-64" "$lib/Scrt1.o" "$lib/crti.o" \
        "$lib/crtbeginS.o" $objects "$out/she-x86-64.o" "$out/garage-x86-64.o" "$lib/libc.so.6" "$lib/libc_nonshared.a" \
        "$lib/libgcc.a" "$lib/crtendS.o" "$lib/crtn.o"
}

emulated() { # NAME ARGUMENT..
    name=$1
    shift
    "$tools/bin/qemu-x86_64" "$lib/ld-linux-x86-64.so.2" --library-path "$lib" "$out/$name-x86-64" "$@"
}

# The flags that slots keep, as C, from the second program's lines on pairs of slots: they are the fifth byte of each.
flags_kept() {
    echo '#include "she.h"'
    echo 'uint8_t second_flags_of(uint32_t slot) {'
    echo '    static const uint8_t kept[SHE_SLOTS] = {'
    for slot in 00 01 02 03 04 05 06 07 08 09 0a 0b 0c 0d 0e; do
        echo "P $slot / 00"
    done | "$out/second" vectors | sed 's/^.\{8\}\(..\).*/        0x\1,/'
    echo '    };'
    echo '    return slot < SHE_SLOTS ? kept[slot] : 0;'
    echo '}'
}

same_digest() { # ARGUMENT..: of the comparison
    here=$("$out/lockstep" "$@" | sed -n 's/^digest //p')
    there=$(emulated lockstep "$@" | sed -n 's/^digest //p')
    if [ -z "$here" ] || [ "$here" != "$there" ]; then
        echo "lockstep $*: here '$here', on x86-64 '$there'"
        exit 1
    fi
}

sed -n -e 's/^uint8_t she_\([a-z0-9_]*\)(.*/#define second_\1 she_\1/p' \
    -e 's/^uint8_t \(garage_[a-z0-9_]*\)(.*/#define second_\1 \1/p' include/she.h include/garage.h >"$out/one-side.h"
flags_kept >"$out/flags-kept.c"
program yard demo/yard.c
program lockstep tests/lockstep/*.c "$out/flags-kept.c"
emulated yard | cmp - demo/yard.txt
same_digest --some 4 5000
same_digest sweeps 1
echo "the x86-64 code, emulated: the demo as it should be, 5,000 sequences and all sweeps leave the same bytes as here"
