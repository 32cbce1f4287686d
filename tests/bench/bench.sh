#!/bin/sh
# Measures ours beside BearSSL's and libtomcrypt's, built for this machine, in one run: times, stack and size. Stdout is Markdown,
# for docs/PERFORMANCE.md as it is. Fails where the program does, and where a library needs more than it may.
set -eu
cd "$(dirname "$0")/../.."
for crate in bench she garage; do
    sh tools/native-archive.sh $crate >&2
done
out=target/native
tables=$out/bench.md
gcc -O2 -Wall -Wextra -Werror -Iinclude -o $out/bench tests/bench/bench.c $out/libbench.a $out/libshe.a $out/libgarage.a \
    -lbearssl -ltomcrypt

fail() {
    echo "bench: $1" >&2
    exit 1
}

version_of() {
    # shellcheck disable=SC2016
    dpkg-query -W -f '${Version}' "$1"
}

# Some kernels leave the name out of /proc/cpuinfo.
processor=$(sed -n 's/^model name[^:]*: *//p' /proc/cpuinfo | head -n 1)
[ -n "$processor" ] || processor=$(LC_ALL=C lscpu | sed -n 's/^Model name: *//p' | head -n 1)
echo "$(date +%Y-%m-%d), $processor, $(uname -m), gcc $(gcc -dumpfullversion), $(rt version)," \
    "BearSSL $(version_of libbearssl-dev), libtomcrypt $(version_of libtomcrypt-dev), by \`make bench\`:"
echo

status=0
$out/bench >"$tables" || status=$?
cat "$tables"
[ "$status" = 0 ] || exit "$status"

size_of() { # LIBRARY: its size, and what it leaves to the program; no function of it is left out of the stack's table
    archive=$out/$1
    for function in $(nm -g --defined-only "$archive" | awk '$2 == "T" { print $3 }'); do
        grep -q "^| \`$function\` | [0-9]* |\$" "$tables" || fail "the stack of $function is not measured"
    done
    echo
    echo "| \`$1\`, built for this processor | bytes |"
    echo '|---|--:|'
    size -A "$archive" | awk '
        /^\.text/ { text += $(NF - 1) }
        /^\.rodata/ { rodata += $(NF - 1) }
        /^\.data/ { data += $(NF - 1) }
        /^\.bss/ { bss += $(NF - 1) }
        END { printf "| text | %d |\n| rodata | %d |\n| data | %d |\n| bss | %d |\n", text, rodata, data, bss }'
    calls=$(nm -u "$archive" | awk 'NF == 2 { print $2 }' | sort -u | paste -s -d ' ' -)
    echo
    echo "Symbols that \`$1\` leaves to the program: $calls"
    for call in $calls; do
        case $call in
        memcpy | memset | memmove | memcmp | bcmp) ;;
        *) fail "$1 may not call $call" ;;
        esac
    done
}

size_of libshe.a
size_of libgarage.a
