#!/bin/sh
# c.sh: the library as C has it. Everything that is built by build-c.sh is run; what each run says goes to target/native/*.log, and
# its last line is printed here. The last line is 'C: N passed, M failed', and the status is 0 only where M is 0.
set -u
cd "$(dirname "$0")/.." || exit 2
out=target/native what=C
. tests/steps.sh

# Each header alone, in every language that may include it, and for a controller of 32 bits.
headers() {
    for header in she.h garage.h; do
        line="#include \"$header\""
        for language in c99 c11 c17; do
            echo "$line" | gcc -std=$language -Wall -Wextra -Wpedantic -Werror -Iinclude -x c -fsyntax-only - || return 1
        done
        for language in c++98 c++11 c++17; do
            echo "$line" | g++ -std=$language -Wall -Wextra -Wpedantic -Werror -Iinclude -x c++ -fsyntax-only - || return 1
        done
        echo "$line" | clang --target=thumbv7m-none-eabi -ffreestanding -std=c99 -Wall -Wextra -Wpedantic -Werror \
            -Iinclude -x c -fsyntax-only - || return 1
    done
    echo "she.h and garage.h compile as C99, C11, C17, C++98, C++11 and C++17, and for a controller of 32 bits"
}

# Each library gives what its header declares and no other name, so that both may be linked into one program, and asks for nothing
# of that but what every compiler may ask for.
symbols() {
    for library in she garage; do
        nm -g --defined-only "$out/lib$library.a" | sed -n 's/^[0-9a-f]* [A-Z] //p' | sort >"$out/defined"
        sed -n "s/^uint8_t \\(${library}_[a-z0-9_]*\\)(.*/\\1/p" "include/$library.h" | sort | diff - "$out/defined" || return 1
    done
    nm -u "$out/libshe.a" "$out/libgarage.a" | sed -n 's/^ *U //p' | sort -u >"$out/undefined"
    if grep -v -x -e memcpy -e memset -e memmove -e memcmp -e bcmp "$out/undefined"; then
        return 1
    fi
    echo "the names of both headers and no other; undefined symbols: $(tr '\n' ' ' <"$out/undefined")"
}

# The README's examples are whole programs, and do what they say, as C and as C++.
readme() {
    awk -v out="$out" '
        /^```c$/ { example = out "/readme-" ++count ".c"; printf "" >example; next }
        /^```$/ { example = "" }
        example != "" { print >example }' README.md
    for program in readme-1 readme-2; do
        gcc -std=c99 -Wall -Wextra -Wpedantic -Werror -Iinclude "$out/$program.c" "$out/libshe.a" "$out/libgarage.a" \
            -o "$out/$program" || return 1
        g++ -std=c++11 -Wall -Wextra -Wpedantic -Werror -Iinclude -x c++ "$out/$program.c" -x none "$out/libshe.a" \
            "$out/libgarage.a" -o "$out/$program++" || return 1
        [ "$("$out/$program")" = "$("$out/$program++")" ] || return 1
        "$out/$program" || return 1
    done
}

demo() { # PROGRAM: it writes what it should, line by line
    "$@" >"$out/yard.out" && cmp "$out/yard.out" demo/yard.txt && tail -n 1 "$out/yard.out"
}

run build sh tools/build-c.sh
run headers headers
run symbols symbols
run readme readme
run demo demo $limit "$out/yard"
run demo-checked demo $checked "$out/yard-checked"
run demo-valgrind demo $memory "$out/yard"
run openssl $limit "$out/second" openssl 1
run published $limit "$out/lockstep" published tests/published.txt
run sweeps $limit "$out/lockstep" sweeps 1
run sequences $limit "$out/lockstep" 1 20000
run sequences-checked $checked "$out/lockstep-checked" --exact --some 2 3000
run sweeps-checked $checked "$out/lockstep-checked" sweeps 2
run published-valgrind $memory "$out/lockstep" --exact published tests/published.txt
run sequences-valgrind $memory "$out/lockstep" --exact --some 3 1500
run shipped sh tests/lockstep/shipped.sh
finish
