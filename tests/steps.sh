# steps.sh: for the scripts of the tests, which read it: steps that are run one after the other and counted, and how programs are run.
mkdir -p "$out"
passed=0 failed=0

run() { # NAME COMMAND..: passes where the status is 0
    name=$1
    shift
    if "$@" >"$out/$name.log" 2>&1; then
        passed=$((passed + 1))
        echo "$what: $name: $(tail -n 1 "$out/$name.log")"
    else
        failed=$((failed + 1))
        echo "$what: FAILED: $name"
        tail -n 30 "$out/$name.log"
    fi
}

finish() { # the last line, and the status
    echo "$what: $passed passed, $failed failed"
    [ "$failed" -eq 0 ]
}

limit="timeout 600"
memory="$limit valgrind --quiet --error-exitcode=9 --leak-check=full"
# gcc's checkers want their addresses free, which some kernels' random places are not; leaks are valgrind's to find.
checked="$limit env ASAN_OPTIONS=detect_leaks=0"
if setarch "$(uname -m)" -R true 2>/dev/null; then
    checked="$checked setarch $(uname -m) -R"
fi
