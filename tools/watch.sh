#!/bin/sh
# watch.sh LABEL LOG COMMAND..: runs a command whose output goes to LOG, and says meanwhile that it lives: how long it has taken, how
# much it has done, and what last. On a terminal that is one line, written over again and again; elsewhere it is a line each half minute.
# A step is a line of the log that begins with a name and a colon, as `rt` and the tests write one for each thing that is done. The
# status is the command's.
set -u
label=$1 log=$2
shift 2
: >"$log"
"$@" >"$log" 2>&1 &
command=$!
trap 'kill "$command" 2>/dev/null; exit 130' INT TERM
began=$(date +%s) said=0

say() { # how the command stands, with a text before and after it
    took=$(($(date +%s) - began))
    steps=$(grep -c '^[A-Za-z]*: ' "$log")
    last=$(grep '^[A-Za-z]*: ' "$log" | tail -n 1 | cut -c1-70)
    printf '%s%s: %d min %02d s, %d steps%s%s' "$1" "$label" $((took / 60)) $((took % 60)) "$steps" "${last:+, the last: $last}" "$2"
}

clear=$(printf '\r\033[K')
while kill -0 "$command" 2>/dev/null; do
    sleep 0.5
    if [ -t 1 ]; then
        say "$clear" ''
    elif [ $(($(date +%s) - began)) -ge $((said + 30)) ]; then
        said=$((said + 30))
        say '' "
"
    fi
done
[ ! -t 1 ] || printf '%s' "$clear"
wait "$command"
