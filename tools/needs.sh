#!/bin/sh
# needs.sh COMMAND:PACKAGE..: whether this machine has what the caller needs, each by the name of a command, or the path of a file, and of
# the Debian package that has it. What is missing is installed where that may be done, and otherwise one line says what to install,
# and the status is 1.
set -u
command -v rt >/dev/null || { echo "missing: the Rattle kit, whose command is rt"; exit 1; }
missing=
for need; do
    [ -f "${need%:*}" ] || command -v "${need%:*}" >/dev/null || missing="$missing ${need#*:}"
done
[ -n "$missing" ] || exit 0

cannot="missing:$missing (as Debian's packages: apt-get install$missing)"
command -v apt-get >/dev/null || { echo "$cannot"; exit 1; }
as_root=
[ "$(id -u)" = 0 ] || as_root='sudo -n'
$as_root true 2>/dev/null || { echo "$cannot"; exit 1; }
echo "installing:$missing"
log=$(mktemp)
trap 'rm -f "$log"' EXIT
# shellcheck disable=SC2086
if ! { $as_root apt-get update && DEBIAN_FRONTEND=noninteractive $as_root apt-get install -y $missing; } >"$log" 2>&1; then
    tail -n 5 "$log"
    echo "$cannot"
    exit 1
fi
