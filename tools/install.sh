#!/bin/sh
# install.sh FOLDER: puts the foreman's command with its manual page, and the headers and archives, below that folder.
set -eu
cd "$(dirname "$0")/.."
put() { # MODE FILE WHERE
    install -D -m "$1" "$2" "$to/$3/$(basename "$2")"
    echo "$to/$3/$(basename "$2")"
}
to=$1
put 755 target/native/garage bin
put 644 garage/garage.1 share/man/man1
for library in she garage; do
    put 644 "include/$library.h" include
    put 644 "target/native/lib$library.a" lib
done
