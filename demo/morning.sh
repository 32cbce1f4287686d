#!/bin/sh
# morning.sh [FOLDER]: plays the foreman's morning, the lines of README.md that begin with $ in its block of a console, in an empty
# folder, with the commands of that folder, or of target/native. Writes each with what it says, and the status is 0 only where that is
# what README.md shows, but for the time of day.
set -u
cd "$(dirname "$0")/.." || exit 2
PATH=${1:-$(pwd)/target/native}:$PATH
shown=$(awk '/^```$/ { on = 0 } on; /^```console$/ { on = 1 }' README.md)
folder=$(mktemp -d)
trap 'rm -rf "$folder"' EXIT
mkdir "$folder/bench"
cd "$folder/bench" || exit 2

timeless() {
    sed 's/[0-9]\{4\}-[0-9][0-9]-[0-9][0-9]T[0-9:]*Z/TIME/'
}

printf '\nA morning with the foreman'"'"'s command.\n\n'
echo "$shown" | sed -n 's/^\$ //p' | while IFS= read -r line; do
    echo "\$ $line"
    sh -c "$line" 2>&1 </dev/null
done | tee ../played
echo "$shown" | timeless >../shown
timeless <../played | diff ../shown - || { echo "That isn't what README.md shows."; exit 1; }
