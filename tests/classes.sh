#!/bin/sh
# classes.sh: the table of docs/ROWS.md that tells why there was no row is what the library answers, for every event in every place of both
# roles (host/c/classes.c). Each difference is told, and fails; so does a table that is empty. Needs a C compiler.
set -eu
cd "$(dirname "$0")/.."
if ! command -v cc >/dev/null; then
    echo "classes: skipped, there is no cc here"
    exit 0
fi
sh host/c/build
. host/kit.sh
room=target/host
build_x86_64 $room/classes host/c/classes.c target/staticlib/librev.a
if ! $room/classes >$room/classes.txt; then
    grep '^classes: ' $room/classes.txt || echo "classes: $room/classes fails"
    exit 1
fi
awk '/^## / { inside = $0 == "## Why there was no row" } inside && /^\|/' docs/ROWS.md >$room/classes.page
for table in $room/classes.page $room/classes.txt; do
    # its heading, the line under it, and a line for each role and event
    lines=$(wc -l <"$table")
    if [ "$lines" -ne $((2 + 2 * 56)) ]; then
        echo "classes: the table in $table has $lines lines, and not $((2 + 2 * 56))"
        exit 1
    fi
done
if ! diff $room/classes.page $room/classes.txt >$room/classes.diff; then
    echo "classes: docs/ROWS.md (<) and the library (>) differ:"
    cat $room/classes.diff
    exit 1
fi
echo "classes: the library gives a row, 1, 15 or 16 to each event in each place as docs/ROWS.md has it, and 17 and 20 around the opening"
