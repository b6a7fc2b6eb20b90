#!/bin/sh
# bench.sh: the bench builds and runs, and the listings that it times are the same. The times are not judged: a machine that does
# something else beside it would fail.
set -eu
cd "$(dirname "$0")/.."
if ! command -v cc >/dev/null; then
    echo "bench: skipped, there is no cc here"
    exit 0
fi
mkdir -p target/bench
if ! sh bench/run >target/bench/table.txt 2>target/bench/errors.txt; then
    cat target/bench/errors.txt target/bench/table.txt
    exit 1
fi
sed -n '/^input/,$p' target/bench/table.txt | sed 's/^/bench: /'
