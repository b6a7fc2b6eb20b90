#!/bin/sh
# dumps.sh [--count N] [--seed S]: generated event files (300 of seed 1 where it is not said), damaged ones among them, dumped by ./dump
# and read back, from the words alone, by host/reference: every byte of every record must be there. Needs cargo.
set -eu
cd "$(dirname "$0")/.."
who=dumps.sh count=300 seed=1
# shellcheck source=tests/generated.inc
. tests/generated.inc
generate_files target/dumps
failed=0
for file in target/dumps/*.rev; do
    ./dump "$file" | $reference undump "$file" || failed=$((failed + 1))
done
echo "dumps: $count files, $failed not read back"
[ $failed -eq 0 ]
