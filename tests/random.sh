#!/bin/sh
# random.sh [--count N] [--seed S]: generated event files (10,000 of seed 1 where it is not said), every second one of a board, damaged ones
# among them, listed by the proved library, by the bench's plain C and by the independent model in host/reference, and compared byte for
# byte; before that the model's own tests. So 100,000 files of a board take --count 200000. It fails too where 10,000 files or more do not
# reach all that a file can reach. On a terminal a line tells how far it is. Needs a C compiler and cargo.
set -eu
cd "$(dirname "$0")/.."
who=random.sh count=10000 seed=1
# shellcheck source=tests/generated.inc
. tests/generated.inc
for tool in cc cargo; do
    if ! command -v $tool >/dev/null; then
        echo "random: skipped, there is no $tool here"
        exit 0
    fi
done
sh host/c/build
cargo test --quiet --offline --manifest-path host/reference/Cargo.toml --target-dir target/reference >target/host/model.log 2>&1 || {
    cat target/host/model.log
    exit 1
}
echo "random: the model passes its own tests"
cargo build --quiet --release --offline --manifest-path host/reference/Cargo.toml --target-dir target/reference
cc -std=c11 -O2 -Wall -Wextra -DLISTING=plain_listing -o target/host/plain host/c/batch.c bench/plain.c

# compare NAME COMMAND..: the listings of COMMAND with the model's
compare() {
    name=$1
    shift
    status=0
    target/reference/release/reference differential --count "$count" --seed "$seed" --keep target/host/difference.rev -- \
        "$@" >target/host/random.log || status=$?
    if [ $status -ne 0 ]; then
        cat target/host/random.log
        echo "random: $name and the model differ, or $name does not answer" >&2
        exit $status
    fi
    if [ "$count" -ge 10000 ] && grep '^not reached: ' target/host/random.log; then
        echo "random: $name: what is told above was not reached" >&2
        exit 1
    fi
    tail -n 1 target/host/random.log | sed "s/^/random: $name: /"
}
compare "the proved listing" target/host/batch
compare "the plain listing" target/host/plain
