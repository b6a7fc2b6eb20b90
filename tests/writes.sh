#!/bin/sh
# writes.sh [--count N] [--seed S]: generated events of all kinds (100,000 of seed 1 where it is not said), in range and out of it, and
# records to be put in a slot, whole and not, and buffers of all sizes, written by the proved library, by the bench's plain C and by the
# independent model in host/reference: the numbers and every byte of the buffers are compared, and what was written is read back by the
# dump. It fails too where a class of events was not reached, as a small N does not reach them all. On a terminal a line tells how far it is.
# Needs a C compiler and cargo.
set -eu
cd "$(dirname "$0")/.."
who=writes.sh count=100000 seed=1
# shellcheck source=tests/generated.inc
. tests/generated.inc
build_served
# the plain writers' records are read back by the library's dump, as the others are
build_x86_64 target/host/plain-writes -DPLAIN -Ibench host/c/writes.c bench/plain.c target/staticlib/librev.a
ask_served writes "the proved writers" target/host/writes
ask_served writes "the plain writers" target/host/plain-writes
sed -n 's/^least/writes: least/p' target/host/writes.log
