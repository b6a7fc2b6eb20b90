#!/bin/sh
# wires.sh [--count N] [--seed S]: generated parameters and entries (100,000 of seed 1 where it is not said), right, looser and wrong, and
# buffers of all sizes, read and written by the proved library, by the bench's plain C and by the independent model in host/reference: the
# numbers with their places and lengths, and every byte of the buffers, are compared. It fails too where a class of them was not reached, as
# a small N does not reach them all. On a terminal a line tells how far it is. Needs a C compiler and cargo.
set -eu
cd "$(dirname "$0")/.."
who=wires.sh count=100000 seed=1
# shellcheck source=tests/generated.inc
. tests/generated.inc
build_served
build_x86_64 target/host/wires host/c/wires.c target/staticlib/librev.a
build_x86_64 target/host/plain-wires -DPLAIN -Ibench host/c/wires.c bench/plain_wire.c
# a stack of 64 KiB is enough for it, whatever it is lent
stack=64
ask_served wires "the proved reader and writer" target/host/wires
stack=
ask_served wires "the plain reader and writer" target/host/plain-wires
tail -n 2 target/host/wires.log | sed -n 's/^least/wires: least/p'
