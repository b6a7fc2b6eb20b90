# shellcheck shell=sh
# Building C programs with the archive, to be sourced. The Rattle kit is for x86-64 Linux, and so are its archives and programs.

# Whether they run here; where they do not, it says so.
is_x86_64() {
    [ "$(uname -m)" = x86_64 ] && return
    echo "kit.sh: archive and programs of the Rattle kit are for x86-64, and this machine is $(uname -m)" >&2
    return 1
}

# build_x86_64 OUT SOURCES_AND_ARCHIVES..
# Builds the program OUT from C sources, archives and -D options, which go to every source.
build_x86_64() {
    is_x86_64 || return
    kit_out=$1
    shift
    cc -std=c11 -O2 -Wall -Wextra -o "$kit_out" "$@"
}
