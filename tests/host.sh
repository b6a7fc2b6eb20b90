#!/bin/sh
# host.sh: the library as a C host sees it. Needs a C compiler. Where it has the sanitizers, the hosts run under them too: these look at the
# C code that people copy, and the guard bytes of test.c at what the library does.
set -eu
cd "$(dirname "$0")/.."
if ! command -v cc >/dev/null; then
    echo "host: skipped, there is no cc here"
    exit 0
fi
sh host/c/build
archive=target/staticlib/librev.a
room=target/host
functions='rev_dump rev_listing rev_read_parameter rev_same_number '
functions=$functions'rev_write_access rev_write_expiry rev_write_message rev_write_opening rev_write_parameter rev_write_request '
functions=$functions'rev_write_slot rev_write_time '
# so that a finding is none of the example's own statuses
export ASAN_OPTIONS=exitcode=99 UBSAN_OPTIONS=exitcode=99

fail() {
    echo "host: $1"
    exit 1
}

# What the archive has and asks for.
check_archive() {
    if ! nm "$archive" >$room/names 2>&1; then
        echo "host: there is no nm here that reads the archive: its names are not looked at"
        return
    fi
    asked=$(nm -u "$archive" | awk '$1 == "U" { print $2 }' | sort -u | tr '\n' ' ')
    [ -z "$asked" ] || fail "the archive asks for $asked"
    exported=$(nm -g --defined-only "$archive" | awk 'NF == 3 { print $3 }' | sort -u | tr '\n' ' ')
    [ "$exported" = "$functions" ] || fail "the archive exports ${exported:-nothing }and not ${functions}alone"
    kept=$(awk 'NF > 1 && $(NF - 1) ~ /^[BbCDdGgSs]$/ { print $NF }' $room/names | tr '\n' ' ')
    [ -z "$kept" ] || fail "the archive has memory of its own, that can be written: $kept"
    echo "host: the archive exports ${functions}alone, asks for nothing and keeps nothing"
}

# Another folder, with the header, the archive and a host: the strictest build links at any address and gives no warning.
check_copied() {
    rm -rf $room/copied
    mkdir $room/copied
    cp host/c/rev.h "$archive" host/c/example.c host/c/write.c host/c/test.cpp $room/copied
    strict='-pedantic -Wall -Wextra -Werror'
    for program in example write; do
        # shellcheck disable=SC2086
        (cd $room/copied && cc -std=c99 $strict -fPIE -pie -Wl,-z,text,--fatal-warnings -o $program $program.c librev.a) ||
            fail "$program.c does not build beside header and archive alone"
    done
    $room/copied/example examples/room-pays.rev | cmp - examples/room-pays.txt || fail "the example that was copied prints another text"
    $room/copied/write $room/copied/l.rev | cmp - $room/case-l.txt || fail "the writing example that was copied prints another text"
    if ! command -v c++ >/dev/null; then
        echo "host: the header in C++ is skipped, there is no c++ here"
        return
    fi
    # shellcheck disable=SC2086
    (cd $room/copied && c++ -std=c++11 $strict -Wold-style-cast -o test test.cpp librev.a) ||
        fail "a C++ host does not build"
    $room/copied/test || fail "a C++ host gets another length"
    echo "host: a C and a C++ host build without a warning beside header and archive alone, and run"
}

# A file with the most records there are, the listing that it has, and a file too long by a byte.
write_files() {
    printf '\002\000\005\000' >$room/most.rev
    for _ in 1 2 3 4 5 6 7 8 9 10 11 12 13 14; do
        cat $room/most.rev $room/most.rev >$room/twice
        mv $room/twice $room/most.rev
    done
    awk 'BEGIN { print "REV 1"; for (i = 1; i <= 16384; i++) print i, "17 NONE IDLE 0 0 0"; print "END 16384" }' >$room/most.txt
    { cat $room/most.rev; printf '\002'; } >$room/over.rev
    # case L of tests/cases.txt: its records in hex, and its listing
    sed -n '/^## case-L$/,/^=$/p' tests/cases.txt | grep -v '[^0-9a-f]' >$room/case-l.hex
    sed -n '/^## case-L$/,/^$/p' tests/cases.txt | sed '1,/^=$/d; /^$/d' >$room/case-l.txt
    { [ -s $room/case-l.hex ] && [ -s $room/case-l.txt ]; } || fail "tests/cases.txt has no case L"
}

# The host that writes: its file and its listing are those of case L, and what is wrong is said.
check_writing() {
    "$hosts/write" $room/case-l.rev >$room/printed || fail "$hosts/write ended with $?"
    cmp -s $room/printed $room/case-l.txt || fail "$hosts/write does not print the listing of case L"
    written=$(od -An -v -tx1 $room/case-l.rev | tr -d ' \n')
    [ "$written" = "$(tr -d '\n' <$room/case-l.hex)" ] || fail "$hosts/write does not write the records of case L"
    for slot in 0 63; do # the same call on a board: each record is six bytes longer, and each line has the slot after the ordinal
        "$hosts/write" $room/in-slot.rev $slot >$room/printed || fail "$hosts/write ended with $?"
        awk -v slot=$slot '/^[0-9]/ { $1 = $1 " " slot } { print }' $room/case-l.txt >$room/in-slot.txt
        cmp -s $room/printed $room/in-slot.txt || fail "$hosts/write does not print the listing of case L in slot $slot"
        awk -v slot=$slot 'function byte(h) { return 16 * digit(h, 1) + digit(h, 2) }
            function digit(h, at) { return index("0123456789abcdef", substr(h, at, 1)) - 1 }
            { printf "%02x000700%02x00%s", byte($0) + 6, slot, $0 }' $room/case-l.hex >$room/in-slot.hex
        written=$(od -An -v -tx1 $room/in-slot.rev | tr -d ' \n')
        [ "$written" = "$(cat $room/in-slot.hex)" ] || fail "$hosts/write does not write the records of case L in slot $slot"
    done
    program='write'
    refuses 2 "usage: write FILE"
    refuses 2 "usage: write FILE" $room/one.rev $room/two.rev
    refuses 2 "usage: write FILE" $room/one.rev 5 5
    for slot in 64 65536 -1 +1 ' 1' '1 ' 5x ''; do
        refuses 2 "usage: write FILE" $room/one.rev "$slot"
    done
    refuses 2 "$room: Is a directory" $room
    want=2 saying='standard output: ' status=0
    "$hosts/write" $room/case-l.rev >/dev/full 2>$room/said || status=$?
    check_said ">/dev/full"
    program=example
    echo "host: $hosts/write writes case L, plain and in a slot, and prints its listing"
}

# prints TEXT WORDS..: the example with these words prints the text of that file.
prints() {
    text=$1
    shift
    "$hosts/example" "$@" >$room/printed || fail "$hosts/example $* ended with $?"
    cmp -s $room/printed "$text" || fail "$hosts/example $* does not print what is in $text"
}

# refuses STATUS SAYING WORDS..: $program prints nothing, says one line with SAYING in it, and ends with STATUS.
refuses() {
    want=$1 saying=$2
    shift 2
    status=0
    "$hosts/$program" "$@" >$room/printed 2>$room/said || status=$?
    [ ! -s $room/printed ] || fail "$hosts/$program $* prints, and should not"
    check_said "$@"
}

check_said() {
    if [ $status -ne "$want" ] || [ "$(wc -l <$room/said)" -ne 1 ] || ! grep -q "$saying" $room/said; then
        fail "$hosts/$program $* should say '$saying' and end with $want; it ended with $status and said: $(cat $room/said)"
    fi
}

# check_hosts FOLDER: the programs test, example and write that were built there.
check_hosts() {
    hosts=$1 program=example
    printf 'host: '
    "$hosts/test" examples/*.rev || fail "$hosts/test ended with $?"
    for file in examples/*.rev; do
        listing=${file%.rev}.txt
        length=$(wc -c <"$listing")
        prints "$listing" "$file"
        prints "$listing" "$file" "$((length))"
        refuses 1 "more than the $((length - 1)) bytes of the buffer" "$file" "$((length - 1))"
        ./dump "$file" >$room/dumped
        prints $room/dumped --dump "$file"
    done
    prints $room/most.txt $room/most.rev
    ./dump $room/most.rev >$room/dumped
    prints $room/dumped --dump $room/most.rev
    for size in 0 16777216; do
        refuses 1 "more than 65536 bytes" $room/over.rev $size
        refuses 1 "more than 65536 bytes" --dump $room/over.rev $size
    done

    prints examples/room-pays.txt examples/room-pays.rev 65536
    for size in 0 1 100; do
        refuses 1 "more than the $size bytes of the buffer" examples/room-pays.rev $size
        refuses 1 "more than the $size bytes of the buffer" --dump examples/room-takes-over.rev $size
    done
    for size in -1 +1 ' 1' '1 ' 12x x '' 16777217 18446744073709551615 18446744073709551617 99999999999999999999; do
        refuses 2 "usage: example" examples/room-pays.rev "$size"
    done
    refuses 2 "usage: example"
    refuses 2 "usage: example" --dump
    refuses 2 "usage: example" examples/room-pays.rev 4096 4096
    refuses 2 "nowhere.rev: No such file" $room/nowhere.rev
    refuses 2 "examples: Is a directory" examples

    want=2 saying='standard output: '
    for file in examples/room-pays.rev $room/most.rev; do # less than the C library keeps back, and more
        status=0
        "$hosts/example" "$file" >/dev/full 2>$room/said || status=$?
        check_said "$file" ">/dev/full"
        status=0
        "$hosts/example" "$file" >&- 2>$room/said || status=$?
        check_said "$file" ">&-"
    done
    echo "host: $hosts/example prints the listing and dump of each example, and says what is wrong with sizes, files and standard output"
    check_writing
}

# Whether cc builds programs with the sanitizers, and they run.
sanitizers='-fsanitize=address,undefined -fno-sanitize-recover=all'
has_sanitizers() {
    echo 'int main(void) { return 0; }' >$room/probe.c
    # shellcheck disable=SC2086
    cc $sanitizers -o $room/probe $room/probe.c >$room/probe.log 2>&1 && $room/probe >>$room/probe.log 2>&1
}

check_archive
write_files
check_hosts $room
check_copied
if ! has_sanitizers; then
    echo "host: the sanitizers are skipped: cc has none that run here"
    exit 0
fi
mkdir -p $room/sanitized
for program in example write test; do
    # shellcheck disable=SC2086
    cc -std=c11 -g -O1 $sanitizers -Wall -Wextra -o $room/sanitized/$program host/c/$program.c $archive
done
check_hosts $room/sanitized
