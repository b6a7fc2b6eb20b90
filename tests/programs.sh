#!/bin/sh
# programs.sh: ./listing, ./dump, ./record and ./wire as a user meets them: options, several files, what cannot be read or written, the
# first run. What a program answers to a file is not looked at here: tests/cases.sh, tests/dump.sh, tests/record.sh and tests/wire.sh do
# that.
set -eu
cd "$(dirname "$0")/.."
here=$PWD
room=$(mktemp -d)
trap 'rm -rf "$room"' EXIT
other=$here/examples/cut-short.rev
right=0 wrong=0
: >"$room/wanted"

# The program's own answer to a file.
answer() {
    "crates/$program/out/$program" <"$1"
}

# try WHAT STATUS TOLD COMMAND..: the command's status, what it tells on standard error (TOLD, one line or more, or nothing), and its
# standard output, which is to be that of $room/wanted; that is empty again afterwards.
try() {
    what=$1 status=$2 told=$3
    shift 3
    got=0
    "$@" >"$room/out" 2>"$room/err" || got=$?
    [ -z "$told" ] || echo "$told" >"$room/told"
    [ -n "$told" ] || : >"$room/told"
    if [ $got -eq "$status" ] && cmp -s "$room/wanted" "$room/out" && cmp -s "$room/told" "$room/err"; then
        right=$((right + 1))
    else
        wrong=$((wrong + 1))
        echo "programs: $name: $what: status $got, expected $status; then what was expected (<) and what came (>):"
        diff "$room/wanted" "$room/out" | head -n 10 || true
        diff "$room/told" "$room/err" | head -n 10 || true
    fi
    : >"$room/wanted"
}

# What a program does that prints a text for each of several files.
with_several() {
    printf 'REFUSED 8\n' >"$room/wanted"
    try "a file without an end" 0 "" "./$name" /dev/zero
    { echo "==> $file <==" && answer "$file" && echo && echo "==> $other <==" && answer "$other"; } >"$room/wanted"
    try "two files" 0 "" "./$name" "$file" "$other"
    { echo "==> $file <==" && answer "$file" && echo && echo "==> standard input <==" && answer "$other"; } >"$room/wanted"
    try "files that are not there, and standard input" 2 "$name: none: no such file
$name: tests: is a folder" sh -c "./$name none '$file' tests - <'$other'"
    printf '%s\n' "$(answer "$file" | head -n 1)" >"$room/wanted"
    try "standard output that nobody reads to its end" 0 "" sh -c "./$name '$file' '$file' '$file' | sed -n '2{p;q;}'"
}

# What record does with a file that it refuses, and wire.
with_text() {
    try "a file without an end" 1 "$name: REFUSED 8: the text has more than 1,048,576 bytes" "./$name" /dev/zero
    try "a file that is refused" 1 "$name: line 1: not known: no record has these words" "./$name" "$other"
    try "standard input that is refused" 1 "$name: line 1: not known: no record has these words" sh -c "./$name <'$other'"
}
with_bytes() {
    printf 'REFUSED 8\n' >"$room/wanted"
    try "a file without an end" 0 "" "./$name" /dev/zero
    refusal="$name: not hexadecimal: not two digits an octet, with blanks and line ends"
    try "a file that is refused" 1 "$refusal" "./$name" -x "$other"
    try "standard input that is refused" 1 "$refusal" sh -c "./$name -x <'$other'"
}

# What a program does that takes one file, and may refuse it.
with_one() {
    try "two files" 2 "$name: one file alone: $name --help says more" "./$name" "$file" "$file"
    try "standard input and a file" 2 "$name: one file alone: $name --help says more" "./$name" - "$file"
    answer "$file" | head -c 4 >"$room/wanted"
    try "standard output that nobody reads to its end" 0 "" sh -c "./$name '$file' | head -c 4"
    # a program that fails is none that refused, nor one that wrote what it has so far
    copy="$room/a broken copy"
    broken=$copy/crates/$program/out/$program
    mkdir -p "$copy/host" "${broken%/*}"
    cp "$name" "$copy"
    cp host/*.sh "$copy/host"
    printf '#!/bin/sh\nprintf abc\nexit 3\n' >"$broken"
    chmod +x "$broken"
    try "a program that fails" 2 "$name: $broken does not run: it ends with 3" "$copy/$name" "$file"
    rm -r "$copy"
}

mkdir "$room/bin" "$room/tools"
for tool in awk cat dirname grep head mkdir mktemp readlink rm sed sh uname; do ln -s "$(command -v $tool)" "$room/tools/$tool"; done
# a parameter of two components
printf '\062\027\221\243\014\002\001\001\006\007\000\021\205\140\003\001\005\244\006\002\001\002\200\001\000' >"$room/parameter"
for name in listing dump record wire; do
    # its program, a file for it, and the crates that it is proved with, in order; refuse: the one that is refused in a first run
    file=$here/examples/room-pays.rev program=$name crates="meters rows board text files input $name" refuse=rows
    case $name in
    record) file=$here/examples/room-pays.words crates="meters rows board text files input pieces record" ;;
    wire) file=$room/parameter program=wireline crates="text wire input pieces wireline" refuse=wire ;;
    esac
    # builds it if it is missing
    "./$name" "$file" >/dev/null

    answer "$file" >"$room/wanted"
    try "a file" 0 "" "./$name" "$file"
    answer "$file" >"$room/wanted"
    try "a file after --" 0 "" "./$name" -- "$file"
    answer "$file" >"$room/wanted"
    try "standard input" 0 "" sh -c "./$name <'$file'"
    answer "$file" >"$room/wanted"
    try "standard input as -" 0 "" sh -c "./$name - <'$file'"
    answer "$file" >"$room/wanted"
    try "standard input as - after --" 0 "" sh -c "./$name -- - <'$file'"
    answer /dev/null >"$room/wanted"
    try "an empty file" 0 "" "./$name" /dev/null
    case $name in
    record) with_text && with_one ;;
    wire) with_bytes && with_one ;;
    *) with_several ;;
    esac

    ln -sf none "$room/link"
    try "no such file" 2 "$name: none: no such file" "./$name" none
    try "a link to nothing" 2 "$name: $room/link: no such file" "./$name" "$room/link"
    try "an empty name" 2 "$name: : no such file" "./$name" ""
    try "a folder" 2 "$name: tests: is a folder" "./$name" tests
    try "a file that gives an error" 2 "$name: /proc/self/mem: cannot be read: Input/output error" "./$name" /proc/self/mem
    if [ "$(id -u)" -ne 0 ]; then
        : >"$room/locked" && chmod 0 "$room/locked"
        try "a file that is not to be read" 2 "$name: $room/locked: cannot be read: Permission denied" "./$name" "$room/locked"
    fi
    try "standard input closed" 2 "$name: standard input: is closed" sh -c "./$name <&-"
    answer "$file" >"$room/wanted"
    try "a file, with standard input closed" 0 "" sh -c "./$name '$file' <&-"
    try "standard output closed" 2 "$name: standard output is closed" sh -c "./$name '$file' >&-"
    try "standard output full" 2 "$name: standard output cannot be written: No space left on device" sh -c "./$name '$file' >/dev/full"
    try "the help to a full standard output" 2 "$name: standard output cannot be written: No space left on device" \
        sh -c "./$name --help >/dev/full"
    try "no folder for temporary files" 2 "$name: there is no room for temporary files" env TMPDIR="$room/none" "./$name" "$file"
    if command -v script >/dev/null; then
        { echo "$name: reading standard input, which is a terminal ($name --help says more)" && answer /dev/null; } >"$room/wanted"
        try "a terminal" 0 "" sh -c "timeout 60 script -qec ./$name /dev/null </dev/null | tr -d '\\r\\b' | sed 's/\\^D//'"
    fi
    try "an option that is none" 2 "$name: -z is no option: $name --help says which there are" "./$name" -z
    try "a file with the name of an option" 2 "$name: -x: no such file" "./$name" -- -x

    for option in -h --help; do
        sh -c "./$name $option" >"$room/wanted"
        grep -q "^usage: $name .*\[FILE\]" "$room/wanted" || : >"$room/wanted"
        try "$option" 0 "" "./$name" $option
    done
    printf '%s\nfor the Rattle kit %s\n' "$(sh -c "./$name --version | head -n 1")" "$(cat KIT)" >"$room/wanted"
    try "--version" 0 "" "./$name" --version

    ln -sf "$here/$name" "$room/bin/its-$name"
    ln -sf "its-$name" "$room/bin/my-$name"
    answer "$file" >"$room/wanted"
    try "by a link on the path" 0 "" sh -c "cd / && PATH=\$1:\$PATH && my-$name \"\$2\"" sh "$room/bin" "$file"

    # The first run, with an rt that only says it: the crates in order, each announced; the program is there after the last.
    copy="$room/a fresh copy"
    mkdir -p "$copy/host/c"
    for crate in $crates; do mkdir -p "$copy/crates/$crate"; done
    cp "$name" crates.txt KIT "$copy"
    cp host/*.sh "$copy/host"
    cp host/c/rev.h "$copy/host/c"
    cat >"$room/bin/rt" <<END
#!/bin/sh
crate=\${PWD##*/}
[ "\$crate" != "\${REFUSE-}" ] || { echo "\$crate: error" && exit 1; }
echo "fn \$crate::f: proved"
case "\$*" in
lib) ;;
run) mkdir -p out && cp "$here/crates/$program/out/$program" out && exit 1 ;;
*) exec false ;;
esac
END
    chmod +x "$room/bin/rt"
    # what is told of the crates, up to the one that is refused, and of all
    # shellcheck disable=SC2086 # a crate a word
    set -- $crates
    steps="$name: the first run proves and builds the program: $# crates, some minutes in all"
    count=0
    for crate do
        count=$((count + 1))
        case $crate in rows | files | wire) long="some minutes" ;; *) long="some seconds" ;; esac
        steps="$steps
$name: proving $crate ($count of $#), $long"
        [ "$crate" != $refuse ] || first=$steps
        steps="$steps
$name: $crate is proved"
    done
    every=$steps
    try "a first run without the file" 2 "$name: none: no such file" env PATH="$room/bin:$PATH" "$copy/$name" none
    try "a first run without the kit" 2 \
        "$name: the program is not built yet, and the Rattle kit, whose command rt builds it, is not on the path" \
        env PATH="$room/tools" "$copy/$name" "$file"
    try "a first run that is refused" 2 "$first
$refuse: error
$name: $refuse is not proved, or cannot be: rt says why, above" env PATH="$room/bin:$PATH" REFUSE=$refuse "$copy/$name" "$file"
    answer "$file" >"$room/wanted"
    try "a first run" 0 "$every" env PATH="$room/bin:$PATH" "$copy/$name" "$file"
    answer "$file" >"$room/wanted"
    try "a second run" 0 "" env PATH="$room/bin:$PATH" "$copy/$name" "$file"
    rm -r "$copy/crates/$program/out"
    : >"$copy/crates/$program/out"
    try "a first run where nothing can be written" 2 \
        "$name: the program is built at its first run, and $copy/crates/$program/out cannot be written" \
        env PATH="$room/bin:$PATH" "$copy/$name" "$file"
    rm -r "$copy" "$room/bin/rt"
done
echo "programs: $right as expected, $wrong not"
[ "$wrong" -eq 0 ] && [ "$right" -gt 0 ]
