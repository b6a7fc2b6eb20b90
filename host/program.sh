# shellcheck shell=sh
# program.sh, to be sourced by a script at the root: prints what a program of this repository makes of files.
#
#   run_program NAME WHAT [WORDS..]     WHAT: what it does, for the help; WORDS: the script's own
#
# A script may set, after it has sourced this: longest, the bytes that a file may have; and single=yes, for a program that takes one file,
# and whose answer may be bytes and not a text: it tells a refusal on standard error and has no answer then. One whose program has another
# name, or options, sets made_by, the name of the program's crate; and options, the options for the program, takes, how the help has these,
# and means, the help's lines on them.
#
# No contract of a program says what it read or wrote. So the script reads the file, keeps the program's answer and copies it to standard
# output: each of these is seen to fail, and told on standard error.
# The status is 0; or 2 where a file could not be read, an answer not be written, the program not be built or run. A file that the program
# refuses has an answer, which says so, and the status is 0; or, of a single program, there is no answer and the status is 1.
root=$(dirname "$(readlink -f "$0")")

longest=65536 # bytes of an event file (docs/FORMAT.md)
single='' made_by='' options='' takes='' means=''

run_program() {
    name=$1 what=$2
    shift 2
    : "${made_by:=$name}"
    # first of all, since a file that is opened would take the place of a closed one
    (true 3>&1) 2>/dev/null || stop "standard output is closed"
    closed=
    (true 3<&0) 2>/dev/null || { closed=yes && exec </dev/null; }
    case ${1-} in
    -h | --help)
        usage | copy
        exit
        ;;
    --version)
        version | copy
        exit
        ;;
    --) shift ;;
    -?*) stop "$1 is no option: $name --help says which there are" ;;
    esac
    [ $# -gt 0 ] || set -- -
    [ -z "$single" ] || [ $# -eq 1 ] || stop "one file alone: $name --help says more"
    program=$root/crates/$made_by/out/$made_by
    room=$(mktemp -d 2>/dev/null) || stop "there is no room for temporary files"
    trap 'rm -rf "$room"' EXIT
    trap 'exit 129' HUP
    trap 'exit 130' INT
    trap 'exit 143' TERM
    several='' before='' status=0 refused=
    [ $# -eq 1 ] || several=yes
    for file do
        if answer "$file"; then
            under_its_name | copy || exit
            before=yes
        else
            status=${refused:-2}
        fi
    done
    exit "$status"
}

usage() {
    echo "usage: $name $takes${takes:+ }[FILE]$([ -n "$single" ] || echo ..)"
    echo
    echo "$what"
    echo "Without FILE, or where FILE is -, it reads standard input."
    [ -n "$single" ] || echo "Of several files each stands under a line with its name: ==> FILE <=="
    cat <<END

${means:+$means
}  -h, --help    print this
  --version     print the version, and the kit that it is for
  --            what follows is a FILE

The manual page: man -l $root/man/$name.1
END
}

version() {
    form=$(sed -n 's/^#define REV_VERSION[ ]*//p' "$root/host/c/rev.h")
    echo "$name of Farghozzi${form:+, for files and listings of the form REV $form}"
    echo "for the Rattle kit $(cat "$root/KIT")"
}

# Proves and builds the program, crate by crate, so that there is a line before each, and one as soon as it is proved. A library is built for
# those above it; the program is run once, with no input, since that builds it.
build() {
    command -v rt >/dev/null || stop "the program is not built yet, and the Rattle kit, whose command rt builds it, is not on the path"
    [ "$(uname -m)" = x86_64 ] || stop "the program is for x86-64, and this machine is $(uname -m)"
    out=${program%/*}
    mkdir -p "$out" 2>/dev/null
    { [ -d "$out" ] && [ -w "$out" ]; } || stop "the program is built at its first run, and $out cannot be written"
    crates=$(awk -F: -v name="$made_by" '
        $1 == name { rests = " " $2 " " }
        { order[++n] = $1 }
        END { for (i = 1; i <= n; i++) if (order[i] == name || index(rests, " " order[i] " ")) print order[i] }' "$root/crates.txt")
    # shellcheck disable=SC2086 # a crate a word
    set -- $crates
    say "the first run proves and builds the program: $# crates, some minutes in all"
    count=0
    for crate do
        count=$((count + 1))
        case $crate in rows | files | wire) long="some minutes" ;; *) long="some seconds" ;; esac
        say "proving $crate ($count of $#), $long"
        made=0
        if [ "$crate" = "$made_by" ]; then
            # its own status is that of an empty file
            (cd "$root/crates/$crate" && rt run) </dev/null >"$room/log" 2>&1 || true
            [ -x "$program" ] || made=1
        else
            (cd "$root/crates/$crate" && rt lib) </dev/null >"$room/log" 2>&1 || made=1
        fi
        if [ $made -ne 0 ]; then
            cat "$room/log" >&2
            stop "$crate is not proved, or cannot be: rt says why, above"
        fi
        say "$crate is proved"
    done
}

# answer FILE: leaves the program's answer in $room/answer. Fails where the file cannot be read, or is refused.
answer() {
    shown=$1
    if [ "$1" = - ]; then
        shown="standard input"
        if [ -n "$closed" ]; then
            say "$shown: is closed"
            return 1
        fi
        [ ! -t 0 ] || say "reading standard input, which is a terminal ($name --help says more)"
    elif [ ! -e "$1" ]; then
        say "$1: no such file"
        return 1
    elif [ -d "$1" ]; then
        say "$1: is a folder"
        return 1
    fi
    # a byte more than a file may have, so that the program sees a longer one
    if ! problem=$(LC_ALL=C head -c $((longest + 1)) -- "$1" 2>&1 >"$room/file"); then
        say "$shown: cannot be read: ${problem##*: }"
        return 1
    fi
    # built only now, so that a file that is not there is told at once
    [ -x "$program" ] || build
    if [ -n "$single" ]; then
        take_bytes
    else
        take_text
    fi
}

# The answer, which is never empty. The status is that of cat, which sees whether all was written.
take_text() {
    # shellcheck disable=SC2086 # an option a word
    "$program" $options <"$room/file" | cat >"$room/answer" || stop "temporary files cannot be written"
    [ -s "$room/answer" ] || stop "$program gives no answer"
}

# The answer, which may be empty. Fails, with the status to give in $refused, where the program told something: a refusal. What it did not
# say itself tells that it was not run to its end.
take_bytes() {
    # shellcheck disable=SC2086 # an option a word
    told=$({ { "$program" $options <"$room/file" || echo "it ends with $?" >&2; } | cat >"$room/answer"; } 2>&1) ||
        stop "temporary files cannot be written"
    case $told in
    '') return ;;
    "$name: "*) echo "$told" >&2 ;;
    *) stop "$program does not run: $told" ;;
    esac
    refused=1
    return 1
}

# The answer, and where there are several files before it a line with the file's name, as head has it.
under_its_name() {
    [ -z "$before" ] || echo
    [ -z "$several" ] || printf '==> %s <==\n' "$shown"
    cat "$room/answer"
}

# Standard input to standard output. Fails with 2 where that cannot be written, and as cat does where nobody reads it any more.
copy() {
    went=0
    { problem=$(LC_ALL=C cat 2>&1 >&3) || went=$?; } 3>&1
    if [ $went -eq 1 ]; then
        say "standard output cannot be written: ${problem##*: }"
        went=2
    fi
    return $went
}

say() {
    echo "$name: $1" >&2
}

stop() {
    say "$1"
    exit 2
}
