#!/bin/sh
# sizes.sh PROGRAM: a listing program at the edges of its sizes. Files of 65,535, 65,536 and 65,537 bytes whose listing fits, and
# files whose listing has 65,535, 65,536 and 65,537 bytes; both of plain records and of records in slots. And a file whose lines have slots
# by its last record alone, so that its listing is too long, and without it is not.
set -eu
[ $# -eq 1 ] || { echo "usage: sizes.sh PROGRAM" >&2 && exit 2; }
program=$1
room=$(mktemp -d)
trap 'rm -rf "$room"' EXIT
fail=0
expect() { # WHAT FILE LENGTH-OF-LISTING-OR-0 LAST-LINE
    "$program" <"$2" >"$room/got" || true
    got=$(wc -c <"$room/got")
    last=$(tail -n 1 "$room/got")
    if { [ "$3" -ne 0 ] && [ "$got" -ne "$3" ]; } || [ "$last" != "$4" ]; then
        echo "sizes: $1: $got bytes, last line '$last'; expected ${3#0} bytes, '$4'"
        fail=1
    else
        echo "sizes: $1: as expected ($got bytes, '$last')"
    fi
}
repeat() { # COUNT ESCAPES: the bytes so many times
    BYTES=$2 awk -v n="$1" 'BEGIN { for (i = 0; i < n; i++) printf "%s", ENVIRON["BYTES"] }' >"$room/escapes"
    # shellcheck disable=SC2059 # a format of escapes alone
    printf "$(cat "$room/escapes")"
}
# 2,114 FAC messages with both numbers and a Duration (31 bytes each) are 65,534 bytes; before the opening each gets 17
n='\001\001\000\000\000\000\000\000\000'
message='\035\000\003\000\005\000\000\000\160'$n$n'\001\000\000\000'
for _ in 1 2; do
    repeat 1057 "$message"
done >"$room/most"
{ cat "$room/most"; printf '\002'; } >"$room/file"
expect "a file of 65,535 bytes" "$room/file" 0 "END 2115"
{ cat "$room/most"; printf '\002\000'; } >"$room/file"
expect "a file of 65,536 bytes" "$room/file" 0 "END 2115"
{ cat "$room/most"; printf '\002\000\005'; } >"$room/file"
expect "a file of 65,537 bytes" "$room/file" 10 "REFUSED 8"
# 2,775 records: expiries before the opening, an opening, a basic call, and so many expiries in SETUP, each a byte longer in the listing
for times in 22 23 24; do
    {
        repeat $((2773 - times)) '\002\000\005\000'
        printf '\015\000\001\000\000\010\001\001\000\000\000\000\000\000\000'
        printf '\014\000\002\000\000\001\001\000\000\000\000\000\000\000'
        repeat $times '\002\000\005\000'
    } >"$room/file"
    length=$((65513 + times))
    case $times in
    24) expect "a listing of 65,537 bytes" "$room/file" 10 "REFUSED 8" ;;
    *) expect "a listing of $length bytes" "$room/file" $length "END 2775" ;;
    esac
done
# 1,771 of those messages in slot 63 (37 bytes each) and a plain one are 65,536 bytes
for _ in 1 2 3 4 5 6 7; do
    repeat 253 '\043\000\007\000\077\000'"$message"
done >"$room/most"
{ cat "$room/most"; printf '\007\000\003\000\005\000\000\000'; } >"$room/file"
expect "a file of 65,535 bytes in slots" "$room/file" 0 "END 1772"
printf '\000' >>"$room/file"
expect "a file of 65,536 bytes in slots" "$room/file" 0 "END 1772"
printf '\002' >>"$room/file"
expect "a file of 65,537 bytes in slots" "$room/file" 10 "REFUSED 8"
# 2,562 expiries in slots, of which so many have two digits, a byte more in the listing each
for digits in 15 16 17; do
    {
        repeat $((2562 - digits)) '\010\000\007\000\011\000\002\000\005\000'
        repeat $digits '\010\000\007\000\012\000\002\000\005\000'
    } >"$room/file"
    length=$((65520 + digits))
    case $digits in
    17) expect "a listing of 65,537 bytes with slots" "$room/file" 10 "REFUSED 8" ;;
    *) expect "a listing of $length bytes with slots" "$room/file" $length "END 2562" ;;
    esac
done
# 2,775 expiries, and a last record: plain, in a slot, and one of kind 7 that is broken, which is no reason for slots
for last in '\002\000\005\000' '\010\000\007\000\000\000\002\000\005\000' '\010\000\007\000\000\000\002\000\011\000'; do
    {
        repeat 2775 '\002\000\005\000'
        # shellcheck disable=SC2059 # a format of escapes alone
        printf "$last"
    } >"$room/file"
    case $last in
    '\002'*) expect "a listing of 65,532 bytes without slots" "$room/file" 65532 "END 2776" ;;
    *'\011\000') expect "the same with a last record that is broken" "$room/file" 65531 "END 2776" ;;
    *) expect "the same with slots by the last record alone" "$room/file" 10 "REFUSED 8" ;;
    esac
done
exit $fail
