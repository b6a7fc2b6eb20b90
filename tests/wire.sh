#!/bin/sh
# wire.sh: what ./wire prints, writes and tells. Every line of tests/wire.txt and wire-own.txt, in hexadecimal text and in bytes: C a
# component, P a parameter, W the other way. Then inputs that are no such text or line, blanks, what is too long, and the options.
set -eu
cd "$(dirname "$0")/.."
room=$(mktemp -d)
trap 'rm -rf "$room"' EXIT
right=0 wrong=0 ran=0
: >"$room/wanted"

# bytes HEX..: these bytes
bytes() {
    # shellcheck disable=SC2059 # the format is the escape of one byte
    for byte; do printf "\\$(printf '%03o' "0x$byte")"; done
}

# gives WHAT STATUS TOLD OPTIONS..: the input $room/input has the answer $room/wanted, which is empty again afterwards; TOLD is told
gives() {
    what=$1 status=$2 told=$3
    shift 3
    got=0
    ./wire "$@" "$room/input" >"$room/got" 2>"$room/err" || got=$?
    [ -z "$told" ] || echo "wire: $told" >"$room/told"
    [ -n "$told" ] || : >"$room/told"
    if [ $got -eq "$status" ] && cmp -s "$room/wanted" "$room/got" && cmp -s "$room/told" "$room/err"; then
        right=$((right + 1))
    else
        wrong=$((wrong + 1))
        echo "wire: $what: NOT as it should be: status $got, $(head -c 200 "$room/got"); told: $(cat "$room/err")"
    fi
    : >"$room/wanted"
}

# wanted ANSWER: an answer of the cases, as ./wire has it
wanted() {
    case $1 in
    0\ *) echo "${1#0 }" | sed 's/; /\n/g' ;;
    *) echo "REFUSED ${1%% @*} ${1##*@}" ;;
    esac >"$room/wanted"
}

# reads LINE HEX ANSWER [-c]: a case of the readers
reads() {
    line=$1 hex=$2 answer=$3
    shift 3
    [ "$hex" != . ] || hex=
    echo "$hex" >"$room/input"
    wanted "$answer"
    gives "$line" 0 "" "$@" -x
    # shellcheck disable=SC2086 # a byte a word
    bytes $hex >"$room/input"
    wanted "$answer"
    gives "$line (in bytes)" 0 "" "$@"
}

# writes LINE ROOM WORDS ANSWER: a case of the writer
writes() {
    echo "$3" >"$room/input"
    case $4 in
    3 | 8)
        echo "REFUSED $4" >"$room/wanted"
        gives "$1" 0 "" -w "$2"
        echo "REFUSED $4" >"$room/wanted"
        ;;
    *)
        # shellcheck disable=SC2086 # a byte a word
        bytes $4 >"$room/wanted"
        gives "$1 (in bytes)" 0 "" -w "$2"
        echo "$4" >"$room/wanted"
        ;;
    esac
    gives "$1" 0 "" -w "$2" -x
}

# ---- every case
cat tests/wire.txt tests/wire-own.txt >"$room/cases"
while IFS= read -r line; do
    case $line in '' | '#'*) continue ;; esac
    case=${line%%   #*}
    input=${case%% => *} answer=${case#* => }
    case $input in
    C\ *) reads "$line" "${input#C }" "$answer" -c ;;
    P\ *) reads "$line" "${input#P }" "$answer" ;;
    W\ *)
        rest=${input#W }
        writes "$line" "${rest%% *}" "${rest#* }" "$answer"
        ;;
    *)
        echo "wire: no such case: $line"
        wrong=$((wrong + 1))
        continue
        ;;
    esac
    ran=$((ran + 1))
done <"$room/cases"
all=$(grep -c '^[^#]' "$room/cases")
echo "wire: $ran of the $all cases were run, each in hexadecimal text and in bytes"
[ "$ran" -eq "$all" ] || wrong=$((wrong + 1))

# ---- hexadecimal text: blanks and line ends anywhere, capitals and small letters
while IFS= read -r text; do
    # shellcheck disable=SC2059 # the line is the format
    printf "$text" >"$room/input"
    echo "ERROR 5 ID 0A" >"$room/wanted"
    gives "the text \"$text\"" 0 "" -x
done <<'END'
320F91A30C02010A0607001185600301 05
320f91a30c02010a060700118560030105\n
32 0F 91 A3 0C 02 01 0A 06 07 00 11 85 60 03 01 05
32\n0F\n91\nA3 0c\t02\t01 0a 06 07 00 11 85 60 03 01 05\n\n
  32 0F 91 A3 0C 02 01 0A 06 07 00 11 85 60 03 01 05  \n
32 0F 91 A3 0C 02 01 0A\r\n06 07 00 11 85 60 03 01 05\r\n
3 20 F9 1A 30 C0 20 10 A0 60 70 01 18 56 00 30 10 5
\n\n3\n2\n0F 91 A3 0C 02 01 0A 06 07 00 11 85 60 03 01 05
END
while IFS= read -r text; do
    # shellcheck disable=SC2059 # the line is the format
    printf "$text" >"$room/input"
    gives "the text \"$text\"" 1 "not hexadecimal: not two digits an octet, with blanks and line ends" -x
done <<'END'
3
32 0
32 01 9
32 01 91 0
32 01 9G
32 01 91 g
32 01 91:
32 01 91 @
32 01 91 /
32 01 91 `
32-01-91
0x32 01 91
32,01,91
32 01 91 .
32 01 91\v
32 01 91\f
32 01 91\0
32 01 91 \303\204
END
echo "REFUSED 11 0" >"$room/wanted"
printf ' \n\t\r\n' >"$room/input"
gives "a text of blanks" 0 "" -x

# ---- lines that are understood, and refused or written
while IFS= read -r line; do
    writes "$line" "${line%% *}" "$(expr "$line" : '[0-9]* \(.*\) = ')" "${line##* = }"
done <<'END'
255 INVOKE SETUP ID 01 TRANSFER CALLING 5550123 = A1 19 02 01 01 06 07 00 11 85 60 03 01 01 30 0B 80 01 FF 81 06 83 13 55 05 21 03
27 INVOKE SETUP ID 01 TRANSFER CALLING 5550123 = A1 19 02 01 01 06 07 00 11 85 60 03 01 01 30 0B 80 01 FF 81 06 83 13 55 05 21 03
26 INVOKE SETUP ID 01 TRANSFER CALLING 5550123 = 8
65535 RESULT CALLED ID FF DURATION 0 = A2 15 02 01 FF 30 10 06 07 00 11 85 60 03 01 03 30 05 82 03 00 00 00
255 RESULT SETUP ID AF ACCEPTED = A2 13 02 01 AF 30 0E 06 07 00 11 85 60 03 01 01 30 03 80 01 00
0 REJECT ID 00 = 8
8 REJECT ID 00 = A4 06 02 01 00 80 01 00
7 REJECT ID 00 = 8
255 INVOKE SETUP ID 01 CALLING 7:5550123 = A1 16 02 01 01 06 07 00 11 85 60 03 01 01 30 08 81 06 83 13 55 05 21 03
255 INVOKE SETUP ID 01 CALLING +7:5550123 = A1 16 02 01 01 06 07 00 11 85 60 03 01 01 30 08 81 06 84 13 55 05 21 03
255 INVOKE SETUP ID 01 CALLING 15:999999999999999 = A1 1A 02 01 01 06 07 00 11 85 60 03 01 01 30 0C 81 0A 83 13 99 99 99 99 99 99 99 09
255 INVOKE SETUP ID 01 CALLING 15:1000000000000000 = 3
255 INVOKE SETUP ID 01 CALLING 16:5 = 3
255 INVOKE SETUP ID 01 CALLING 0:0 = 3
255 INVOKE SETUP ID 01 CALLING +0:5 = 3
255 INVOKE SETUP ID 01 CALLING 127:18446744073709551615 = 3
255 INVOKE SETUP ID 01 CALLING 1234567890123456 = 3
255 INVOKE SETUP ID 01 CALLING 12 CALLED 1:10 = 3
255 INVOKE SETUP ID 01 CALLING 1:10 CALLED 12 = 3
255 INVOKE SETUP ID 01 DURATION 4294967295 = 3
255 INVOKE CALLED ID 01 TRANSFER ACCEPTED AS-TRANSFER PARTIAL CALLING 1 CALLED 2 DURATION 3 = 3
255 RESULT CALLED ID 01 CALLING 1 CALLED 2 = 3
255 INVOKE 0 ID 01 = 3
255 RESULT 4 ID 01 = 3
255 INVOKE 255 ID 01 = 3
255 INVOKE SETUP ID - = 3
255 ERROR 0 ID 01 = 3
255 ERROR 3 ID 01 = 3
255 ERROR 12 ID 01 = A3 0C 02 01 01 06 07 00 11 85 60 03 01 0C
255 ERROR 5 ID 01 TRANSFER = 3
255 REJECT ID 01 DURATION 0 = 3
END

# a line without its end, and with the end alone
printf 'REJECT ID -' >"$room/input"
echo "A4 05 05 00 80 01 00" >"$room/wanted"
gives "a line without an end" 0 "" -w 255 -x

# ---- lines that are not understood, as printf has them
unknown="not understood: no component has this line"
while IFS= read -r line; do
    # shellcheck disable=SC2059 # the line is the format
    printf -- "$line\n" >"$room/input"
    gives "the line \"$line\"" 1 "$unknown" -w 255 -x
    gives "the line \"$line\"" 1 "$unknown" -w 0
done <<'END'

INVOKE
INVOKE SETUP
INVOKE SETUP ID
INVOKE ID 01
INVOKE SETUP 01
invoke SETUP ID 01
INVOKE Setup ID 01
INVOKE setup ID 01
INVOKE 1 ID 01
INVOKE 2 ID 01
RESULT 3 ID 01
INVOKE 256 ID 01
INVOKE 04 ID 01
INVOKE SETUP id 01
INVOKE SETUP ID 1
INVOKE SETUP ID 001
INVOKE SETUP ID 0a
INVOKE SETUP ID 0G
INVOKE SETUP ID --
INVOKE SETUP ID 256
 INVOKE SETUP ID 01
INVOKE SETUP ID 01 
INVOKE  SETUP ID 01
INVOKE SETUP  ID 01
INVOKE\tSETUP ID 01
INVOKE SETUP ID 01\t
INVOKE SETUP ID 01\r
INVOKE SETUP ID 01\n
INVOKE SETUP ID 01\nREJECT ID -
INVOKE SETUP ID 01\n\n
\nINVOKE SETUP ID 01
INVOKE SETUP ID 01\0
INVOKE SETUP ID 01 NEXT 16
INVOKE SETUP ID 01 transfer
INVOKE SETUP ID 01 TRANSFER TRANSFER
INVOKE SETUP ID 01 PARTIAL TRANSFER
INVOKE SETUP ID 01 CALLING
INVOKE SETUP ID 01 CALLING 
INVOKE SETUP ID 01 CALLING -
INVOKE SETUP ID 01 CALLING +
INVOKE SETUP ID 01 CALLING +-
INVOKE SETUP ID 01 CALLING ++5550123
INVOKE SETUP ID 01 CALLING 5550123+
INVOKE SETUP ID 01 CALLING + 5550123
INVOKE SETUP ID 01 CALLING 555O123
INVOKE SETUP ID 01 CALLING 555-0123
INVOKE SETUP ID 01 CALLING 0x12
INVOKE SETUP ID 01 CALLING :
INVOKE SETUP ID 01 CALLING :5
INVOKE SETUP ID 01 CALLING 7:
INVOKE SETUP ID 01 CALLING 07:5550123
INVOKE SETUP ID 01 CALLING 7:05550123
INVOKE SETUP ID 01 CALLING 7:+5550123
INVOKE SETUP ID 01 CALLING 7:5550123:
INVOKE SETUP ID 01 CALLING 128:5
INVOKE SETUP ID 01 CALLING 135:5550123
INVOKE SETUP ID 01 CALLING 263:5550123
INVOKE SETUP ID 01 CALLING 7:18446744073709551616
INVOKE SETUP ID 01 CALLING 7:18446744073715101739
INVOKE SETUP ID 01 CALLING 18446744073715101739
INVOKE SETUP ID 01 CALLED 12 CALLING 12
INVOKE SETUP ID 01 CALLING 12 CALLING 12
INVOKE SETUP ID 01 DURATION
INVOKE SETUP ID 01 DURATION -
INVOKE SETUP ID 01 DURATION 040
INVOKE SETUP ID 01 DURATION 4294967296
INVOKE SETUP ID 01 DURATION 40 CALLING 12
INVOKE SETUP ID 01 PART 128
INVOKE SETUP ID 01; REJECT ID -
INVOKE SETUP ID 01 TRANSFER ACCEPTED AS-TRANSFER PARTIAL CALLING 1 CALLED 2 DURATION 3 DURATION 3
ERROR ID 01
ERROR -1 ID 01
ERROR 05 ID 01
ERROR 256 ID 01
ERROR 5
ERROR SETUP ID 01
REJECT
REJECT 0 ID 01
REJECT 7 ID 01
REJECT ID
REJECT ID 0
NONE
REFUSED 3
COMPONENT 5 ID 01
A1 0E 02 01 01 06 07 00 11 85 60 03 01 01 30 00
# a remark
END
: >"$room/input"
gives "no line" 1 "$unknown" -w 255
head -c 70000 /dev/zero | tr '\0' ' ' >"$room/input"
gives "a line of 70,000 blanks" 1 "$unknown" -w 255
{ printf 'INVOKE SETUP ID 01 CALLING ' && head -c 128 /dev/zero | tr '\0' 1 && echo; } >"$room/input"
gives "a number of 128 digits" 1 "$unknown" -w 255
{ printf 'INVOKE SETUP ID 01 CALLING ' && head -c 127 /dev/zero | tr '\0' 1 && echo; } >"$room/input"
gives "a number of 127 digits whose value is not one of 64 bits" 1 "$unknown" -w 255
words="RESULT CALLED ID 01 TRANSFER ACCEPTED AS-TRANSFER PARTIAL"
printf '%s CALLING +%0127d CALLED +%0127d DURATION 4294967295\n' "$words" 1 2 >"$room/input"
echo "REFUSED 3" >"$room/wanted"
gives "the longest line" 0 "" -w 255

# ---- sizes: a component that the bytes end in, and a byte more
# an invoke whose SEQUENCE holds an element that is not known, of two bytes, again and again
awk 'BEGIN { for (i = 0; i < 32758; i++) printf "\\205\\000" }' >"$room/escapes"
bytes A1 82 FF FC 02 01 01 06 07 00 11 85 60 03 01 01 30 82 FF EC >"$room/longest"
# shellcheck disable=SC2059 # a format of escapes alone
printf "$(cat "$room/escapes")" >>"$room/longest"
cp "$room/longest" "$room/input"
echo "INVOKE SETUP ID 01 NEXT 65536" >"$room/wanted"
gives "a component of 65,536 bytes" 0 "" -c
od -An -v -tx1 "$room/longest" >"$room/input"
echo "INVOKE SETUP ID 01 NEXT 65536" >"$room/wanted"
gives "a component of 65,536 bytes, in hexadecimal text" 0 "" -c -x
{ cat "$room/longest" && printf '\205'; } >"$room/input"
echo "REFUSED 8" >"$room/wanted"
gives "65,537 bytes" 0 "" -c
echo "REFUSED 8" >"$room/wanted"
gives "65,537 bytes as a parameter" 0 ""
od -An -v -tx1 "$room/input" >"$room/text"
mv "$room/text" "$room/input"
echo "REFUSED 8" >"$room/wanted"
gives "65,537 bytes, in hexadecimal text" 0 "" -x -c
cp "$room/longest" "$room/input"
echo "REFUSED 12 0" >"$room/wanted"
gives "65,536 bytes as a parameter" 0 ""
{ bytes 33 32 20 30 31 20 39 31 && head -c 262136 /dev/zero | tr '\0' ' '; } >"$room/input"
echo "NONE" >"$room/wanted"
gives "a text of 262,144 bytes" 0 "" -x
printf ' ' >>"$room/input"
echo "REFUSED 8" >"$room/wanted"
gives "a text of 262,145 bytes" 0 "" -x
# a parameter of 36 components, the most that there are
bytes 32 FD 91 >"$room/input"
for _ in 1 2 3 4 5 6; do
    for _ in 1 2 3 4 5 6; do bytes A4 05 05 00 80 01 00; done
done >>"$room/input"
awk 'BEGIN { for (i = 1; i <= 36; i++) print "REJECT ID -" }' >"$room/wanted"
gives "a parameter of 36 components" 0 ""

# ---- options
bytes 32 01 91 >"$room/input"
echo NONE >"$room/wanted"
gives "-- before the file" 0 "" --
printf '05' >"$room/input"
for options in "-c -x" "-x -c" "-c -x -c -x" "-x -c --"; do
    echo "REFUSED 11 0" >"$room/wanted"
    # shellcheck disable=SC2086 # an option a word
    gives "$options" 0 "" $options
done
echo "REJECT ID -" >"$room/input"
for options in "-w 7 -x" "-x -w 7" "-w 00007 -x" "-w 65535 -x --"; do
    echo "A4 05 05 00 80 01 00" >"$room/wanted"
    # shellcheck disable=SC2086 # an option a word
    gives "$options" 0 "" $options
done
either="-c and -w are one or the other: wire --help says more"
gives "-c and -w" 2 "$either" -c -w 7
gives "-w and -c" 2 "$either" -w 7 -c
gives "-w twice" 2 "$either" -w 7 -w 8
bad="-w takes a room, 0 to 65535: wire --help says more"
for size in -1 +1 65536 99999 100000 000001 18446744073709551623 7x x 0x7 -x "" " " "7 8" -- .; do
    gives "a room \"$size\"" 2 "$bad" -w "$size"
done
for option in -p -X -cx -w7 -v --hex -c=1; do
    gives "$option" 2 "$option is no option: wire --help says which there are" $option
    gives "$option after -c" 2 "$option is no option: wire --help says which there are" -c $option
done

echo "wire: $right as expected, $wrong not"
[ "$wrong" -eq 0 ] && [ "$right" -gt 0 ]
