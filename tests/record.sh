#!/bin/sh
# record.sh: what ./record writes and tells. Each line of tests/record.txt, with its bytes or its 3 and field; lines not known; what is
# skipped; a file and a text that are too long; and the event files of examples/, dumped and recorded again (tests/examples.sh has their
# sources).
set -eu
cd "$(dirname "$0")/.."
room=$(mktemp -d)
trap 'rm -rf "$room"' EXIT
right=0 wrong=0

# bytes HEX..: these bytes
bytes() {
    # shellcheck disable=SC2059 # the format is the escape of one byte
    for byte; do printf "\\$(printf '%03o' "0x$byte")"; done
}

# gives WHAT: the text $room/text is recorded as the bytes of $room/wanted, and nothing is told
gives() {
    got=0
    ./record "$room/text" >"$room/got" 2>"$room/err" || got=$?
    if [ $got -eq 0 ] && cmp -s "$room/wanted" "$room/got" && [ ! -s "$room/err" ]; then
        right=$((right + 1))
        return
    fi
    wrong=$((wrong + 1))
    echo "record: $1: NOT recorded as it should be: status $got, $(wc -c <"$room/got") bytes; told: $(cat "$room/err")"
}

# refuses WHAT TOLD: the text $room/text is refused and nothing written, TOLD being what is told
refuses() {
    got=0
    ./record "$room/text" >"$room/got" 2>"$room/err" || got=$?
    echo "record: $2" >"$room/told"
    if [ $got -eq 1 ] && [ ! -s "$room/got" ] && cmp -s "$room/told" "$room/err"; then
        right=$((right + 1))
        return
    fi
    wrong=$((wrong + 1))
    echo "record: $1: NOT refused as it should be: status $got, $(wc -c <"$room/got") bytes; told: $(cat "$room/err")"
}

first="REFUSED 3: field 1 is out of its range"
unknown="not known: no record has these words"
full="REFUSED 8: the file would have more than 65,536 bytes"

# each line that is known, by itself; those in range once more, all together
: >"$room/every"
: >"$room/words"
grep -E '^[^#]' tests/record.txt >"$room/lines"
while IFS= read -r line; do
    words=${line% = *} answer=${line##* = }
    printf '%s\n' "$words" >"$room/text"
    if [ "${answer% [1-7]}" = 3 ]; then
        printf 'EXPIRY\n# a remark\n\n%s\nEXPIRY\nno words\n' "$words" >"$room/text"
        refuses "$words" "line 4: REFUSED 3: field ${answer#3 } is out of its range"
    else
        # shellcheck disable=SC2086 # a byte a word
        bytes $answer >"$room/wanted"
        gives "$words"
        cat "$room/wanted" >>"$room/every"
        cat "$room/text" >>"$room/words"
    fi
done <"$room/lines"
[ -s "$room/every" ] || wrong=$((wrong + 1))
cp "$room/every" "$room/wanted"
cp "$room/words" "$room/text"
gives "all lines in range"

# the same with what is skipped: ordinals and places, the first line of a dump, remarks, blank lines; and no newline at the end
awk 'BEGIN { print "RECORDS 7" } { print NR, 0, $0; print ""; print " \t "; print "# TIME 5"; print "#" }' "$room/words" >"$room/text"
gives "lines of a dump, remarks and blank lines"
printf %s "$(cat "$room/words")" >"$room/text"
gives "a last line without a newline"
: >"$room/wanted"
: >"$room/text"
gives "an empty text"
printf '\n# nothing\n\n' >"$room/text"
gives "a text of remarks"
printf 'RECORDS 0\n' >"$room/text"
gives "the dump of an empty file"

# lines that are not known, as printf has them
while IFS= read -r line; do
    # shellcheck disable=SC2059 # the line is the format
    { printf 'EXPIRY\n# a remark\n\n' && printf -- "$line" && printf '\nEXPIRY\nTIME 86401\n'; } >"$room/text"
    refuses "the line \"$line\"" "line 4: $unknown"
done <<'LAST'
time 60
Time 60
TIME
TIME 
TIME  60
 TIME 60
TIME 60 
TIME 60 60
TIME 060
TIME 00
TIME +60
TIME -1
TIME 6O
TIME 60.
TIME 0x3C
TIME 4294967296
TIME 4294967356
TIME 18446744073709551616
TIME 18446744073709551676
TIME 340282366920938463463374607431768211516
TIME\t60
TIME 60\t
\tTIME 60
TIME:60
TIME,60
EXPIRY 0
EXPIRY EXPIRY
EXPIRY 
 EXPIRY
EXPIR
EXPIRYS
expiry
OPENING
OPENING originating
OPENING originating -
OPENING originating - 
OPENING originating  - 5550100
OPENING originating - 5550100 5550100
OPENING originating - ++5550100
OPENING originating - 5550100+
OPENING originating - +
OPENING originating - + 5550100
OPENING originating + 5550100
OPENING +originating - 5550100
OPENING originating +interaction 5550100
OPENING +2 - 5550100
OPENING originating 5550100
OPENING - originating 5550100
OPENING 0 - 5550100
OPENING 1 - 5550100
OPENING 02 - 5550100
OPENING 256 - 5550100
OPENING Originating - 5550100
OPENING transit - 5550100
OPENING originating 0 5550100
OPENING originating 8 5550100
OPENING originating 31 5550100
OPENING originating 032 5550100
OPENING originating 256 5550100
OPENING originating interaction,transfer 5550100
OPENING originating transfer,transfer 5550100
OPENING originating transfer,option,subscribed,interaction,case-d,case-d 5550100
OPENING originating transfer,option,subscribed,interaction,case-d,transfer 5550100
OPENING originating transfer, 5550100
OPENING originating ,transfer 5550100
OPENING originating transfer,,option 5550100
OPENING originating transfer,-- 5550100
OPENING originating -,transfer 5550100
OPENING originating transfer option 5550100
OPENING originating transfer,32 5550100
OPENING originating case-D 5550100
OPENING originating  5550100
REQUEST
REQUEST A
REQUEST A 
REQUEST a 5550123
REQUEST D 5550123
REQUEST 0 5550123
REQUEST 3 -
REQUEST 256 -
REQUEST AB 5550123
REQUEST A 555 0123
REQUEST A 555-0123
REQUEST A 5550123x
REQUEST A ++5550123
REQUEST A ++5
REQUEST A +
REQUEST A ++
REQUEST A +-
REQUEST A -+
REQUEST A +-5
REQUEST A -5
REQUEST A 5+5
REQUEST A 5550123+
REQUEST A +5550123+
REQUEST A + 5
REQUEST A + 5550123
REQUEST A + -
REQUEST A  +5550123
REQUEST A +5550123 
REQUEST A +555 0123
REQUEST A +555-0123
REQUEST A +5550123x
REQUEST A +x
REQUEST A 005550123:
REQUEST A +1234567890123456
REQUEST A +0000000000000000
REQUEST A +7:5550123
REQUEST A +0:00
REQUEST A +:0
REQUEST A +0:
REQUEST A +:
REQUEST A 0:+0
REQUEST A 16:+5
REQUEST A +16:+5
REQUEST A ++16:5
REQUEST A 16+:5
REQUEST A 16:5+
REQUEST A +016:5
REQUEST A +16:05
REQUEST A + 16:5
REQUEST A +16 :5
REQUEST A 128:0
REQUEST A 128:1
REQUEST A 135:5550123
REQUEST A +128:0
REQUEST A +135:5550123
REQUEST A 255:18446744073709551615
REQUEST A +255:18446744073709551615
REQUEST +A 5550123
+REQUEST A 5550123
REQUEST A 1234567890123456
REQUEST A 0000000000000000
REQUEST A 7:5550123
REQUEST A 0:0
REQUEST A 256:1
REQUEST A 016:1
REQUEST A 16:01
REQUEST A 16:
REQUEST A :16
REQUEST A :
REQUEST A 16:1:1
REQUEST A 16;1
REQUEST A 16:18446744073709551616
REQUEST A --
IAM
IAM 
IAM x
IAM -
IAM 016
IAM 256
IAM 272
iam 0
SAM 0
IAM0
MESSAGE
MESSAGE 0
MESSAGE 1 0
MESSAGE 5 0
MESSAGE 06 0
MESSAGE 256 0
MESSAGE IAM 0
FAC 0 NONE
FAC 0 NONE 0
FAC 0 INVOKE
FAC 0 INVOKE 
FAC 0 INVOKE 1
FAC 0 INVOKE SET-UP
FAC 0 INVOKE setup
FAC 0 INVOKE CALLING
FAC 0 INVOKE SETUP SETUP
FAC 0 INVOKE SETUP RESULT SETUP
FAC 0 RESULT 3
FAC 0 RESULT TRANSFER
FAC 0 ERROR
FAC 0 ERROR 012
FAC 0 ERROR 256
FAC 0 ERROR NONE
FAC 0 REJECT 0
FAC 0 REJECT 07
FAC 0 REJECT 7 7
FAC 0 COMPONENT
FAC 0 COMPONENT 5
FAC 0 COMPONENT 0 0
FAC 0 COMPONENT 4 0
FAC 0 COMPONENT 5 256
FAC 0 COMPONENT 256 0
FAC 0 ACCEPTED TRANSFER
FAC 0 TRANSFER TRANSFER
FAC 0 TRANSFER ACCEPTED AS-TRANSFER PARTIAL TRANSFER
FAC 0 TRANSFER  ACCEPTED
FAC 0 TRANSFER,ACCEPTED
FAC 0 transfer
FAC 0 ASTRANSFER
FAC 0 TRANSFER INVOKE SETUP
FAC 0 CALLING
FAC 0 CALLING CALLED 5550123
FAC 0 CALLED 5550123 CALLING 5550100
FAC 0 CALLING 5550100 CALLING 5550100
FAC 0 CALLING 5550100 TRANSFER
FAC 0 CALLING +
FAC 0 CALLING + 5550100
FAC 0 CALLING 5550100+
FAC 0 CALLING ++5550100
FAC 0 CALLING +-
FAC 0 +CALLING 5550100
FAC 0 CALLING+ 5550100
FAC +0 CALLING 5550100
FAC 0 CALLED
FAC 0 CALLED + 5550123
FAC 0 INVOKE CALLED 5550123
FAC 0 INVOKE CALLED +5550123
FAC 0 DURATION
FAC 0 DURATION -
FAC 0 DURATION 040
FAC 0 DURATION +40
FAC 0 DURATION 4294967296
FAC 0 DURATION 40 CALLED 5550123
FAC 0 PART
FAC 0 PART 64
FAC 0 PART 0128
FAC 0 PART 128 PART 128
FAC 0 PART 128 DURATION 40
FAC 0 16
ACCESS
ACCESS CLEAR
ACCESS CLEAR 
ACCESS CLEAR -
ACCESS CLEAR 00
ACCESS CLEAR 256
ACCESS CLEAR 0 0
ACCESS clear 0
ACCESS SETUP 0
ACCESS 1 0
ACCESS 5 0
ACCESS 06 0
ACCESS 256 0
SLOT
SLOT 
SLOT 5
SLOT 5 
SLOT EXPIRY
SLOT EXPIRY 5
SLOT  5 EXPIRY
SLOT 5  EXPIRY
SLOT 5 EXPIRY 
 SLOT 5 EXPIRY
SLOT\t5 EXPIRY
SLOT 5\tEXPIRY
SLOT5 EXPIRY
SLOT 5EXPIRY
SLOT,5 EXPIRY
SLOT:5 EXPIRY
SLOT 5: EXPIRY
SLOTS 5 EXPIRY
SLO 5 EXPIRY
slot 5 EXPIRY
Slot 5 EXPIRY
SLOT 05 EXPIRY
SLOT 00 EXPIRY
SLOT +5 EXPIRY
SLOT -1 EXPIRY
SLOT - EXPIRY
SLOT x EXPIRY
SLOT 5x EXPIRY
SLOT 0x5 EXPIRY
SLOT 65536 EXPIRY
SLOT 65541 EXPIRY
SLOT 99999 EXPIRY
SLOT 4294967301 EXPIRY
SLOT 18446744073709551621 EXPIRY
SLOT 340282366920938463463374607431768211461 EXPIRY
SLOT 5 5 EXPIRY
SLOT 5 1 0 EXPIRY
SLOT 5 SLOT 5 EXPIRY
SLOT 5 SLOT 6 TIME 60
SLOT 5 TIME
SLOT 5 TIME 060
SLOT 5 TIME 60 60
SLOT 5 time 60
SLOT 5 OPENING 0 - 5550100
SLOT 5 CUT-SHORT
SLOT 5 RECORDS 1
SLOT 5 # a remark
1 SLOT 5 EXPIRY
EXPIRY SLOT 5
TIME 60 SLOT 5
CUT-SHORT
BAD-LENGTH
UNKNOWN-KIND
4 37 CUT-SHORT
RECORDS 7
RECORDS
REFUSED 8
REV 1
END 7
==> examples/room-pays.rev <==
1
1 0
1 0 
1 EXPIRY
1 0 0 EXPIRY
1  0 EXPIRY
 1 0 EXPIRY
1 0  EXPIRY
-1 0 EXPIRY
1. 0 EXPIRY
1 x EXPIRY
 # a remark
\\
%%
\000
EXPIRY\000
\000EXPIRY
TIME 6\260
TIME 6\200
EXPIRY\200
\303\226PENING originating - 5550100
\357\273\277EXPIRY
EXPIRY\014
EXPIRY\r 
\rEXPIRY
EX\rPIRY
LAST

# a line that ends in a carriage return, and one that is all of it
for line in 'EXPIRY' 'no words' ''; do
    printf 'EXPIRY\n# a remark\r\n%s\r\nEXPIRY\n' "$line" >"$room/text"
    refuses "the line \"$line\" and a carriage return" "line 3: not known: it ends in a carriage return"
done
# the first line of a dump: not in another place, and not with other words
for line in 'RECORDS' 'RECORDS ' 'RECORDS 7 ' 'RECORDS 7 7' 'RECORDS x' 'records 7' ' RECORDS 7'; do
    printf '%s\nEXPIRY\n' "$line" >"$room/text"
    refuses "the first line \"$line\"" "line 1: $unknown"
done
printf '# a remark\nRECORDS 1\nEXPIRY\n' >"$room/text"
refuses "the first line of a dump, as the second" "line 2: $unknown"
# the first bad line is told, whichever it is
printf 'EXPIRY\nTIME 86401\nno words\n' >"$room/text"
refuses "a field out of range, then words that are not known" "line 2: $first"
printf 'EXPIRY\nno words\nTIME 86401' >"$room/text"
refuses "words that are not known, then a field out of range" "line 2: $unknown"
printf 'EXPIRY\nTIME 86401' >"$room/text"
refuses "a last line without a newline, out of range" "line 2: $first"

# long lines: words that are known, and more; a remark
long() {
    awk -v start="$1" 'BEGIN { printf "EXPIRY\n%s", start; for (i = 0; i < 100000; i++) printf " 8"; print "" }' >"$room/text"
}
for start in x 'TIME 60' 'FAC 0 TRANSFER'; do
    long "$start"
    refuses "a long line, \"$start\" and more" "line 2: $unknown"
done
long '#'
bytes 02 00 05 00 >"$room/wanted"
gives "a long remark"

# a file of 65,536 bytes, and longer ones; 3 comes before 8
expiries() {
    awk -v n="$1" 'BEGIN { for (i = 0; i < n; i++) print "EXPIRY" }'
}
bytes 02 00 05 00 >"$room/wanted"
while [ "$(wc -c <"$room/wanted")" -lt 65536 ]; do
    cat "$room/wanted" "$room/wanted" >"$room/twice"
    mv "$room/twice" "$room/wanted"
done
expiries 16384 >"$room/text"
gives "16,384 expiries, the most records that a file has"
expiries 16385 >"$room/text"
refuses "a record more than that" "line 16385: $full"
{ expiries 16383 && echo "TIME 60"; } >"$room/text"
refuses "a last record that is too long" "line 16384: $full"
{ expiries 16384 && echo "TIME 86401"; } >"$room/text"
refuses "a record out of range where there is no room" "line 16385: $first"
{ expiries 16384 && echo "no words"; } >"$room/text"
refuses "words that are not known where there is no room" "line 16385: $unknown"
# the same with records in slots, of 10 bytes: 6 bytes are left, which a plain record of as many words fills
in_slots() {
    awk -v n="$1" 'BEGIN { for (i = 0; i < n; i++) print "SLOT 513 EXPIRY" }'
}
bytes 08 00 07 00 01 02 02 00 05 00 >"$room/wanted"
while [ "$(wc -c <"$room/wanted")" -lt 65530 ]; do
    cat "$room/wanted" "$room/wanted" >"$room/twice"
    head -c 65530 "$room/twice" >"$room/wanted"
done
bytes 04 00 04 00 04 00 >>"$room/wanted"
{ in_slots 6553 && echo "ACCESS CLEAR 0"; } >"$room/text"
gives "6,553 expiries in slots and a record of 6 bytes"
in_slots 6554 >"$room/text"
refuses "a record in a slot that is too long, where a plain one is not" "line 6554: $full"
{ in_slots 6553 && echo "SLOT 5 TIME 86401"; } >"$room/text"
refuses "a record in a slot out of range where there is no room" "line 6554: $first"

# the longest text, and a longer one
: >"$room/wanted"
awk 'BEGIN { for (i = 0; i < 1048576; i++) print "" }' >"$room/text"
gives "1,048,576 bytes of text"
echo >>"$room/text"
refuses "a byte more of text" "REFUSED 8: the text has more than 1,048,576 bytes"
awk 'BEGIN { print "no words"; for (i = 0; i < 1048576; i++) print "" }' >"$room/text"
refuses "a text too long whose first line is not known" "REFUSED 8: the text has more than 1,048,576 bytes"

# the longest dump in range
awk 'BEGIN { for (i = 0; i < 7281; i++) print "REL 127 ERROR 255 TRANSFER ACCEPTED AS-TRANSFER PARTIAL" }' >"$room/text"
bytes 07 00 03 00 04 7F 03 FF 0F >"$room/wanted"
while [ "$(wc -c <"$room/wanted")" -lt 65529 ]; do
    cat "$room/wanted" "$room/wanted" >"$room/twice"
    head -c 65529 "$room/twice" >"$room/wanted"
done
gives "7,281 messages with all the words that 9 bytes in range can have"
./dump "$room/wanted" >"$room/text"
gives "their dump, the longest in range"

# the examples: dumped and recorded again
for file in examples/*.rev; do
    cp "$file" "$room/wanted"
    ./dump "$file" >"$room/text"
    if tail -n 1 "$room/text" | grep -q CUT-SHORT; then
        refuses "the dump of $file" "line $(wc -l <"$room/text"): $unknown"
        place=$(tail -n 1 "$room/text" | cut -d ' ' -f 2)
        head -c "$place" "$file" >"$room/wanted"
        sed '$d' "$room/text" >"$room/less"
        mv "$room/less" "$room/text"
    fi
    gives "the dump of $file"
done
echo "record: $right as expected, $wrong not"
[ "$wrong" -eq 0 ] && [ "$right" -gt 0 ]
