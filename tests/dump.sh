#!/bin/sh
# dump.sh [COMMAND..]: dumps of small files and of the largest, by ./dump or another command that reads standard input.
set -eu
cd "$(dirname "$0")/.."
[ $# -gt 0 ] || set -- ./dump
mkdir -p target/dump
failed=0

check() {
    "$@" <target/dump/file >target/dump/got
    if cmp -s target/dump/wanted target/dump/got; then
        echo "dump: $what: as expected"
    else
        echo "dump: $what: NOT as expected"
        diff target/dump/wanted target/dump/got | head -n 10
        failed=1
    fi
}

# bytes HEX..: the bytes of a file
bytes() {
    # shellcheck disable=SC2059 # the format is the escape of one byte
    for byte; do printf "\\$(printf '%03o' "0x$byte")"; done >target/dump/file
}

# fill BYTES: the records of the file again and again, as far as a file of so many bytes goes
fill() {
    while [ "$(wc -c <target/dump/file)" -lt "$1" ]; do
        cat target/dump/file target/dump/file >target/dump/twice
        mv target/dump/twice target/dump/file
    done
    head -c "$1" target/dump/file >target/dump/twice
    mv target/dump/twice target/dump/file
}

what="an empty file"
bytes
printf 'RECORDS 0\n' >target/dump/wanted
check "$@"

what="each kind, then a record that is cut short"
bytes 0D 00 01 00 00 09 07 14 B0 54 00 00 00 00 00 \
    0C 00 02 00 02 00 00 00 00 00 00 00 00 00 \
    07 00 03 00 02 00 02 01 00 \
    04 00 04 00 04 00 \
    02 00 05 00 \
    06 00 06 00 3C 00 00 00 \
    06 00 06 00 08
cat >target/dump/wanted <<'END'
RECORDS 7
1 0 OPENING originating transfer,interaction 5550100
2 15 REQUEST B -
3 29 ANM 0 RESULT SETUP
4 38 ACCESS CLEAR 0
5 44 EXPIRY
6 48 TIME 60
7 56 CUT-SHORT
END
check "$@"

what="openings: roles and flags"
bytes 0D 00 01 00 00 00 07 14 B0 54 00 00 00 00 00 \
    0D 00 01 00 01 01 07 14 B0 54 00 00 00 00 00 \
    0D 00 01 00 02 02 07 14 B0 54 00 00 00 00 00 \
    0D 00 01 00 FF 04 07 14 B0 54 00 00 00 00 00 \
    0D 00 01 00 00 08 07 14 B0 54 00 00 00 00 00 \
    0D 00 01 00 00 10 07 14 B0 54 00 00 00 00 00 \
    0D 00 01 00 00 06 07 14 B0 54 00 00 00 00 00 \
    0D 00 01 00 01 1F 07 14 B0 54 00 00 00 00 00 \
    0D 00 01 00 07 20 07 14 B0 54 00 00 00 00 00 \
    0D 00 01 00 00 C8 07 14 B0 54 00 00 00 00 00 \
    0D 00 01 00 00 FF 07 14 B0 54 00 00 00 00 00
cat >target/dump/wanted <<'END'
RECORDS 11
1 0 OPENING originating - 5550100
2 15 OPENING destination transfer 5550100
3 30 OPENING 2 option 5550100
4 45 OPENING 255 subscribed 5550100
5 60 OPENING originating interaction 5550100
6 75 OPENING originating case-d 5550100
7 90 OPENING originating option,subscribed 5550100
8 105 OPENING destination transfer,option,subscribed,interaction,case-d 5550100
9 120 OPENING 7 32 5550100
10 135 OPENING originating 200 5550100
11 150 OPENING originating 255 5550100
END
check "$@"

what="requests, and numbers in range: none, leading zeros, 1 and 15 digits"
bytes 0C 00 02 00 00 07 2B B0 54 00 00 00 00 00 \
    0C 00 02 00 01 08 2B B0 54 00 00 00 00 00 \
    0C 00 02 00 02 00 00 00 00 00 00 00 00 00 \
    0C 00 02 00 03 01 00 00 00 00 00 00 00 00 \
    0C 00 02 00 04 01 09 00 00 00 00 00 00 00 \
    0C 00 02 00 09 0F 00 00 00 00 00 00 00 00 \
    0C 00 02 00 FF 0F FF 7F C6 A4 7E 8D 03 00 \
    0C 00 02 00 00 07 7F 96 98 00 00 00 00 00
cat >target/dump/wanted <<'END'
RECORDS 8
1 0 REQUEST BASIC 5550123
2 14 REQUEST A 05550123
3 28 REQUEST B -
4 42 REQUEST C 0
5 56 REQUEST 4 9
6 70 REQUEST 9 000000000000000
7 84 REQUEST 255 999999999999999
8 98 REQUEST BASIC 9999999
END
check "$@"

what="international numbers in range: the digits of one at home, leading zeros, 1 and 15 digits; in an opening and in messages"
bytes 0C 00 02 00 00 87 2B B0 54 00 00 00 00 00 \
    0C 00 02 00 00 07 2B B0 54 00 00 00 00 00 \
    0C 00 02 00 01 88 2B B0 54 00 00 00 00 00 \
    0C 00 02 00 03 81 00 00 00 00 00 00 00 00 \
    0C 00 02 00 04 81 09 00 00 00 00 00 00 00 \
    0C 00 02 00 09 8F 00 00 00 00 00 00 00 00 \
    0C 00 02 00 FF 8F FF 7F C6 A4 7E 8D 03 00 \
    0D 00 01 00 00 01 87 14 B0 54 00 00 00 00 00 \
    10 00 03 00 05 00 00 00 10 87 14 B0 54 00 00 00 00 00 \
    10 00 03 00 05 00 01 03 20 88 2B B0 54 00 00 00 00 00 \
    19 00 03 00 05 00 00 00 30 07 2B B0 54 00 00 00 00 00 87 2B B0 54 00 00 00 00 00 \
    19 00 03 00 05 00 00 00 30 87 2B B0 54 00 00 00 00 00 07 2B B0 54 00 00 00 00 00
cat >target/dump/wanted <<'END'
RECORDS 12
1 0 REQUEST BASIC +5550123
2 14 REQUEST BASIC 5550123
3 28 REQUEST A +05550123
4 42 REQUEST C +0
5 56 REQUEST 4 +9
6 70 REQUEST 9 +000000000000000
7 84 REQUEST 255 +999999999999999
8 98 OPENING originating transfer +5550100
9 113 FAC 0 CALLING +5550100
10 131 FAC 0 INVOKE CALLED CALLED +05550123
11 149 FAC 0 CALLING 5550123 CALLED +5550123
12 176 FAC 0 CALLING +5550123 CALLED 5550123
END
check "$@"

what="numbers out of range: count and value"
bytes 0C 00 02 00 00 00 05 00 00 00 00 00 00 00 \
    0C 00 02 00 00 07 80 96 98 00 00 00 00 00 \
    0C 00 02 00 00 10 00 00 00 00 00 00 00 00 \
    0C 00 02 00 00 14 05 00 00 00 00 00 00 00 \
    0C 00 02 00 00 01 0A 00 00 00 00 00 00 00 \
    0C 00 02 00 00 09 00 CA 9A 3B 00 00 00 00 \
    0C 00 02 00 00 09 01 CA 9A 3B 00 00 00 00 \
    0C 00 02 00 00 08 FF C9 9A 3B 00 00 00 00 \
    0C 00 02 00 00 0F 00 80 C6 A4 7E 8D 03 00 \
    0C 00 02 00 00 0F FF FF 63 A7 B3 B6 E0 0D \
    0C 00 02 00 00 0F 00 00 64 A7 B3 B6 E0 0D \
    0C 00 02 00 00 7F FF FF FF FF FF FF FF FF
cat >target/dump/wanted <<'END'
RECORDS 12
1 0 REQUEST BASIC 0:5
2 14 REQUEST BASIC 7:10000000
3 28 REQUEST BASIC 16:0
4 42 REQUEST BASIC 20:5
5 56 REQUEST BASIC 1:10
6 70 REQUEST BASIC 9:1000000000
7 84 REQUEST BASIC 9:1000000001
8 98 REQUEST BASIC 8:999999999
9 112 REQUEST BASIC 15:1000000000000000
10 126 REQUEST BASIC 15:999999999999999999
11 140 REQUEST BASIC 15:1000000000000000000
12 154 REQUEST BASIC 127:18446744073709551615
END
check "$@"

what="international numbers out of range: one without digits, and by count and value"
bytes 0C 00 02 00 02 80 00 00 00 00 00 00 00 00 \
    0C 00 02 00 00 80 05 00 00 00 00 00 00 00 \
    0C 00 02 00 00 83 E8 03 00 00 00 00 00 00 \
    0C 00 02 00 00 81 0A 00 00 00 00 00 00 00 \
    0C 00 02 00 00 90 00 00 00 00 00 00 00 00 \
    0C 00 02 00 00 90 05 00 00 00 00 00 00 00 \
    0C 00 02 00 00 8F 00 80 C6 A4 7E 8D 03 00 \
    0C 00 02 00 00 FF FF FF FF FF FF FF FF FF \
    0D 00 01 00 00 00 80 00 00 00 00 00 00 00 00 \
    1D 00 03 00 09 C8 FE FD FF 80 00 00 00 00 00 00 00 00 94 05 00 00 00 00 00 00 00 FF FF FF FF
cat >target/dump/wanted <<'END'
RECORDS 10
1 0 REQUEST B +0:0
2 14 REQUEST BASIC +0:5
3 28 REQUEST BASIC +3:1000
4 42 REQUEST BASIC +1:10
5 56 REQUEST BASIC +16:0
6 70 REQUEST BASIC +16:5
7 84 REQUEST BASIC +15:1000000000000000
8 98 REQUEST BASIC +127:18446744073709551615
9 112 OPENING originating - +0:0
10 127 MESSAGE 9 200 COMPONENT 254 253 TRANSFER ACCEPTED AS-TRANSFER PARTIAL CALLING +0:0 CALLED +20:5 DURATION 4294967295 PART 128
END
check "$@"

what="messages: names and causes"
bytes 07 00 03 00 01 00 00 00 00 \
    07 00 03 00 02 01 00 00 00 \
    07 00 03 00 03 10 00 00 00 \
    07 00 03 00 04 7F 00 00 00 \
    07 00 03 00 05 80 00 00 00 \
    07 00 03 00 00 00 00 00 00 \
    07 00 03 00 06 FF 00 00 00 \
    07 00 03 00 FF 00 00 00 00
cat >target/dump/wanted <<'END'
RECORDS 8
1 0 IAM 0
2 9 ANM 1
3 18 CON 16
4 27 REL 127
5 36 FAC 128
6 45 MESSAGE 0 0
7 54 MESSAGE 6 255
8 63 MESSAGE 255 0
END
check "$@"

what="messages: components"
bytes 07 00 03 00 05 00 00 05 00 \
    07 00 03 00 05 00 01 00 00 \
    07 00 03 00 05 00 01 01 00 \
    07 00 03 00 05 00 01 02 00 \
    07 00 03 00 05 00 01 03 00 \
    07 00 03 00 05 00 01 04 00 \
    07 00 03 00 05 00 02 00 00 \
    07 00 03 00 05 00 02 01 00 \
    07 00 03 00 05 00 02 02 00 \
    07 00 03 00 05 00 02 03 00 \
    07 00 03 00 05 00 02 FF 00 \
    07 00 03 00 05 00 03 00 00 \
    07 00 03 00 05 00 03 0C 00 \
    07 00 03 00 05 00 04 00 00 \
    07 00 03 00 05 00 04 07 00 \
    07 00 03 00 05 00 05 00 00 \
    07 00 03 00 05 00 06 09 00 \
    07 00 03 00 05 00 FF FF 00
cat >target/dump/wanted <<'END'
RECORDS 18
1 0 FAC 0 NONE 5
2 9 FAC 0 INVOKE 0
3 18 FAC 0 INVOKE SETUP
4 27 FAC 0 INVOKE ACTIVE
5 36 FAC 0 INVOKE CALLED
6 45 FAC 0 INVOKE 4
7 54 FAC 0 RESULT 0
8 63 FAC 0 RESULT SETUP
9 72 FAC 0 RESULT ACTIVE
10 81 FAC 0 RESULT CALLED
11 90 FAC 0 RESULT 255
12 99 FAC 0 ERROR 0
13 108 FAC 0 ERROR 12
14 117 FAC 0 REJECT
15 126 FAC 0 REJECT 7
16 135 FAC 0 COMPONENT 5 0
17 144 FAC 0 COMPONENT 6 9
18 153 FAC 0 COMPONENT 255 255
END
check "$@"

what="messages: parts, each alone and all of them, in range and out of it"
bytes 07 00 03 00 05 00 00 00 01 \
    07 00 03 00 05 00 00 00 02 \
    07 00 03 00 05 00 00 00 04 \
    07 00 03 00 05 00 00 00 08 \
    10 00 03 00 05 00 00 00 10 07 14 B0 54 00 00 00 00 00 \
    10 00 03 00 05 00 00 00 20 08 2B B0 54 00 00 00 00 00 \
    0B 00 03 00 05 00 00 00 40 28 00 00 00 \
    07 00 03 00 05 00 00 00 80 \
    10 00 03 00 05 00 02 03 20 00 00 00 00 00 00 00 00 00 \
    1D 00 03 00 04 10 02 03 7F 07 14 B0 54 00 00 00 00 00 07 2B B0 54 00 00 00 00 00 00 00 00 00 \
    1D 00 03 00 09 C8 FE FD FF 00 01 00 00 00 00 00 00 00 14 05 00 00 00 00 00 00 00 FF FF FF FF
cat >target/dump/wanted <<'END'
RECORDS 11
1 0 FAC 0 TRANSFER
2 9 FAC 0 ACCEPTED
3 18 FAC 0 AS-TRANSFER
4 27 FAC 0 PARTIAL
5 36 FAC 0 CALLING 5550100
6 54 FAC 0 CALLED 05550123
7 72 FAC 0 DURATION 40
8 85 FAC 0 PART 128
9 94 FAC 0 RESULT CALLED CALLED -
10 112 REL 16 RESULT CALLED TRANSFER ACCEPTED AS-TRANSFER PARTIAL CALLING 5550100 CALLED 5550123 DURATION 0
11 143 MESSAGE 9 200 COMPONENT 254 253 TRANSFER ACCEPTED AS-TRANSFER PARTIAL CALLING 0:1 CALLED 20:5 DURATION 4294967295 PART 128
END
check "$@"

what="what the access tells, and times"
bytes 04 00 04 00 00 00 \
    04 00 04 00 01 00 \
    04 00 04 00 02 0C \
    04 00 04 00 03 00 \
    04 00 04 00 04 FF \
    04 00 04 00 05 00 \
    04 00 04 00 06 01 \
    04 00 04 00 FF FF \
    06 00 06 00 00 00 00 00 \
    06 00 06 00 80 51 01 00 \
    06 00 06 00 81 51 01 00 \
    06 00 06 00 FF FF FF FF
cat >target/dump/wanted <<'END'
RECORDS 12
1 0 ACCESS 0 0
2 6 ACCESS ACCEPT 0
3 12 ACCESS ERROR 12
4 18 ACCESS REJECT 0
5 24 ACCESS CLEAR 255
6 30 ACCESS ANSWER 0
7 36 ACCESS 6 1
8 42 ACCESS 255 255
9 48 TIME 0
10 56 TIME 86400
11 64 TIME 86401
12 72 TIME 4294967295
END
check "$@"

what="records in slots: each kind, the first slot and the last of a row, slots that no row has, and plain records among them"
bytes 13 00 07 00 05 00 0D 00 01 00 00 09 07 14 B0 54 00 00 00 00 00 \
    12 00 07 00 00 00 0C 00 02 00 02 00 00 00 00 00 00 00 00 00 \
    0D 00 07 00 3F 00 07 00 03 00 02 00 02 01 00 \
    0A 00 07 00 40 00 04 00 04 00 04 00 \
    06 00 06 00 3C 00 00 00 \
    08 00 07 00 FF FF 02 00 05 00 \
    0C 00 07 00 00 01 06 00 06 00 3C 00 00 00 \
    02 00 05 00
cat >target/dump/wanted <<'END'
RECORDS 8
1 0 SLOT 5 OPENING originating transfer,interaction 5550100
2 21 SLOT 0 REQUEST B -
3 41 SLOT 63 ANM 0 RESULT SETUP
4 56 SLOT 64 ACCESS CLEAR 0
5 68 TIME 60
6 76 SLOT 65535 EXPIRY
7 86 SLOT 256 TIME 60
8 100 EXPIRY
END
check "$@"

what="records in slots: fields out of range, and the longest record of all"
bytes 13 00 07 00 0A 00 0D 00 01 00 07 20 80 00 00 00 00 00 00 00 00 \
    0C 00 07 00 63 00 06 00 06 00 FF FF FF FF \
    0A 00 07 00 E7 03 04 00 04 00 06 01 \
    23 00 07 00 10 27 1D 00 03 00 09 C8 FE FD FF 00 01 00 00 00 00 00 00 00 14 05 00 00 00 00 00 00 00 FF FF FF FF
cat >target/dump/wanted <<'END'
RECORDS 4
1 0 SLOT 10 OPENING 7 32 +0:0
2 21 SLOT 99 TIME 4294967295
3 35 SLOT 999 ACCESS 6 1
4 47 SLOT 10000 MESSAGE 9 200 COMPONENT 254 253 TRANSFER ACCEPTED AS-TRANSFER PARTIAL CALLING 0:1 CALLED 20:5 DURATION 4294967295 PART 128
END
check "$@"

# the last record of a file, in hex, and what its line says of it: of those of kind 7, and of the lengths that only they have
while IFS=: read -r hex word; do
    what="stops with $word:$hex"
    # shellcheck disable=SC2086 # a byte a word
    bytes 08 00 07 00 01 00 02 00 05 00 $hex
    printf 'RECORDS 2\n1 0 SLOT 1 EXPIRY\n2 10 %s\n' "$word" >target/dump/wanted
    check "$@"
done <<'END'
 1E 00:CUT-SHORT
 23 00 07:CUT-SHORT
 1E 00 07 00:CUT-SHORT
 08 00 07 00 01 00 02 00 05:CUT-SHORT
 07 00 07 00 01 00:CUT-SHORT
 1E 00 03 00:BAD-LENGTH
 23 00 09 00:BAD-LENGTH
 24 00 07 00:BAD-LENGTH
 02 00 07 00:BAD-LENGTH
 07 00 07 00 01 00 02 00 05 02 00 05 00:BAD-LENGTH
 09 00 07 00 01 00 02 00 05 00 00:BAD-LENGTH
 07 00 07 00 01 00 01 00 05 01:BAD-LENGTH
 08 00 07 00 01 00 03 00 05 00 00:BAD-LENGTH
 08 00 07 00 01 00 02 01 05 00:BAD-LENGTH
 08 00 07 00 01 00 03 00 09 00:BAD-LENGTH
 08 00 07 00 01 00 02 00 06 00:BAD-LENGTH
 0D 00 07 00 01 00 07 00 03 00 05 00 00 00 10:BAD-LENGTH
 08 00 07 00 01 00 02 00 00 00:UNKNOWN-KIND
 08 00 07 00 01 00 02 00 05 01:UNKNOWN-KIND
 0E 00 07 00 01 00 08 00 07 00 01 00 02 00 05 00:UNKNOWN-KIND
 08 00 07 01 01 00 02 00 05 00:UNKNOWN-KIND
END

what="a length that no record has"
bytes 02 00 05 00 01 00 05 00 02 00 05 00
printf 'RECORDS 2\n1 0 EXPIRY\n2 4 BAD-LENGTH\n' >target/dump/wanted
check "$@"

what="a length that is not the kind's"
bytes 02 00 05 00 04 00 05 00 00 00 02 00 05 00
printf 'RECORDS 2\n1 0 EXPIRY\n2 4 BAD-LENGTH\n' >target/dump/wanted
check "$@"

what="a kind that is none"
bytes 02 00 05 00 02 00 08 00 02 00 05 00
printf 'RECORDS 2\n1 0 EXPIRY\n2 4 UNKNOWN-KIND\n' >target/dump/wanted
check "$@"

what="16,384 expiries, the most records that a file has"
bytes 02 00 05 00
fill 65536
awk 'BEGIN { print "RECORDS 16384"; for (i = 1; i <= 16384; i++) print i, 4 * (i - 1), "EXPIRY" }' >target/dump/wanted
check "$@"

what="a byte more than a file may have"
printf '\002' >>target/dump/file
printf 'REFUSED 8\n' >target/dump/wanted
check "$@"

what="7,281 messages with all the words that 9 bytes can have and a record that is cut short, the longest dump"
bytes 07 00 03 00 FF FF FF FF 8F
fill 65536
awk 'BEGIN {
    words = "MESSAGE 255 255 COMPONENT 255 255 TRANSFER ACCEPTED AS-TRANSFER PARTIAL PART 128"
    print "RECORDS 7282"
    for (i = 1; i <= 7281; i++) print i, 9 * (i - 1), words
    print "7282 65529 CUT-SHORT"
}' >target/dump/wanted
check "$@"

what="6,553 expiries in slots, and a record that is cut short"
bytes 08 00 07 00 FF FF 02 00 05 00
fill 65536
awk 'BEGIN {
    print "RECORDS 6554"
    for (i = 1; i <= 6553; i++) print i, 10 * (i - 1), "SLOT 65535 EXPIRY"
    print "6554 65530 CUT-SHORT"
}' >target/dump/wanted
check "$@"

what="4,369 openings with all the words that they can have"
bytes 0D 00 01 00 00 1F FF FF FF FF FF FF FF FF FF
fill 65536
awk 'BEGIN {
    words = "OPENING originating transfer,option,subscribed,interaction,case-d +127:18446744073709551615"
    print "RECORDS 4370"
    for (i = 1; i <= 4369; i++) print i, 15 * (i - 1), words
    print "4370 65535 CUT-SHORT"
}' >target/dump/wanted
check "$@"

exit $failed
