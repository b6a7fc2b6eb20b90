#!/bin/sh
# decoders.sh: the vectors of tests/wire/vectors.txt. What outside decoders say of them (pyasn1.txt, asn1c.txt, dumpasn1.txt, tshark.txt in
# tests/wire, which tests/wire/make makes again) is of just these vectors, and the octets that stand there, and the numbers that tshark
# reads, are theirs. Then ./wire: it writes each component's words as its octets, and reads its octets as its words, ending where they
# end. Needs awk, and none of the decoders.
set -eu
cd "$(dirname "$0")/.."
room=$(mktemp -d)
trap 'rm -rf "$room"' EXIT
fail=0
grep -v '^#' tests/wire/vectors.txt | grep . >"$room/vectors"
count=$(wc -l <"$room/vectors")

# -- the stored files
made=''
for decoder in pyasn1 asn1c dumpasn1 tshark; do
    file=tests/wire/$decoder.txt
    made="$made, $(sed -n 1p "$file")"
    sed -n 's/^## //p' "$file" >"$room/has"
    if ! cmp -s "$room/vectors" "$room/has"; then
        echo "decoders: $file is not of the vectors that are in tests/wire/vectors.txt (<), but of others (>):"
        diff "$room/vectors" "$room/has" | head -n 6 || true
        fail=1
    fi
    awk -v decoder=$decoder -v file="$file" '
        function told(what) { print "decoders: " file ": " vector ": " what; bad = 1 }
        function value(h) { return (index("0123456789ABCDEF", substr(h, 1, 1)) - 1) * 16 + index("0123456789ABCDEF", substr(h, 2, 1)) - 1 }
        function ends(whole, end) { return length(end) <= length(whole) && substr(whole, length(whole) - length(end) + 1) == end }
        function spread(digits,   i, s) {
            digits = toupper(digits)
            for (i = 1; i < length(digits); i += 2) s = s " " substr(digits, i, 2)
            return substr(s, 2)
        }
        # what was shown of the vector up to here, judged
        function finish(   i, n, octets, all, nature, digits) {
            if (vector == "") return
            octets = vector; sub(/^.* => /, "", octets)
            if (decoder == "tshark") {
                all = octets
                if (vector !~ /^PARAMETER /) all = sprintf("32 %02X 91 %s", split(octets, part, " ") + 1, octets)
                if (sprintf("32 %02X %s", size, shown) != all) told(sprintf("the parameter there is 32 %02X %s", size, shown))
                if (!ends(all, inner)) told("the argument or result there is " inner)
                if (match(vector, / CALL(ED|ING) [+]?[0-9]+/)) {
                    digits = substr(vector, RSTART, RLENGTH); sub(/^ CALL(ED|ING) /, "", digits)
                    nature = sub(/^[+]/, "", digits) ? "international number (4)" : "national (significant) number (3)"
                    if (number != digits || kind != nature) told("the number there is " number ", " kind)
                    numbers++
                } else if (number != "") told("there is a number " number)
            } else {
                if (vector ~ /^PARAMETER /) { sub(/^32 .. 91 ?/, "", octets) }
                if (decoder == "dumpasn1") {
                    shown = octet[0]
                    for (i = 1; i < next_place; i++) shown = shown " " octet[i]
                }
                # READ: pyasn1 and asn1c encode them anew, so not with the octets that they had. pyasn1 encodes -128 as FF 80, one octet
                # more than the basic rules allow (asn1c encodes it as 80): these are left out
                if (decoder != "dumpasn1" && vector ~ /^READ /) { if (shown == "") told("it was not read") }
                else if (decoder == "pyasn1" && vector ~ / ID 80 /) { if (shown !~ / 02 02 FF 80 /) told("the octets there are " shown) }
                else if (decoder == "dumpasn1" && refused) { if (vector !~ /^READ /) told("dumpasn1 does not read it") }
                else {
                    if (shown != octets) told("the octets there are " shown)
                    if (!ends(octets, inner)) told("the parts there are " inner)
                }
            }
            compared++
        }
        /^## / {
            finish()
            vector = substr($0, 4); shown = inner = number = kind = held = ""; refused = 0; base = next_place = 0; split("", octet)
            next
        }
        /^not read/ { told("it was not read") }
        decoder == "tshark" && /Malformed|Expert Info|BER Error/ { told($0) }
        # dumpasn1 judges by stricter rules: the shortest lengths, which what is written has, and no negative numbers
        decoder == "dumpasn1" && /Error: / && !/encoded as a negative value/ && vector !~ /^READ / { told($0) }
        decoder == "pyasn1" && /^  encoded / { shown = shown (shown == "" ? "" : " ") substr($0, 11) }
        decoder == "asn1c" && / ::= \{$/ && /^[A-Z]/ { parts = /^REV/ }
        decoder == "asn1c" && /^encoded / { if (parts) inner = substr($0, 9); else shown = shown (shown == "" ? "" : " ") substr($0, 9) }
        # dumpasn1: an element with its octets, then its place; the next component of a parameter stands after the last
        decoder == "dumpasn1" && /^    <[0-9A-F ]*>$/ { held = $0; gsub(/[<>]/, "", held); next }
        decoder == "dumpasn1" && held != "" {
            n = split(held, part, " "); held = ""
            for (i = 1; i <= n; i++) {
                place = base + $1 + i - 1
                if ((place in octet) && octet[place] != part[i]) told("the octet " place " there is " octet[place] " and " part[i])
                octet[place] = part[i]
                if (place >= next_place) next_place = place + 1
            }
        }
        decoder == "dumpasn1" && /^[0-9]+ warnings?, / { base = next_place }
        decoder == "dumpasn1" && /^Error: Invalid data/ { refused = 1 }
        decoder == "tshark" && /\(t=50, l=[0-9]+\)/ { size = $0; sub(/.*l=/, "", size); size += 0 }
        decoder == "tshark" && /^ +Remote operations: / { shown = spread($3) }
        decoder == "tshark" && /^ +(argument|result): / { inner = spread($2) }
        decoder == "tshark" && /\(t=10, l=[0-9]+\)/ { number = $NF }
        decoder == "tshark" && /Nature of address indicator/ { kind = $0; sub(/.*indicator: /, "", kind) }
        END {
            finish()
            if (compared == 0 || (decoder == "tshark" && numbers == 0)) { print "decoders: " file " has nothing to compare"; bad = 1 }
            exit bad
        }' "$file" || fail=1
done
[ $fail -ne 0 ] || echo "decoders: the octets of $count vectors are those that were read by ${made#, }"

# -- ./wire
[ -x ./wire ] || { echo "decoders: there is no ./wire here" && exit 1; }
# ask INPUT EXPECTED [WORD]..: what ./wire says with these words, given the input
ask() {
    input=$1 expected=$2
    shift 2
    status=0
    got=$(echo "$input" | ./wire "$@") || status=$?
    if [ "$got" != "$expected" ] || [ $status -ne 0 ]; then
        echo "decoders: ./wire $* (status $status) of: $input"
        echo "$expected" | sed 's/^/  expected: /'
        echo "$got" | sed 's/^/  got:      /'
        fail=1
        wrong=$((wrong + 1))
    fi
}
wrong=0 written=0 read=0
while IFS= read -r vector; do
    words=${vector% => *} octets=${vector#* => }
    case $words in
    PARAMETER*) ask "$octets" "$(echo "${words#PARAMETER }" | sed 's/; /\n/g')" -x ;;
    *)
        ask "$octets" "${words#READ } NEXT $(echo "$octets" | wc -w | tr -d ' ')" -c -x
        if [ "$words" = "${words#READ }" ]; then
            ask "$words" "$octets" -w 255 -x
            written=$((written + 1))
        fi
        ;;
    esac
    read=$((read + 1))
done <"$room/vectors"
[ $read -gt 0 ] && [ $written -gt 0 ] || fail=1
echo "decoders: ./wire reads $read vectors and writes $written: $wrong not as expected"
exit $fail
