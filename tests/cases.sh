#!/bin/sh
# cases.sh PROGRAM [CASES]: a listing program over every case of tests/cases.txt: its event file on standard input, its listing
# compared. A case is `## name`, one record a line in hex, `=`, and the listing that is expected, up to an empty line.
# Prints each case that differs, last the count of both kinds; fails on any difference.
set -eu
[ $# -ge 1 ] || { echo "usage: cases.sh PROGRAM [CASES]" >&2 && exit 2; }
program=$1
cases=${2:-$(dirname "$0")/cases.txt}
room=$(mktemp -d)
trap 'rm -rf "$room"' EXIT
# a shell line for each case: its name, its event file as octal escapes, the first and last line of its listing
awk '
    function octal(h,   s, i, hi, lo) {
        s = ""
        for (i = 1; i < length(h); i += 2) {
            hi = index("0123456789abcdef", substr(h, i, 1)) - 1; lo = index("0123456789abcdef", substr(h, i + 1, 1)) - 1
            s = s sprintf("\\%03o", hi * 16 + lo)
        }
        return s
    }
    /^## / { name = substr($0, 4); bytes = ""; part = 1; next }
    part == 1 && $0 == "=" { part = 2; from = NR + 1; next }
    part == 1 { bytes = bytes octal($0) }
    part == 2 && $0 == "" { print name, from, NR - 1, (bytes == "" ? "-" : bytes); part = 0 }
    END { if (part == 2) print name, from, NR, (bytes == "" ? "-" : bytes) }
' "$cases" >"$room/list"
right=0 wrong=0
while read -r name from to bytes; do # -r: the escapes are for printf
    [ "$bytes" = - ] && bytes=''
    # shellcheck disable=SC2059 # a format of escapes alone
    printf "$bytes" >"$room/file"
    sed -n "${from},${to}p" "$cases" >"$room/expected"
    "$program" <"$room/file" >"$room/got" || true
    if cmp -s "$room/got" "$room/expected"; then
        right=$((right + 1))
    else
        wrong=$((wrong + 1))
        echo "$name: expected (<) and got (>):"
        diff "$room/expected" "$room/got" | head -n 6 || true
    fi
done <"$room/list"
echo "cases: $right as expected, $wrong not"
[ "$wrong" -eq 0 ] && [ "$right" -gt 0 ]
