#!/bin/sh
# records.sh [--count N] [--seed S]: generated event files (200 of seed 1 where it is not said), damaged ones among them, dumped by ./dump
# and recorded by ./record. A file all of whose records are read, with each field in its range, comes back byte for byte. Of any other the
# first record that is not so is told, by its line, with the field that is out of its range, and the records before it come back. Which
# record and field that is, host/reference says: a listing has 17, 19 and 20 before 3, and no field. A file that is too long is left out.
# Needs cargo.
set -eu
cd "$(dirname "$0")/.."
who=records.sh count=200 seed=1
# shellcheck source=tests/generated.inc
. tests/generated.inc
room=target/records
generate_files $room
whole=0 parts=0 out=0 failed=0

# told FILE: what ./record is to tell of its dump, or nothing. A record's line comes after the line that counts them.
told() {
    $reference refused <"$1" | awk '{
        printf "record: line %d: ", $1 + 1
        print $2 == 3 ? "REFUSED 3: field " $3 " is out of its range" : "not known: no record has these words"
    }' >$room/told
}

# back BYTES FILE: what $room/text says is so many bytes of the file
back() {
    head -c "$1" "$2" >$room/front
    ./record $room/text >$room/got && cmp -s $room/front $room/got
}

for file in "$room"/*.rev; do
    ./dump "$file" >$room/text
    if grep -q REFUSED $room/text; then
        out=$((out + 1))
        continue
    fi
    told "$file"
    if [ ! -s $room/told ]; then
        whole=$((whole + 1))
        back "$(wc -c <"$file")" "$file" || { echo "records: $file does not come back" && failed=$((failed + 1)); }
        continue
    fi
    parts=$((parts + 1))
    status=0
    ./record $room/text >$room/got 2>$room/err || status=$?
    if [ $status -ne 1 ] || [ -s $room/got ] || ! cmp -s $room/told $room/err; then
        echo "records: $file: status $status, told: $(cat $room/err); to be told: $(cat $room/told)"
        failed=$((failed + 1))
    fi
    # the records before it
    line=$(tr -dc '0-9 ' <$room/told | awk '{ print $1 }')
    place=$(sed -n "${line}p" $room/text | cut -d ' ' -f 2)
    head -n $((line - 1)) $room/text >$room/less
    mv $room/less $room/text
    back "$place" "$file" || { echo "records: the first $((line - 2)) records of $file do not come back" && failed=$((failed + 1)); }
done
echo "records: $whole files came back whole, of $parts the records before the first that is refused; $out left out, $failed failed"
[ $failed -eq 0 ] && [ $whole -gt 0 ] && [ $parts -gt 0 ]
