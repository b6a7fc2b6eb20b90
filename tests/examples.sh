#!/bin/sh
# examples.sh: the listing of each event file of examples/ is the one beside it, and the words beside it make the file; and the file that
# docs/FORMAT.md makes by hand, in three ways, is listed as it says there.
set -eu
cd "$(dirname "$0")/.."
room=$(mktemp -d)
trap 'rm -rf "$room"' EXIT
fail=0 count=0
for file in examples/*.rev; do
    count=$((count + 1))
    if ! ./listing "$file" | cmp -s - "${file%.rev}.txt"; then
        echo "examples: $file is not listed as in ${file%.rev}.txt"
        fail=1
    fi
    ./record "${file%.rev}.words" >"$room/made" || fail=1
    # as its source says, and examples/README.md
    [ "$file" != examples/cut-short.rev ] || { head -c 42 "$room/made" >"$room/front" && mv "$room/front" "$room/made"; }
    if ! cmp -s "$room/made" "$file"; then
        echo "examples: ${file%.rev}.words does not make $file"
        fail=1
    fi
done
# the indented lines of docs/FORMAT.md from the one that begins so to the one that ends so, each included
block() {
    awk -v from="    $1" -v to="$2" 'index($0, from) == 1 { on = 1 } on { print substr($0, 5) } on && index($0, to) { exit }' docs/FORMAT.md
}
block "# a basic call" "ACCESS CLEAR" >"$room/call.words"
echo "'$PWD/record' call.words >call.rev" >"$room/record.sh"
block "echo '" "xxd" >"$room/xxd.sh"
block "printf " "004" >"$room/printf.sh"
sed -n '/listing call.rev. then prints$/,/^    END/s/^    //p' docs/FORMAT.md >"$room/wanted"
for way in record xxd printf; do
    if [ $way = xxd ] && ! command -v xxd >/dev/null; then
        echo "examples: xxd is not here, so that its way in docs/FORMAT.md is not tried"
        continue
    fi
    (cd "$room" && rm -f call.rev && sh "$way.sh")
    count=$((count + 1))
    if ! ./listing "$room/call.rev" | cmp -s - "$room/wanted"; then
        echo "examples: the file that docs/FORMAT.md makes by $way is not listed as it says there"
        fail=1
    fi
done
[ $fail -eq 0 ] && echo "examples: $count files listed as they should be"
exit $fail
