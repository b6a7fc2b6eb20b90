#!/bin/sh
# rules.sh: docs/RULES.md, which stands for documents 01 and 02, has each phrase of them that the definitions, the code and docs/ROWS.md
# cite (01 "phrase", 02 #101, "phrase"; where it has " ..., " the two sides), and names each row that docs/ROWS.md gives to one of them.
set -eu
cd "$(dirname "$0")/.."
room=$(mktemp -d)
trap 'rm -rf "$room"' EXIT
tr -s '\n ' '  ' <docs/RULES.md >"$room/rules"
# "001" is a name of the Recommendation, and no phrase
cat docs/ROWS.md docs/DECISIONS.md docs/STATEMENTS.md crates/*/specs/*.antt crates/*/src/*.rt | grep -oE '(01|02 #[0-9]+),? "[^"]*"' |
    sed -e 's/^[^"]*"//' -e 's/"$//' -e 's/ \.\.\., /\n/g' | grep -v '^001$' | sort -u >"$room/phrases"
awk -F'|' '/^\| [GOD][0-9]+ / && $6 ~ /(^|[^0-9])(01|02)([^0-9]|$)/ { gsub(/ /, "", $2); print $2 }' docs/ROWS.md | sort -u >"$room/rows"
# the rows that the page names, one a line; "O6 to O8" is three
awk '{
    gsub(/[^A-Za-z0-9]/, " ")
    n = split($0, w, / +/)
    for (i = 1; i <= n; i++) if (w[i] ~ /^[GOD][0-9]+$/) {
        a = substr(w[i], 2) + 0; b = a
        if (w[i + 1] == "to" && w[i + 2] ~ /^[GOD][0-9]+$/) b = substr(w[i + 2], 2) + 0
        for (j = a; j <= b; j++) print substr(w[i], 1, 1) j
    }
}' "$room/rules" | sort -u >"$room/named"
fail=0
while IFS= read -r phrase; do
    if ! grep -qF -- "$phrase" "$room/rules"; then
        echo "rules: docs/RULES.md has no \"$phrase\", which is cited as document 01's or 02's"
        fail=1
    fi
done <"$room/phrases"
for row in $(comm -23 "$room/rows" "$room/named"); do
    echo "rules: docs/RULES.md does not name $row, which docs/ROWS.md gives to document 01 or 02"
    fail=1
done
phrases=$(wc -l <"$room/phrases") rows=$(wc -l <"$room/rows")
[ "$phrases" -gt 0 ] && [ "$rows" -gt 0 ] || fail=1
[ $fail -eq 0 ] && echo "rules: docs/RULES.md has the $phrases phrases that are cited, and names the $rows rows of documents 01 and 02"
exit $fail
