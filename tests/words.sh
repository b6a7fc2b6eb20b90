#!/bin/sh
# words.sh: docs/FORMAT.md is the one home of a listing's words and numbers. Its tables of phases, states, actions and numbers given back,
# and what it says that a message carries, are just what the definitions write; it has the words of a dump; and each word of a listing,
# each error and each number given back that README.md or a manual page names stands in it. man/wire.1 is the page of a component's line,
# which is no line of a listing: it has the words that the definitions of that line write. Needs awk.
set -eu
cd "$(dirname "$0")/.."
room=$(mktemp -d)
trap 'rm -rf "$room"' EXIT
fail=0
format=docs/FORMAT.md specs=crates/files/specs

# what a pattern's definitions write: one text a line, without > and the newline
written() {
    grep -hE "$1" "$2" | grep -oE 'ascii "[^"]*"' | sed -e 's/^ascii "\(> \)\{0,1\} *//' -e 's/"$//' -e 's/\\n$//' -e 's/ *$//' |
        grep . | sort -u
}
# the first column of the table under a header, one word a line; of `ACCESS ERROR n` what is in capitals
column() {
    awk -v header="| $1 |" 'index($0, header) == 1 { inside = 1; next } !/^\|/ { inside = 0 }
        inside && !/^\|--/ { split($0, cell, / *\| */); print cell[2] }' $format |
        tr ',' '\n' | sed -e 's/`//g' -e 's/^ *//' -e 's/ [a-z]*$//' -e 's/ *$//' | grep . | sort -u
}
# differ NAME: what the definitions write ($room/written) and what docs/FORMAT.md has ($room/has) are the same, and something
differ() {
    comm -23 "$room/written" "$room/has" | sed "s/.*/words: the definitions have the $1 \"&\", docs\/FORMAT.md not/" >"$room/told"
    comm -13 "$room/written" "$room/has" | sed "s/.*/words: docs\/FORMAT.md has the $1 \"&\", the definitions not/" >>"$room/told"
    [ -s "$room/written" ] || echo "words: no $1 is found in the definitions" >>"$room/told"
    cat "$room/told"
    [ ! -s "$room/told" ] || fail=1
    all=$((all + $(wc -l <"$room/written")))
}
all=0
written '^phase_text ' $specs/Lines.antt >"$room/written" && column PHASE >"$room/has" && differ phase
cp "$room/has" "$room/phases"
written '^rev_text ' $specs/Lines.antt >"$room/written" && column STATE >"$room/has" && differ state
cp "$room/has" "$room/states"
cat $specs/Lines.antt $specs/Messages.antt >"$room/specs"
written '"> ' "$room/specs" >"$room/written" && column Action >"$room/has" && differ action
cp "$room/has" "$room/actions"
grep -v '"> ' $specs/Messages.antt >"$room/specs"
written 'ascii' "$room/specs" >"$room/written"
# shellcheck disable=SC2016 # backticks of the page
awk '/^What a message carries/ { inside = 1 } /^$/ { inside = 0 } inside' $format | grep -oE '`[A-Z+-]+[^`]*`' | tr -d '`' |
    sed 's/ [a-z]*$//' | sort -u >"$room/has"
differ "word of a message"
# the numbers given back: those of a call, of a board, of the frames, of a text that does not fit
{
    awk '/Numbers given back/ { inside = 1; next } /^--/ { inside = 0 } inside && / = [0-9]+$/ { print $3 }' \
        crates/rows/specs/Numbers.antt crates/board/specs/Numbers.antt
    awk '/^(cut_short|bad_length|unknown_kind|too_long) = / { print $3 }' $specs/Frames.antt $specs/Fit.antt
} | sort -u >"$room/written"
column Number >"$room/has" && differ "number given back"
cp "$room/has" "$room/numbers"
awk '/^\*\*Errors\*\*/ { inside = 1 } /^$/ { inside = 0 } inside' $format | tr ',' '\n' | grep -oE '[0-9]+ [a-z]|[0-9]+$' |
    grep -oE '[0-9]+' | sort -u >"$room/has"
awk '/error values/ { inside = 1; next } /^--/ { inside = 0 } inside && / = [0-9]+$/ { print $3 }' crates/rows/specs/Numbers.antt |
    sort -u >"$room/written"
differ error
cp "$room/has" "$room/errors"

# the words of a dump, and the first and last line of a listing
{ written ascii $specs/Dump.antt && written ascii $specs/Listing.antt; } >"$room/written"
while IFS= read -r word; do
    grep -qwF -- "$word" $format || { echo "words: the definitions have \"$word\", docs/FORMAT.md not" && fail=1; }
    all=$((all + 1))
done <"$room/written"

# README.md and the manual pages: a manual's hyphens are \-, and its macros are no text
for page in README.md man/*.1; do
    sed -e 's/\\-/-/g' -e 's/\\f[A-Z]//g' -e 's/^\.\(BI\|BR\|IR\|[BI]\) //' -e '/^\.\(SH\|TH\|\\"\)/d' "$page" >"$room/text"
    if [ "$page" = man/wire.1 ]; then
        cat crates/wireline/specs/Lines.antt crates/wireline/specs/Answers.antt >"$room/specs"
        written ascii "$room/specs" >"$room/written"
        while IFS= read -r word; do
            grep -qF -- "$word" "$room/text" || { echo "words: the definitions have \"$word\", $page not" && fail=1; }
            all=$((all + 1))
        done <"$room/written"
        continue
    fi
    # each word in capitals stands in docs/FORMAT.md, but for these: names that are no words of a listing
    grep -oE '[A-Z][A-Z-]+[A-Za-z.]*' "$room/text" | grep -vE '\.(md|antt)$|[a-z]' | sed 's/[.-]*$//' | grep -E '...' |
        grep -vxE 'ISDN|ITU-T|KIT|FILE|ASCII|DESCRIPTION|PERFORMANCE|STATEMENTS|DECISIONS' | sort -u >"$room/named"
    while IFS= read -r word; do
        grep -qwF -- "$word" $format || { echo "words: $page has $word, docs/FORMAT.md not" && fail=1; }
    done <"$room/named"
    # the lines of a listing in it: number given back, phase, state; the actions
    awk -v page="$page" -v room="$room" '
        function told(what, word) { print "words: " page " has the " what " \"" word "\", docs/FORMAT.md not"; bad = 1 }
        BEGIN {
            while ((getline word < (room "/phases")) > 0) phase[word]
            while ((getline word < (room "/states")) > 0) state[word]
            while ((getline word < (room "/actions")) > 0) action[word]
            while ((getline word < (room "/numbers")) > 0) number[word]
            while ((getline word < (room "/errors")) > 0) error[word]
        }
        /^ *[0-9]+ [0-9]+ [A-Z-]+ [A-Z-]+ [0-9]+ [0-9]+ [0-9]+$/ {
            if (!($2 in number)) told("number given back", $2)
            if (!($3 in phase)) told("phase", $3)
            if (!($4 in state)) told("state", $4)
        }
        # the same with a slot after the ordinal
        /^ *[0-9]+ [0-9]+ [0-9]+ [A-Z-]+ [A-Z-]+ [0-9]+ [0-9]+ [0-9]+$/ {
            if (!($3 in number)) told("number given back", $3)
            if (!($4 in phase)) told("phase", $4)
            if (!($5 in state)) told("state", $5)
        }
        /^ *> [A-Z]/ { if (!(($2) in action) && !(($2 " " $3) in action)) told("action", $2 " " $3) }
        { for (i = 1; i < NF; i++) {
            after = $(i + 1); gsub(/[^0-9]+$/, "", after)
            if (after !~ /^[0-9]+$/) continue
            if ($i ~ /REFUSED$/ && !(after in number)) told("number given back", after)
            if ($i ~ /^(error|ERROR)$/ && !(after in error)) told("error", after)
        } }
        END { exit bad }' "$room/text" || fail=1
done
[ $fail -eq 0 ] && echo "words: docs/FORMAT.md and man/wire.1 have the $all words and numbers of the definitions; FORMAT.md each that README.md and man/ name"
exit $fail
