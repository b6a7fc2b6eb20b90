#!/bin/sh
# kit.sh: the Rattle kit that is here is the one that this repository is for, the line of the file KIT, and docs/TRUSTED.md has the versions
# of that one. With another kit the proofs may fail, or mean something else: read what changed in it, see that the gate passes, and write
# its line into KIT and its versions into docs/TRUSTED.md.
set -eu
cd "$(dirname "$0")/.."
command -v rt >/dev/null || { echo "kit: the Rattle kit's command rt is not on the path" && exit 1; }
wanted=$(cat KIT) found=$(rt version)
if [ "$found" != "$wanted" ]; then
    echo "kit: this repository is for '$wanted' (the file KIT), and the kit here is '$found'"
    exit 1
fi
for word in $wanted; do
    grep -qF -- "$word" docs/TRUSTED.md || { echo "kit: docs/TRUSTED.md does not name '$word', a word of the file KIT" && exit 1; }
done
echo "kit: $found"
