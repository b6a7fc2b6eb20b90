#!/bin/sh
# papers.sh [WORDS..]: wrong papers, that is, wrong definitions of the rows and of the bill: those of tests/mutants.txt that name the
# theorems of rows which have to fall with them, one at least for each theorem. WORDS go to tests/mutants. Needs python3.
set -eu
cd "$(dirname "$0")/.."
if ! command -v python3 >/dev/null; then
    echo "papers: skipped, there is no python3 here"
    exit 0
fi
mkdir -p target
if ! tests/mutants --papers "$@" >target/papers.log 2>&1; then
    grep -v '^| Edits of' target/papers.log | grep -E 'expected:|should fall:|not decided|its old text|^mutants: ' || cat target/papers.log
    echo "papers: a wrong definition is not refused as it should be: target/papers.log"
    exit 1
fi
tried=$(grep -cE '^[|] [a-z0-9-]+ [|]' target/papers.log)
echo "papers: $tried wrong definitions refused; each theorem of rows falls with one of them"
