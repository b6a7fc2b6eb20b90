#!/bin/sh
# docs/ROWS.md, line by line: each row's event and conditions, answer and what follows as specs/Find.antt and specs/Rows.antt have them;
# its names there, in the enum `Row` and in src/rows.rt; its sentence beside each definition; and the case that it names, whose
# listing must show at that record just that answer. Each difference is told, and fails. Needs awk.
set -eu
cd "$(dirname "$0")/.."
rows=crates/rows
awk -f tests/rows.awk $rows/specs/Numbers.antt $rows/specs/Perform.antt $rows/specs/Rows.antt $rows/specs/Find.antt $rows/specs/Tried.antt \
    $rows/src/lib.rt $rows/src/rows.rt docs/ROWS.md tests/cases.txt tests/rows.txt
