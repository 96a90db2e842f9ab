#!/bin/sh
# Looks up what the documents name, and prints a line for each name that is not there: DOCUMENT:LINE: NAME, and what is missing.
# Ends with 1 where there is one; prints nothing where there is none. What is looked up:
#   crate/File:name   File.antt in the crate's specs/ or proofs/, and the name in it; crate/File alone too
#   `name`            behind such a one in a cell of a table, or next to it in a list: in the crate, or in one that it stands on
#   `name` (FILE), `name` in FILE   the name in that file, FILE a path or crate/File
#   `aName`, `a-name`, `a_name`     anywhere else: in some source
#   crates/crate/out/..   what rt makes there: that there is such a crate
#   crate/label       a must-fail edit; the names in the cells behind it are the crate's
#   crate::function   a function of the crate; in the README of model/ or harness/, of tests/crate.rs or src/crate.rs there
#   crate, src/FILE   the file in the crate
#   a path, or a file's name with its ending: from the top, from the document's folder or its src/, or below crates/
# Left out: docs/LANDINGS.md, docs/PORT.md and docs/DESIGN-PASS.md, which give names of before; target/ and out/; words in capitals, as NAME.edit.
set -u
cd "$(dirname "$0")/.." || exit 2
list=$(mktemp) || exit 2
trap 'rm -f "$list"' EXIT

find . \( -name target -o -name out -o -name .git \) -prune -o -print | sed 's|^\./||' | LC_ALL=C sort >"$list"
sources=$(grep -E '^crates/.*\.(antt|rt)$|^(model|harness)/.*\.rs$' "$list")
documents=$(grep -E '^(docs/[^/]*|README|(examples|examples/c|harness|model)/README)\.md$' "$list" | grep -vE '^docs/(LANDINGS|PORT|DESIGN-PASS)\.')

# shellcheck disable=SC2086
LC_ALL=C awk -f tests/names.awk kind=crates crates.txt kind=files "$list" kind=source $sources kind=document $documents
