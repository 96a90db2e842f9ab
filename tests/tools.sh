#!/bin/sh
# Runs the tools, each as `rt run` leaves it in its crate's folder out/, on the stored runs of tests/tools, and on the runs of the folder examples.
# In a file of runs a line `$ COMMAND` stands before what the command prints; `! ` stands before a line of standard error.
# Prints one line and ends with 1 at the first difference; prints nothing where there is none.
set -u
cd "$(dirname "$0")/.." || exit 1
for tool in guidewalk platerun platelist listplate; do
    PATH=$PWD/crates/$tool/out:$PATH
done
room=$(mktemp -d) || exit 1
trap 'rm -rf "$room"' EXIT

fail() {
    echo "tests/tools.sh: $1"
    exit 1
}

# The commands of a file of runs, each with what it writes now.
replay() {
    sed -n 's/^\$ //p' "$1" | while IFS= read -r command; do
        (eval "$command") </dev/null >"$room/out" 2>"$room/err"
        printf '$ %s\n' "$command"
        cat "$room/out"
        sed 's/^/! /' "$room/err"
    done
}

# The answers of a file of the folder examples, each list with what a tool writes on it now: answered TOOL FILE RUNS.
# The book is the guide's own, or relay.book.
answered() {
    sed -n 's/^answers//p' "$3" | while IFS= read -r answers; do
        echo "answers$answers"
        # shellcheck disable=SC2046
        "$1" "$2" "$book" $(echo "$answers" | tr , ' ') </dev/null
    done
}

for tool in guidewalk platerun platelist listplate; do
    [ -x "crates/$tool/out/$tool" ] || fail "there is no crates/$tool/out/$tool: make tools makes it"
    stored=tests/tools/$tool.runs
    replay "$stored" >"$room/now"
    cmp -s "$room/now" "$stored" || fail "$stored: $(diff "$room/now" "$stored" | grep -c '^[<>]') lines differ from what is written now"
done

for runs in examples/*.run; do
    name=${runs%.run}
    book=$name.book
    [ -e "$book" ] || book=examples/relay.book
    sed '$d' "$name.show" >"$room/listing"
    sed -n '$p' "$name.show" >"$room/shown"
    listplate "$room/listing" "$book" >"$room/plate"
    listplate "$room/listing" /dev/null | cmp -s - "$room/shown" || fail "listplate: another plate than in $name.show"
    platelist "$room/shown" /dev/null | cmp -s - "$room/listing" || fail "platelist: another listing than in $name.show"
    platelist "$room/plate" "$book" | cmp -s - "$room/listing" || fail "platelist: another listing of $name.show with the book"
    answered guidewalk "$name.guide" "$runs" | cmp -s - "$runs" || fail "guidewalk: another walk than in $runs"
    answered platerun "$room/plate" "$runs" | cmp -s - "$runs" || fail "platerun: another run than in $runs"
done
