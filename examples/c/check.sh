#!/bin/sh
# Compares the program runguide with the stored runs: NAME.run beside each guide, and runguide.stdout here.
#     check.sh PROGRAM [--write]
# With --write, runguide.stdout is written anew.
set -eu
program=$(realpath "$1")
cd "$(dirname "$0")/.."

# The runs of a guide, in the form of its file NAME.run, whose lists of answers are taken. The book is NAME.book, or relay.book.
runs() { # NAME
    book=$1.book
    [ -e "$book" ] || book=relay.book
    sed -n 's/^answers//p' "$1.run" | while IFS= read -r list; do
        echo "answers$list"
        # shellcheck disable=SC2046
        "$program" "$1.guide" "$book" $(echo "$list" | tr ',' ' ')
    done
}

# A command and what it prints, with its exit status where that is not 0.
shown() { # WORDS..
    echo "\$ runguide $*"
    "$program" "$@" 2>&1 || echo "status $?"
}

# Empty books, refusals, no answers, answers left over or outside their options, and bad arguments.
others() {
    shown incident.guide - 110 1 200
    shown incident.guide -
    shown breaker-open.guide relay.book 0 5 6
    shown breaker-open.guide - 2
    shown breaker-open.guide - 2 -1 9
    shown ct-open.guide relay.book 0 -2147483648 2147483647 0
    shown c/open-if.guide - 90
    shown incident.guide c/repeated.book 90
    shown relay.book relay.book
    shown incident.guide
    shown incident.guide - 2147483648
}

found=$(mktemp)
trap 'rm -f "$found"' EXIT
for guide in *.guide; do
    name=${guide%.guide}
    runs "$name" >"$found"
    cmp "$found" "$name.run"
done
others >"$found"
if [ "${2:-}" = --write ]; then
    cat "$found" >c/runguide.stdout
fi
cmp "$found" c/runguide.stdout
echo "runguide: the runs of $(ls ./*.guide | wc -l) guides and the stored ones are the same"
