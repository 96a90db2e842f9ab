#!/bin/sh
# What make test runs behind the model's tests: rt ci; then, where it passed and no must-fail edit is bad, what the archive needs
# from outside, the archive beside the model, the C example, the stored runs of the tools, and the names in the documents.
# The last line is rt ci's own tally, or says what failed.
set -u
cd "$(dirname "$0")/.." || exit 2

ended=$(mktemp) || exit 2
trap 'rm -f "$ended"' EXIT

fail() { # WORDS..
    echo "harness: $*"
    exit 1
}

# the whole repository, as it stands; what is printed is kept
log=target/ci.log
mkdir -p target || exit 2
{
    rt ci 2>&1
    echo $? >"$ended"
} | tee "$log"
[ "$(cat "$ended")" = 0 ] || exit 1

# rt ci passes where a must-fail edit is bad, and says how many on its line rt: ok: "must-fail edits: N refused, M bad"
said=$(grep '^rt: ok' "$log") || fail "rt ci has no line rt: ok"
bad=$(printf '%s\n' "$said" | grep -oE ', [1-9][0-9]* bad' | cut -c 3-)
[ -z "$bad" ] || fail "must-fail edits: $bad"
tally=$(grep -E '^[0-9]+ passed, 0 failed$' "$log" | tail -n 1)
[ -n "$tally" ] || fail "rt ci has no tally with 0 failed"

step() { # WORDS..
    make --no-print-directory -s "$@" || fail "make $* failed"
}

step library
step outside
step fuzz N=100000
step harness-test
step example-c
step tools-test
step names
echo "$tally"
