#!/bin/sh
# Runs the C host on the examples and compares what it prints with c/expected.
# use: c/run.sh HOST EXAMPLES [update]
# Under valgrind where it is installed: no error and nothing lost, or it fails.
set -u
host=$1
examples=$2
update=${3:-}
here=$(dirname "$0")
under=
if command -v valgrind > /dev/null 2>&1; then
    under="valgrind -q --error-exitcode=99 --leak-check=full --errors-for-leak-kinds=all"
fi
passed=0
failed=0
out=$(mktemp)
trap 'rm -f "$out"' EXIT

# one NAME STATUS ARGUMENTS..
one() {
    name=$1
    status=$2
    shift 2
    $under "$host" "$@" > "$out"
    got=$?
    if [ -n "$update" ]; then
        cp "$out" "$here/expected/$name.txt"
    fi
    judge "$name" "$status" "$here/expected/$name.txt"
}

# again NAME: an example's rows, read and written, are its file.
again() {
    $under "$host" copy "$examples/$1.txt" > "$out"
    got=$?
    judge "$1 again" 0 "$examples/$1.txt"
}

# judge NAME STATUS FILE: what was printed, and the status, are these.
judge() {
    if [ $got -eq "$2" ] && cmp -s "$out" "$3"; then
        passed=$((passed + 1))
    else
        failed=$((failed + 1))
        echo "c-host: $1: status $got (expected $2)"
        diff "$3" "$out" | head -5
    fi
}

one season 0 list "$examples/season.txt"
one market 0 list "$examples/market.txt"
one season-ring 0 ring "$examples/season.txt" 2 1 4
one market-ring 0 ring "$examples/market.txt" 3 10 40
one season-groups 0 groups "$examples/season.txt" 2 1 6
one market-groups 0 groups "$examples/market.txt" 2 35 42
one season-group 0 group "$examples/season.txt" 2 1 4 3
one broken-day 1 list "$examples/broken-day.txt"
one broken-field 1 list "$examples/broken-field.txt"
one broken-ring 1 ring "$examples/broken-day.txt" 2 1 6
one wrong-k 1 ring "$examples/season.txt" 0 1 6
one wrong-window 1 ring "$examples/season.txt" 2 5 4
one broken-groups 1 groups "$examples/broken-day.txt" 2 1 6
one wrong-account 1 group "$examples/season.txt" 2 1 4 4
one broken-copy 1 copy "$examples/broken-field.txt"
# The writer takes any columns: also those of a table whose days fall.
again season
again market
again broken-day

# An output that cannot be written is told, by its status and on standard error.
full() {
    name=$1
    shift
    # shellcheck disable=SC2086 # a list of words
    said=$($under "$host" "$@" 2>&1 > /dev/full)
    got=$?
    if [ $got -eq 2 ] && [ "$said" = "host: cannot write the output" ]; then
        passed=$((passed + 1))
    else
        failed=$((failed + 1))
        echo "c-host: $name to a full disk: status $got (expected 2), said '$said'"
    fi
}

if [ -c /dev/full ]; then
    full season list "$examples/season.txt"
    full market list "$examples/market.txt"
    full market-ring ring "$examples/market.txt" 3 10 40
    full market-groups groups "$examples/market.txt" 2 35 42
    full broken-day list "$examples/broken-day.txt"
    full season-copy copy "$examples/season.txt"
    full market-copy copy "$examples/market.txt"
else
    echo "c-host: no /dev/full here: writing to a full disk is not tried"
fi

echo "c-host${under:+ under valgrind}: $passed passed, $failed failed"
[ $failed -eq 0 ]
