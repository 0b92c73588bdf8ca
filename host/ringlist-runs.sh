#!/bin/sh
# Runs the listing program on inputs made here and compares the bytes that it
# prints. use: host/ringlist-runs.sh [PROGRAM]   (default: that of crates/ringlist)
# The expected texts are worked out from document 01, never by a program that
# is tested. Every refusal that an input can meet is among them, with no rings,
# 18,448 and 18,449 bytes, 2,048 and 2,049 rings. It ends with 1 where a run
# differs or fails.
set -u
program=${1:-$(dirname "$0")/../crates/ringlist/out/ringlist}
[ -x "$program" ] || { echo "ringlist-runs: no program $program: rt ci and make list leave it there"; exit 2; }
work=$(mktemp -d) || exit 2
trap 'rm -rf "$work"' EXIT

# Writes NAME.in and NAME.out for each run, and the names in their order.
python3 - "$work" <<'PYTHON' || exit 2
import sys

work = sys.argv[1]
names = []


def query(k, ts, te):
    return "%5d%5d%5d\n" % (k, ts, te)


def row(day, first, second):
    return "%5d%6d%6d\n" % (day, first, second)


def listing(rings):
    lines = ["start  end span  rows\n"]
    lines += ["%5d%5d%5d%6d\n" % (s, e, e - s + 1, rows) for s, e, rows in rings]
    return "".join(lines)


def refused(number, line):
    return "refused%5d%6d\n" % (number, line)


def run(name, text, expected):
    names.append(name)
    with open("%s/%s.in" % (work, name), "wb") as f:
        f.write(text.encode())
    with open("%s/%s.out" % (work, name), "wb") as f:
        f.write(expected.encode())


# 01's example, with the spans of 02, S-3.
season = [(1, 1, 2), (2, 2, 3), (2, 1, 3), (4, 1, 2), (5, 3, 4), (6, 2, 4)]
rows = "".join(row(*r) for r in season)
run("season", query(2, 1, 6) + rows, listing([(1, 2, 3), (1, 4, 4), (1, 6, 6), (2, 4, 3), (2, 6, 5)]))

# No rings: the first line alone. k = 3 of the example; no rows; a pair that stands twice is one neighbour.
run("no-rings", query(3, 1, 6) + rows, listing([]))
run("no-rows", query(2, 1, 6), listing([]))
run("one-pair", query(2, 1, 2) + row(1, 1, 2) + row(2, 1, 2), listing([]))


# k = 1: every row is in the ring of its window, so each pair of a first and a last row day is a ring.
def every_pair(days):
    dated = sorted(set(days))
    return [(s, e, sum(s <= d <= e for d in days)) for s in dated for e in dated if s <= e]


run("two-days", query(1, 1, 2) + row(1, 1, 2) + row(2, 1, 2), listing([(1, 1, 1), (1, 2, 2), (2, 2, 1)]))
run("season-1", query(1, 1, 6) + rows, listing(every_pair([r[0] for r in season])))
run("range", query(1, 2, 4) + rows, listing(every_pair([2, 2, 4])))
run("all-days", query(1, 1, 1024) + row(1, 1, 2) + row(1024, 1, 2), listing(every_pair([1, 1024])))
run("greatest", query(1, 1024, 1024) + row(1024, 0, 4095), listing([(1024, 1024, 1)]))
run("greatest-k", query(4095, 1, 1024) + rows, listing([]))

# 1,024 rows on 63 days: an input of 18,448 bytes. One byte more is 2, whatever it holds.
days = [1 + 63 * j // 1024 for j in range(1024)]
full = query(1, 1, 63) + "".join(row(d, j, j + 1) for j, d in enumerate(days))
assert len(full) == 18448
run("18448-bytes", full, listing(every_pair(days)))
run("18449-bytes", full + " ", refused(2, 0))
run("18449-broken", "x" * 18449, refused(2, 0))
run("18448-broken", "x" * 18448, refused(11, 1))
run("100000-bytes", "\n" * 100000, refused(2, 0))
last = full[:-18]
run("last-row", last + row(0, 1, 2), refused(3, 1025))
run("last-line", last + full[-18:-1], refused(11, 1025))


# k = 2: 63 days with a triangle each, every window of which is in a ring; and a triangle on two days, two sides on
# the first and one on the second, that is in the ring of a window only if both days are. A window is listed if rows
# of its ring are dated on its first and on its last day.
def split(before, between):
    days = list(range(1, 66))
    a, b = before + 1, before + between + 2
    whole = [d for d in days if d not in (a, b)]
    table = []
    for d in days:
        if d == a:
            table += [(d, 4, 5), (d, 5, 6)]
        elif d == b:
            table += [(d, 4, 6)]
        else:
            table += [(d, 1, 2), (d, 2, 3), (d, 1, 3)]
    rings = []
    for s in days:
        for e in days:
            both = s <= a and b <= e
            starts = s in whole or (s == a and both)
            ends = e in whole or (e == b and both)
            if s <= e and starts and ends:
                rings.append((s, e, 3 * sum(s <= d <= e for d in whole) + 3 * both))
    return query(2, 1, 1024) + "".join(row(*r) for r in table), rings


# 63 * 64 / 2 = 2,016 rings of the whole days; one more for each whole day before the first or behind the second of
# the two days, and one from the first to the second.
text, rings = split(15, 32)
assert len(rings) == 2048
run("2048-rings", text, listing(rings))
text, rings = split(15, 31)
assert len(rings) == 2049
run("2049-rings", text, refused(10, 0))
text, rings = split(0, 63)
assert len(rings) == 2017
run("2017-rings", text, listing(rings))

# The query line: 11, 12, 13 at line 1.
run("empty", "", refused(11, 1))
run("lone-end", "\n", refused(11, 1))
run("query-open", query(2, 1, 6)[:-1], refused(11, 1))
run("query-short", "    2    1   6\n" + rows, refused(11, 1))
run("query-long", "     2    1    6\n" + rows, refused(11, 1))
run("query-blank", "         1    6\n" + rows, refused(12, 1))
run("query-zero", "   02    1    6\n" + rows, refused(12, 1))
run("query-left", "2        1    6\n" + rows, refused(12, 1))
run("query-large", "65536    1    6\n" + rows, refused(13, 1))
run("query-65535", query(65535, 1, 6) + rows, refused(6, 0))
run("query-12-13", "65536    1    x\n" + rows, refused(12, 1))

# The rows: the reader's line + 1.
run("row-short", query(2, 1, 6) + rows + "    6     2    4\n", refused(11, 8))
run("row-long", query(2, 1, 6) + row(1, 1, 2)[:-1] + " \n" + rows, refused(11, 2))
run("row-open", query(2, 1, 6) + rows[:-1], refused(11, 7))
run("row-empty", query(2, 1, 6) + row(1, 1, 2) + "\n" + rows, refused(11, 3))
run("row-field", query(2, 1, 6) + row(1, 1, 2) + "    1     1     a\n", refused(12, 3))
run("row-minus", query(2, 1, 6) + "    1    -1     2\n", refused(12, 2))
run("row-large", query(2, 1, 6) + row(1, 1, 2) + row(1, 1, 3) + "    2     1 65536\n", refused(13, 4))
run("row-12-13", query(2, 1, 6) + "65536     1    2 \n", refused(12, 2))
run("row-first", query(2, 1, 6) + "    x     1     2\n" + "y\n", refused(12, 2))
run("line-before-day", query(0, 6, 1) + row(0, 1, 2) + "y\n", refused(11, 3))

# The table: row + 2. Then the query's own numbers: 6, 7.
run("day-0", query(0, 6, 1) + row(0, 2, 1), refused(3, 2))
run("day-1025", query(2, 1, 6) + rows + row(1025, 1, 2), refused(3, 8))
run("account-4096", query(2, 1, 6) + row(1, 1, 2) + row(1, 1, 4096), refused(4, 3))
run("account-equal", query(2, 1, 6) + row(1, 2, 2), refused(4, 2))
run("account-order", query(2, 1, 6) + row(1, 3, 2), refused(4, 2))
run("day-falls", query(2, 1, 6) + row(2, 1, 2) + row(1, 1, 2), refused(5, 3))
run("account-before-order", query(2, 1, 6) + row(2, 1, 2) + row(1, 2, 1), refused(4, 3))
run("k-0", query(0, 6, 1) + rows, refused(6, 0))
run("k-4096", query(4096, 1, 6) + rows, refused(6, 0))
run("range-0", query(2, 0, 6) + rows, refused(7, 0))
run("range-falls", query(2, 6, 5) + rows, refused(7, 0))
run("range-1025", query(2, 1, 1025) + rows, refused(7, 0))
run("range-alone", query(2, 1025, 1) , refused(7, 0))

with open(work + "/names", "w") as f:
    f.write("".join(name + "\n" for name in names))
PYTHON

passed=0
failed=0

# one NAME HOW STATUS: what the run printed stands in $work/got
one() {
    if [ "$3" -eq 0 ] && cmp -s "$work/got" "$work/$1.out"; then
        passed=$((passed + 1))
    else
        failed=$((failed + 1))
        echo "ringlist-runs: $1, $2: status $3, expected and printed:"
        diff "$work/$1.out" "$work/got" | head -6
    fi
}

while IFS= read -r name; do
    "$program" <"$work/$name.in" >"$work/got"
    one "$name" "from a file" $?
done <"$work/names"

# In pieces, as a pipe may hand them over: no read of the program's gets all of it.
for name in season 18448-bytes 18449-bytes 2049-rings; do
    python3 - "$work/$name.in" <<'PYTHON' | "$program" >"$work/got"
import os, sys, time
text = open(sys.argv[1], "rb").read()
for at in range(0, len(text), 5000):
    os.write(1, text[at:at + 5000])
    time.sleep(0.01)
PYTHON
    one "$name" "from a pipe in pieces" $?
done

echo "ringlist-runs: $passed passed, $failed failed"
[ $failed -eq 0 ]
