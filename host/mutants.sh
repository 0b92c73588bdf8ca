#!/bin/sh
# Planted faults: each line below makes one wrong library, and the tests must
# find it. use: sh mutants.sh [NAME..]   (all, or those named)
#
# A fault is NAME | FILE | SED EXPRESSION, on a copy of the sources; the copy is
# built into an archive and `cargo test` must fail against it. An edit that
# changes nothing, or that does not build or link, is an error of this script.
# Copies lie outside the repository: in it, rt ci would take a Rattle source of a
# copy for a lost file.
#
# As it stands it plants faults in the C engine (peer/engine.c). `make
# mutants-rattle` aims it at the Rattle sources, by these three:
#   MUTANT_SOURCES  what to copy                  (default: peer/engine.c)
#   MUTANT_FAULTS   a file of faults              (default: faults.txt)
#   MUTANT_BUILD    a command, run in the copy, that leaves libengine.a there.
# For Rattle it is `unproved`, which builds without proofs: a proof refuses a
# wrong body before any test can run.
set -u
cd "$(dirname "$0")" || exit 2
here=$(pwd)
sources=${MUTANT_SOURCES:-peer/engine.c}
faults=${MUTANT_FAULTS:-faults.txt}
build=${MUTANT_BUILD:-"${CC:-cc} -std=c99 -O2 -I$here/../include -c engine.c -o engine.o && ar crs libengine.a engine.o"}
work=$here/target/mutants
copies=$(mktemp -d) || exit 2
copy=$copies/copy
found=0
missed=0
broken=0
mkdir -p "$work"
trap 'rm -rf "$copies"' EXIT

# The tests alone must pass first: else every fault would seem found.
one() {
    name=$1
    file=$2
    edit=$3
    rm -rf "$copy"
    mkdir -p "$copy"
    # Of a crate its sources: not what rt keeps in its out/, nor proofs.
    for source in $sources; do
        tar -cf - --exclude=out --exclude=proofs -C "$(dirname "$source")" "$(basename "$source")" | tar -xf - -C "$copy" || return 2
    done
    if [ -n "$edit" ]; then
        cp "$copy/$file" "$work/before"
        if ! sed -E "$edit" "$work/before" > "$copy/$file"; then
            echo "mutants: $name: not an edit"
            return 2
        fi
        if cmp -s "$work/before" "$copy/$file"; then
            echo "mutants: $name: the edit changes nothing"
            return 2
        fi
    fi
    if ! (cd "$copy" && sh -c "$build") > "$work/$name.log" 2>&1; then
        echo "mutants: $name: does not build; see target/mutants/$name.log"
        return 2
    fi
    export LIB="$copy/libengine.a" CARGO_TARGET_DIR="$work/cargo"
    if ! cargo test --release --offline --tests --no-run >> "$work/$name.log" 2>&1; then
        echo "mutants: $name: does not link; see target/mutants/$name.log"
        return 2
    fi
    # Quick tests first. A fault may make a call run on: that counts as found.
    for tests in "--test known --test random --test text" "--test large"; do
        # shellcheck disable=SC2086 # a list of words
        timeout 300 cargo test --release --offline $tests >> "$work/$name.log" 2>&1 || return 1
    done
}

echo "mutants: the unchanged sources"
one unchanged "" "" || {
    echo "mutants: the tests fail without a fault; see target/mutants/unchanged.log"
    exit 1
}

while IFS='|' read -r name file edit; do
    name=$(printf '%s' "$name" | tr -d ' ')
    file=$(printf '%s' "$file" | tr -d ' ')
    edit=$(printf '%s' "$edit" | sed 's/^ *//; s/ *$//')
    case $name in '' | '#'*) continue ;; esac
    if [ $# -gt 0 ]; then
        case " $* " in *" $name "*) ;; *) continue ;; esac
    fi
    one "$name" "$file" "$edit" < /dev/null
    case $? in
    0)
        missed=$((missed + 1))
        echo "mutants: $name: NOT FOUND"
        ;;
    2)
        broken=$((broken + 1))
        ;;
    *)
        found=$((found + 1))
        by=$(grep -E '^test [a-z_0-9]+ [.]+ FAILED' "$work/$name.log" | awk '{print $2}' | tr '\n' ' ')
        echo "mutants: $name: found by ${by:-a crash or the time limit}"
        ;;
    esac
done < "$faults"

echo "mutants: $found found, $missed not found, $broken broken"
[ $missed -eq 0 ] && [ $broken -eq 0 ] && [ $found -gt 0 ]
