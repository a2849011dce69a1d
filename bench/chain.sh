#!/usr/bin/env bash
# Counts the signatures that are verified in built tests, and the instructions against those of their hashing: of
# sz_chain's `signed_by` in the bag of 32 certificates of one name and one key, each of which issued each, and in ordinary
# chains of an owner, an intermediate and an anchor; of sz_evidence's `judge` on evidence that other software made, with
# and without its owner certificate. The keys of the tests of chains have one level of 32 leaves and width 1, the cheapest
# to verify. Fails where more signatures are verified than are due. Needs valgrind, and `rt test` in crates/test_judgement
# or the gate before it.
# Usage: bench/chain.sh
set -euo pipefail
here=$(cd "$(dirname "$0")" && pwd)
work=$(mktemp -d)
trap 'rm -rf "$work"' EXIT

tests=$here/../crates/test_judgement

# test_named TEST: the test of this name, with the modules in which it stands
test_named() {
    local file
    file=$(cd "$tests/src" && grep -rlE "fn $1\(" . | head -n 1 || true)
    [ -n "$file" ] || { echo "there is no test $1 in $tests" >&2; exit 1; }
    file=${file#./}
    file=${file%.rt}
    file=${file%/mod}
    if [ "$file" = lib ]; then echo "$1"; else echo "${file//\//::}::$1"; fi
}

# row NAME FUNCTION TEST DUE: the signatures that are verified within the function in this test, of which so many are due
row() {
    local test
    test=$(test_named "$3")
    valgrind --tool=callgrind --callgrind-out-file="$work/counts" "--toggle-collect=$2" \
        "$tests/out/test_judgement_tests" "$test" >"$work/log" 2>&1 || { cat "$work/log"; exit 1; }
    callgrind_annotate --tree=calling --inclusive=yes "$work/counts" >"$work/annotated" 2>/dev/null
    awk -v name="$1" -v due="$4" '
        /PROGRAM TOTALS/ { gsub(",", "", $1); whole = $1 }
        / > .*sz_lms::level::Level::check_digest \([0-9]+x\)/ {
            match($0, /\([0-9]+x\)/)
            verified += substr($0, RSTART + 1, RLENGTH - 3)
            gsub(",", "", $1)
            hashing += $1
        }
        END {
            if (!verified) { print name ": no signature was seen"; exit 1 }
            printf "%s: %d signatures, %d instructions, %.3f of those of their hashing\n",
                name, verified, whole, whole / hashing
            if (verified > due) { print name ": " due " are due"; exit 1 }
        }' "$work/annotated"
}

row "the bag in which each issued each" sz_chain::signed::signed_by a_bag_in_which_each_issued_each 33
row "five ordinary chains" sz_chain::signed::signed_by chains_that_are_found 17
row "two judgements" sz_evidence::judgement::judge evidence_of_other_software 9
