#!/usr/bin/env bash
# Times `sztp check` against OpenSSL's SHA-256, on this machine and in this run.
# Usage: bench/check.sh [PROGRAM]      the built program, crates/sztp/out/sztp if none is named
#
# A check's own time is that of a valid check less that of a check of the same files whose signature lacks
# its last byte, which reads all and hashes nothing. OpenSSL hashes messages of 55 bytes, one compression
# each.
set -euo pipefail
here=$(cd "$(dirname "$0")" && pwd)
program=${1:-$here/../crates/sztp/out/sztp}
work=$(mktemp -d)
trap 'rm -rf "$work"' EXIT

now() { date +%s%N; }

# batch PUBLIC MESSAGE SIGNATURE RUNS: nanoseconds of one run, the least of five batches
batch() {
    local best=0 round start spent run
    for round in 1 2 3 4 5; do
        start=$(now)
        for ((run = 0; run < $4; run++)); do "$program" check "$1" "$2" "$3" >/dev/null || true; done
        spent=$((($(now) - start) / $4))
        if [ $best -eq 0 ] || [ $spent -lt $best ]; then best=$spent; fi
    done
    echo $best
}

# openssl's nanoseconds for one compression; $1 masks the processor's extensions, if any
openssl_nanoseconds() {
    OPENSSL_ia32cap=$1 openssl speed -bytes 55 -seconds 2 sha256 2>/dev/null |
        awk '/^sha256/ { sub("k", "", $2); printf "%.1f\n", 55 * 1e9 / ($2 * 1000) }'
}

with=$(openssl_nanoseconds "")
without=$(openssl_nanoseconds ":~0x20000000")
if grep -q -m1 sha_ni /proc/cpuinfo; then has=yes; else has=no; fi
echo "openssl: $with ns a compression, $without ns without SHA extensions (this processor has them: $has)"

for name in h5w8 h10w4 h10w1 h5w8-64mib h5w8-1gib; do
    data=$here/data/$name
    rm -f "$work/message"
    truncate -s "$(cat "$data/size")" "$work/message"
    size=$(stat -c %s "$data/signature")
    head -c $((size - 1)) "$data/signature" >"$work/short"
    verdict=$("$program" check "$data/public" "$work/message" "$data/signature")
    [ "$verdict" = valid ] || { echo "$name: $verdict"; exit 1; }
    runs=500
    if [ "$(cat "$data/size")" -gt 1000000 ]; then runs=3; fi
    if [ "$(cat "$data/size")" -gt 1000000000 ]; then runs=1; fi
    whole=$(batch "$data/public" "$work/message" "$data/signature" $runs)
    empty=$(batch "$data/public" "$work/message" "$work/short" $runs)
    awk -v name="$name" -v count="$(cat "$data/compressions")" -v whole="$whole" -v empty="$empty" \
        -v with="$with" -v without="$without" 'BEGIN {
            each = (whole - empty) / count
            printf "%-11s %8d compressions, %6.1f ns each, %.2f of openssl, %.2f of it without SHA extensions (check %.2f ms, of which reading %.2f ms)\n",
                name ":", count, each, each / with, each / without, whole / 1e6, empty / 1e6 }'
done
