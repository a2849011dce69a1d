#!/usr/bin/env bash
# Times the trees that `sztp keygen` and `sztp sign` build, against OpenSSL's SHA-256, on this machine and in this run;
# and signs a file at one, two and three levels and checks the signatures. Wants a machine that does nothing else.
# Usage: bench/keys.sh [PROGRAM]      the built program, crates/sztp/out/sztp if none is named
#
# A tree's compressions: of each leaf its chains' steps and secrets, the hash over the chains' ends and the leaf; two of
# each other node. A tree's own time is that of the keygen of it less that of the least key, levels 5/1.
set -euo pipefail
here=$(cd "$(dirname "$0")" && pwd)
program=$(realpath "${1:-$here/../crates/sztp/out/sztp}")
work=$(mktemp -d)
trap 'rm -rf "$work"' EXIT
cd "$work"
processors=$(nproc)

now() { date +%s%N; }

# fresh: a disk without a key
fresh() { rm -f disk && truncate -s 2048 disk; }

# compressions HEIGHT WIDTH
compressions() {
    awk -v h="$1" -v w="$2" 'BEGIN {
        p[1] = 265; p[2] = 133; p[4] = 67; p[8] = 34
        ends = int((22 + 32 * p[w] + 9 + 63) / 64)
        leaf = p[w] * (2 ^ w - 1) + p[w] + ends + 1
        print 2 ^ h * leaf + 2 * (2 ^ h - 1) }'
}

# least COMMAND..: the least nanoseconds of three runs, each on a fresh disk
least() {
    local best=0 round start spent
    for round in 1 2 3; do
        fresh
        start=$(now)
        "$@" >/dev/null
        spent=$(($(now) - start))
        if [ $best -eq 0 ] || [ $spent -lt $best ]; then best=$spent; fi
    done
    echo $best
}

openssl=$(openssl speed -bytes 55 -seconds 2 sha256 2>/dev/null |
    awk '/^sha256/ { sub("k", "", $2); printf "%.1f\n", 55 * 1e9 / ($2 * 1000) }')
echo "openssl: $openssl ns a compression; $processors processors"

base=$(least taskset -c 0 "$program" keygen 5/1 public @disk)
for levels in 10/8 15/4; do
    count=$(compressions "${levels%/*}" "${levels#*/}")
    one=$(least taskset -c 0 "$program" keygen $levels public @disk)
    all=$(least "$program" keygen $levels public @disk)
    awk -v name=$levels -v count="$count" -v one=$((one - base)) -v all=$((all - base)) -v ssl="$openssl" \
        -v n="$processors" 'BEGIN {
            printf "tree %s: %d compressions; one processor %.1f ns each, %.2f of openssl; all %.2f times as fast, %.2f of their number\n",
                name, count, one / count, one / count / ssl, one / all, one / all / n }'
done

head -c 55 /dev/zero >message
fresh
"$program" keygen 10/4,10/4 public @disk >/dev/null
start=$(now)
taskset -c 0 "$program" sign message signature @disk >/dev/null
spent=$(($(now) - start))
awk -v spent=$spent -v count=$(($(compressions 10 4) * 2)) -v ssl="$openssl" 'BEGIN {
    printf "sign 10/4,10/4: %.1f ms, its two trees %.1f ns a compression, %.2f of openssl\n",
        spent / 1e6, spent / count, spent / count / ssl }'

for levels in 5/8 5/4,5/8 5/8,5/8,5/8; do
    fresh
    "$program" keygen $levels public @disk >/dev/null
    "$program" sign message signature @disk >/dev/null
    verdict=$("$program" check public message signature)
    [ "$verdict" = valid ] || { echo "$levels: $verdict"; exit 1; }
    echo "levels $levels: what sign wrote is $verdict"
done
