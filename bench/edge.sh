#!/usr/bin/env bash
# Shows what `sztp check` does at the edge of the system: words, files that are no plain files, outputs that refuse, and
# files of 1 GiB in little memory. Prints a line a row, and fails at the first that isn't as it should be.
# Usage: bench/edge.sh [PROGRAM]      the built program, crates/sztp/out/sztp if none is named
set -euo pipefail
here=$(cd "$(dirname "$0")" && pwd)
program=$(realpath "${1:-$here/../crates/sztp/out/sztp}")
work=$(mktemp -d)
trap 'chmod -R u+rwX "$work"; rm -rf "$work"' EXIT
chmod 755 "$work"
cp "$here/data/h5w8/public" "$here/data/h5w8/signature" "$work"
head -c 55 /dev/zero >"$work/message"
cd "$work"

# row NAME LINE STATUS WORD..: the program, run with these words, prints this line and ends with this status
row() {
    local name=$1 line=$2 status=$3 got=0 printed
    shift 3
    printed=$(timeout 20 "${as_nobody[@]}" "$program" "$@" 2>&1) || got=$?
    if [ "$printed" != "$line" ] || [ "$got" != "$status" ]; then
        echo "$name: '$printed' with status $got, where '$line' with $status is due"
        exit 1
    fi
    echo "$name: $line, status $status"
}
as_nobody=()

# ---- words
row "three paths" valid 0 check public message signature
row "paths behind --" valid 0 check -- public message signature
row "an option" usage 2 check --help
row "an unknown option" usage 2 check public message -x
row "a word that is no text" usage 2 check public message $'\xff'
row "one path twice" "not valid: levels" 3 check public message public

# ---- files that are no plain files
mkdir folder
mkfifo pipe
ln -s loop loop
ln -s nowhere dangling
head -c 55 /dev/zero >secret
chmod 000 secret
for file in folder pipe /dev/null loop message/below /proc/version; do
    row "$file" "file fault: $file" 33 check public "$file" signature
done
row "a dangling link" "no file: dangling" 33 check public dangling signature
# the superuser may read all files, so the program is run as somebody else
if [ "$(id -u)" = 0 ]; then as_nobody=(setpriv --reuid=65534 --regid=65534 --clear-groups); fi
row "a file without leave to read" "file fault: secret" 33 check public secret signature
as_nobody=()

# ---- outputs that refuse
refused() {
    if [ "$2" != 32 ]; then
        echo "$1: status $2, where 32 is due"
        exit 1
    fi
    echo "$1: status 32"
}
status=0
"$program" check public message signature >&- || status=$?
refused "a closed output" $status
status=0
"$program" check public message signature >/dev/full || status=$?
refused "a full output" $status
{
    sleep 0.2
    status=0
    "$program" check public message signature || status=$?
    echo $status >status
} | true
refused "a broken pipe" "$(cat status)"
[ "$(cat message | sha256sum)" = "$(head -c 55 /dev/zero | sha256sum)" ] || { echo "an input was written"; exit 1; }

# ---- descriptors
status=0
"$program" check public message signature <&- >&- 2>&- || status=$?
refused "no descriptor at all" $status
few=$(ulimit -n 6 && "$program" check public message signature)
[ "$few" = valid ] || { echo "six descriptors: '$few', where 'valid' is due"; exit 1; }
echo "six descriptors: valid"

# ---- files of 1 GiB, each in less than 4 MiB of memory

# large NAME LINE WORD..: the program, run with these words, prints this line and ends with 3; sets `spent` (nanoseconds)
large() {
    local name=$1 due=$2 status=0 start most line
    shift 2
    start=$(date +%s%N)
    command time -f %M -o most -q "$program" "$@" >printed || status=$?
    spent=$(($(date +%s%N) - start))
    most=$(tail -n 1 most)
    line=$(cat printed)
    echo "$name of 1 GiB: $line, status $status, $most KiB of memory at most"
    if [ "$line" != "$due" ] || [ $status != 3 ] || [ "$most" -ge 4096 ]; then
        echo "$name of 1 GiB: '$due', status 3 and less than 4096 KiB are due"
        exit 1
    fi
}
truncate -s 1G zeros
cp public longer-key
truncate -s 1G longer-key
cp signature longer-signature
truncate -s 1G longer-signature
large "a key" "not valid: length" check longer-key message signature
large "a signature" "not valid: length" check public message longer-signature
large "a file" "not valid: root" check public zeros signature

# seconds of openssl for the same bytes; $1 masks the processor's extensions, if any
hashed() {
    local start
    start=$(date +%s%N)
    OPENSSL_ia32cap=$1 openssl dgst -sha256 zeros >/dev/null
    echo $(($(date +%s%N) - start))
}
awk -v spent=$spent -v with="$(hashed "")" -v without="$(hashed ":~0x20000000")" 'BEGIN {
    printf "the file of 1 GiB: %.2f s, %.2f of openssl, %.2f of it without SHA extensions\n",
        spent / 1e9, spent / with, spent / without }'
