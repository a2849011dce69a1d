#!/usr/bin/env bash
# Runs `sztp onboard` on what a source without any key can send: a certificate of 1 MiB full of extensions, unsigned JSON of
# 1 MiB, a reply with JSON of 6 MiB, and certificates that all issued each other. Prints the seconds and the memory of each
# beside their bounds, and fails where one is over. The last one's seconds are those of the signatures that are verified.
# Usage: bench/hostile.sh [PROGRAM]      the built program, crates/sztp/out/sztp if none is named. Wants python3.
set -euo pipefail
here=$(cd "$(dirname "$0")" && pwd)
program=$(realpath "${1:-$here/../crates/sztp/out/sztp}")
most_seconds=1
most_kib=32768
work=$(mktemp -d)
server=
end() {
    [ -z "$server" ] || kill "$server" 2>/dev/null || true
    rm -rf "$work"
}
trap end EXIT
cd "$work"
count=$(python3 "$here/hostile.py" .)
python3 "$here/hostile.py" --serve >port &
server=$!
for _ in $(seq 100); do
    [ -s port ] && break
    sleep 0.1
done

# attack NAME STATUS SOURCE [SECONDS]: a fresh device onboards from this source, in so many seconds or in those of all
attack() {
    local name=$1 due=$2 most_seconds=${4:-$most_seconds} status=0 seconds kib
    truncate -s 0 disk
    truncate -s 8M disk
    "$program" init identity.json @disk >/dev/null
    command time -f "%e %M" -o spent -q timeout 300 "$program" onboard @disk "$3" >printed || status=$?
    read -r seconds kib < <(tail -n 1 spent)
    echo "$name: $seconds s of at most $most_seconds, $kib KiB of at most $most_kib, status $status: $(tail -n 1 printed)"
    if [ "$status" != "$due" ] || [ "$kib" -gt $most_kib ] || ! awk -v s="$seconds" -v most=$most_seconds 'BEGIN { exit s > most }'; then
        sed 's/^/    /' printed
        over=1
    fi
}
over=0
attack "a certificate with $count extensions, in two messages" 0 usb:extensions
attack "unsigned JSON of 1 MiB" 20 usb:members
attack "a reply of 6 MiB" 20 "server:127.0.0.1:$(cat port)"
attack "16 certificates that all issued each other" 20 usb:circle 60
exit $over
