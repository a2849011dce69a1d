#!/usr/bin/env bash
# Onboards two devices on this machine by evidence that other software makes: the first from a folder, as a stick holds
# it; the second from a bootstrap server over HTTP, which gives it an image to install before it is committed. Then
# audits both and shows them. Prints each command with its lines, and fails at the first status or line that isn't due.
# Usage: demo/onboard.sh [PROGRAM]      the built program, crates/sztp/out/sztp if none is named. Wants python3.
set -euo pipefail
here=$(cd "$(dirname "$0")" && pwd)
program=$(realpath "${1:-$here/../crates/sztp/out/sztp}")
work=$(mktemp -d)
server=
end() {
    [ -z "$server" ] || kill "$server" 2>/dev/null || true
    rm -rf "$work"
}
trap end EXIT
cd "$work"

# due STATUS LAST WORD..: the program, run on these words, ends with this status and this line. What it printed is left
# in the file `printed`.
due() {
    local status=$1 last=$2 got=0
    shift 2
    echo "\$ sztp $*"
    timeout 120 "$program" "$@" >printed || got=$?
    sed 's/^/    /' printed
    if [ "$got" != "$status" ] || [ "$(tail -n 1 printed)" != "$last" ]; then
        echo "status $got, where $status is due with '$last'"
        exit 1
    fi
    echo "    status $got"
}

# printed PATTERN: one of the lines that the last command printed
printed() {
    if ! grep -qx -- "$1" printed; then
        echo "a line '$1' is due"
        exit 1
    fi
}

# shown FILE: the size and the SHA-256 of a file, as a device's image and configuration are shown
shown() { echo "$(stat -c %s "$1") $(sha256sum "$1" | cut -c1-64)"; }

# device SERIAL FOLDER: a device, made on a fresh disk by the identity that stands in this folder
device() {
    due 0 "initialised $1" init "$2/identity.json" "@$1.disk"
}

# ---- what the maker and the owner make

mkdir -p empty store/serial store/images
python3 "$here/server.py" store >port 2>requests &
server=$!
for _ in $(seq 100); do
    [ -s port ] && break
    sleep 0.1
done
port=$(cat port)
[ -n "$port" ] || { cat requests; exit 1; }

printf 'hostname first' >first
printf 'hostname second' >second
seq 200000 >store/images/os-2
images=http://127.0.0.1:$port/images
python3 "$here/evidence.py" stick A1 --configuration "$(cat first)"
python3 "$here/evidence.py" store/serial/A2 A2 --configuration "$(cat second)" \
    --image store/images/os-2 --os-version 2 --uri "$images/none" "$images/os-2"

# ---- a device and a stick

device A1 stick
due 0 "onboarded A1" onboard @A1.disk usb:stick
printed "source 1 depth 0 usb:stick: accepted"
due 0 "already onboarded A1" onboard @A1.disk usb:stick

# ---- a device and a server: sticks without anything and for another device give nothing

device A2 store/serial/A2
due 20 "no source" onboard @A2.disk usb:empty usb:stick
due 10 "installed A2 os 2, restart" onboard @A2.disk usb:empty "server:127.0.0.1:$port"
printed "source 1 depth 0 usb:empty: 2 Absent"
printed "source 2 depth 0 .*127.0.0.1:$port: accepted"
due 0 "onboarded A2" onboard @A2.disk "server:127.0.0.1:$port"
due 0 "already onboarded A2" onboard @A2.disk "server:127.0.0.1:$port"

# ---- what they hold, and that it is authorised

due 0 "configuration $(shown first)" show @A1.disk
printed "stage onboarded"
printed "running os 1"
due 0 "configuration authorised" audit @A1.disk

due 0 "configuration $(shown second)" show @A2.disk
printed "stage onboarded"
printed "running os 2"
printed "image 0 $(shown store/images/os-2)"
due 0 "configuration authorised" audit @A2.disk
printed "image authorised"

# ---- an image that was changed on the disk: a disk has 4 GiB, and its first area begins at a quarter

printf x | dd of=A2.disk bs=1 seek=1073741824 conv=notrunc status=none
due 3 "configuration authorised" audit @A2.disk
printed "image other bytes"

echo "two devices are onboarded"
