#!/usr/bin/env bash
# Times the download of an image of 256 MiB from a server on this machine into a disk in a file, against hashing as many
# bytes and against curl with a sync, in this run. Fails where the least of three downloads takes more than 1.3 times the
# longer of the two others' least, or where a download held 32 MiB of memory or more. Wants a machine that does nothing
# else, curl and python3, and port 8765.
# Usage: bench/image.sh [FOLDER]      where the two programs are built and left; a folder that goes with the run if none
#                                     is named. What is committed is what is measured.
#
# No command of the program downloads an image and nothing else, so two small programs are proved and built in a copy of
# the repository: `download`, which makes a device on the disk and downloads into the area that its image doesn't use,
# and `hashing`, the bare loop of SHA-256 over the same number of pieces. The first build takes minutes.
set -euo pipefail
here=$(cd "$(dirname "$0")" && pwd)
work=$(mktemp -d)
server=
end() {
    [ -z "$server" ] || kill "$server" 2>/dev/null || true
    rm -rf "$work"
}
trap end EXIT
copy=$(realpath "${1:-$work/copy}")
mkdir -p "$copy"

# ---- the two programs

git -C "$here/.." archive HEAD crates crates.txt HANDLES | tar -x -C "$copy"
cd "$copy"
[ -d .git ] || git init -q

# uses NAME: the libraries of a crate, as crates.txt lists them
uses() { sed -n "s/^$1: *//p" crates.txt; }

{
    echo "download: sz_image sz_state sz_real $(echo "$(uses sz_image) $(uses sz_state) $(uses sz_real)" |
        tr ' ' '\n' | sort -u | tr '\n' ' ')"
    echo "hashing: sha2"
} >>crates.txt
mkdir -p crates/download/src crates/hashing/src

cat >crates/download/src/main.rt <<'END'
//! Makes a device on a disk in a file, and downloads an image into the area that is free. Words: the URI, the image's
//! SHA-256 as pairs of digits joined by colons, and the disk's file.
#![tactic(auto)]

use std::alloc::Global;
use std::env;
use std::process::ExitCode;
use std::rt::Env;
use sz_base::{Bytes, Certs, Identity, Serial, Text, colon_hex};
use sz_disk::Disk;
use sz_http::{Reading, Side};
use sz_image::fetch;
use sz_io::Net;
use sz_real::{FileDisk, RealNet};
use sz_state::{Held, attach, init, layout, staging};

fn main(rt: HostRuntime) -> ExitCode {
    let alloc = rt.alloc();
    let Some(uri) = word(&rt, 1) else {
        return ExitCode::from(2);
    };
    let Some(digest) = word(&rt, 2) else {
        return ExitCode::from(2);
    };
    let Some(hash) = colon_hex(digest.as_slice()) else {
        return ExitCode::from(2);
    };
    let Some(path) = word(&rt, 3) else {
        return ExitCode::from(2);
    };
    let mut disk = FileDisk::create(&rt, alloc, path);
    let mut net = RealNet::create(&rt, alloc);
    let Some(held) = made(alloc, &mut disk) else {
        return ExitCode::from(3);
    };
    match downloaded(alloc, &mut net, &mut disk, &held, &uri, &hash) {
        Some(size) if size > 0 => ExitCode::SUCCESS,
        _ => ExitCode::FAILURE,
    }
}

// The word at a place, counted from the program's name on.
fn word<R: Env + Alloc<A = Global>>(rt: &R, place: usize) -> Option<Text> {
    let words: Vec<String> = env::args(rt).ok()?.collect(rt.alloc()).ok()?;
    let word = words.get(place)?;
    Text::from_slice(rt.alloc(), word.as_bytes()).ok()
}

// A device made on the disk, and found there.
fn made<D: Disk>(alloc: Global, disk: &mut D) -> Option<Held> {
    let identity = identity(alloc)?;
    if !identity.is_whole() || layout(disk.size()).is_none() {
        return None;
    }
    if init(alloc, disk, &identity).is_err() {
        return None;
    }
    found(alloc, disk)
}

fn found<D: Disk>(alloc: Global, disk: &mut D) -> Option<Held> {
    if layout(disk.size()).is_none() {
        return None;
    }
    attach(alloc, disk).ok()
}

fn identity(alloc: Global) -> Option<Identity> {
    let mut anchors = Certs::create(alloc);
    anchors.push(Bytes::from_slice(alloc, b"anchor").ok()?).ok()?;
    Some(Identity {
        serial: Serial::read(alloc, b"A1").ok()?,
        anchors,
        os_name: Text::from_slice(alloc, b"os").ok()?,
        os_version: Text::from_slice(alloc, b"1").ok()?,
    })
}

// The size of the image, once it is on the disk and synced.
fn downloaded<N: Net, D: Disk>(
    alloc: Global,
    net: &mut N,
    disk: &mut D,
    held: &Held,
    uri: &Text,
    hash: &[u8; 32],
) -> Option<u64> {
    if layout(disk.size()).is_none() {
        return None;
    }
    let mut buffer = Reading::create(alloc, Side::Reply, u64::MAX).ok()?;
    let mut room = staging(held, disk);
    let answer = fetch(alloc, net, &mut room, uri, hash, &mut buffer);
    if answer.is_err() {
        return None;
    }
    let staged = room.finish().ok()?;
    Some(staged.size)
}
END

cat >crates/hashing/src/main.rt <<'END'
//! Hashes 256 MiB in pieces of 65,536 bytes.
#![tactic(auto)]

use sha2::{Digest, Sha256};
use std::process::ExitCode;

fn main(rt: HostRuntime) -> ExitCode {
    let Ok(piece) = vec![in rt.alloc(); 0u8; 65536] else {
        return ExitCode::FAILURE;
    };
    let mut hasher = Sha256::new();
    for _ in 0..4096u32 {
        hasher.update(piece.as_slice());
    }
    let digest = hasher.finalize();
    // the first byte of the digest of 268,435,456 zeros, as sha256sum prints it
    if digest[0] == 0xa6 {
        ExitCode::SUCCESS
    } else {
        ExitCode::FAILURE
    }
}
END

# build NAME WORD..: proves and builds a program, and runs it once on these words
build() {
    (cd "crates/$1" && rt fmt >/dev/null && rt run -- "${@:2}") >"$work/$1.log" 2>&1 ||
        { tail -n 40 "$work/$1.log"; exit 1; }
}

# ---- the image and its server

mkdir "$work/image"
head -c 268435456 /dev/urandom >"$work/image/image"
digest=$(sha256sum "$work/image/image" | cut -c1-64 | sed 's/../&:/g; s/:$//')
uri=http://127.0.0.1:8765/image
(cd "$work/image" && exec python3 -m http.server 8765 --bind 127.0.0.1 >"$work/server.log" 2>&1) &
server=$!
for _ in $(seq 50); do
    curl -s -o /dev/null -I "$uri" && break
    sleep 0.1
done

# a fresh disk of 1 GiB, whose areas hold just the image
fresh_disk() { rm -f "$work/disk" && truncate -s 1073741824 "$work/disk"; }

echo "building the two programs"
build hashing
fresh_disk
build download "$uri" "$digest" "$work/disk"

# ---- the times

# measure OUT COMMAND..: adds the milliseconds and the most KiB of memory of a run to this file
measure() {
    python3 - "$@" <<'END'
import resource, subprocess, sys, time
start = time.monotonic()
subprocess.run(sys.argv[2:], check=True, stdout=subprocess.DEVNULL)
spent = time.monotonic() - start
most = resource.getrusage(resource.RUSAGE_CHILDREN).ru_maxrss
with open(sys.argv[1], "a") as out:
    print(round(spent * 1000), most, file=out)
END
}

for round in 1 2 3; do
    fresh_disk
    rm -f "$work/copied"
    sync
    measure "$work/downloads" crates/download/out/download "$uri" "$digest" "$work/disk"
    measure "$work/hashings" crates/hashing/out/hashing
    measure "$work/copies" sh -c "curl -s -o '$work/copied' '$uri' && sync '$work/copied'"
done
cmp "$work/image/image" "$work/copied"

# least FILE, most FILE: the least time, and the most memory
least() { sort -n "$1" | head -n 1 | cut -d ' ' -f 1; }
most() { cut -d ' ' -f 2 "$1" | sort -n | tail -n 1; }

awk -v download="$(least "$work/downloads")" -v hashing="$(least "$work/hashings")" -v copy="$(least "$work/copies")" \
    -v memory="$(most "$work/downloads")" 'BEGIN {
        longer = hashing > copy ? hashing : copy
        printf "256 MiB: download %d ms, hashing %d ms, curl and sync %d ms; %.2f of the longer; %.1f MiB of memory\n",
            download, hashing, copy, download / longer, memory / 1024
        if (download > 1.3 * longer) { print "more than 1.3"; exit 1 }
        if (memory >= 32 * 1024) { print "32 MiB or more"; exit 1 }
    }'
