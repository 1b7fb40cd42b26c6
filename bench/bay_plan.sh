#!/usr/bin/env bash
# Times the bay plan reader on a message of 20,000 cell groups (6 MB), in a small program over the proved crates
# that makes the text and reads it. Aim: at most 150 ms.
set -eu
root=$(cd "$(dirname "$(readlink -f "${BASH_SOURCE[0]}")")/.." && pwd)
folder=$(mktemp -d)
trap 'rm -rf "$folder"' EXIT
cd "$folder"
git init -q
mkdir -p crates/read_bench/src crates/fill_bench/src
for crate in stow_data edifact_segments baplie; do
    cp -r "$root/crates/$crate" crates/
done
cat >crates.txt <<'TXT'
stow_data: arrayvec
edifact_segments: stow_data
baplie: stow_data edifact_segments itoa
fill_bench: stow_data
read_bench: baplie stow_data
TXT
cat >crates/read_bench/src/main.rt <<'RT'
//! Makes a long bay plan and reads it.
#![tactic(auto)]

use baplie::read_baplie;
use std::io;
use stow_data::{Bytes, NoMemory};

const GROUP: &[u8] = b"LOC+147+0020102::5'
FTX+AAI+++O?'NEIL ?+ CO'
MEA+VGM++KGM:21999.5'
DIM+5+CMT:10'
LOC+9+NLRTM:139:6'
LOC+11+DEHAM:139:6'
LOC+83+DEHAM:139:6'
RFF+BM:1'
TMP+2+-18:CEL'
EQD+CN+ABCU1234567+42G1+++5'
NAD+CA+ABC:172:20'
FTX+AAA+++GENERAL CARGO, NOT FURTHER SPECIFIED, SHIPPER LOAD AND COUNT'
DGS+IMD+3+1263'
";

fn fill(text: &mut Bytes) -> Result<(), NoMemory> {
    text.extend(b"UNB+UNOA:2+LINE+SHIP+260131:0900+77'\nUNH+1+BAPLIE:D:95B:UN:SMDG22'\nBGM++PLAN1+9'\n")?;
    for _index in 0..20_000 {
        text.extend(GROUP)?;
    }
    text.extend(b"UNT+260003+1'\nUNZ+1+77'\n")
}

fn main(rt: HostRuntime) -> io::Result<()> {
    let mut text = Bytes::new(rt.alloc());
    if fill(&mut text).is_err() || text.len() > 536_870_912 {
        return println!(rt; "memory");
    }
    let length = text.len();
    match read_baplie(rt.alloc(), text.as_slice()) {
        Ok(message) => {
            let count = message.groups.len();
            println!(rt; "{length} bytes, {count} groups")
        }
        Err(fault) => println!(rt; "{fault:?}"),
    }
}
RT
# The same program without the reading: its time is taken off.
sed -e '/^use baplie::/d' -e '/match read_baplie/,/^    }$/c\    println!(rt; "{length} bytes")' \
    crates/read_bench/src/main.rt >crates/fill_bench/src/main.rt
for crate in read_bench fill_bench; do
    if ! (cd "crates/$crate" && rt run) >"$crate.log" 2>&1; then
        cat "$crate.log" >&2
        exit 70
    fi
done
python3 - <<'PY'
import os, subprocess, time
def measure(name):
    walls, users, peak = [], [], 0
    for _ in range(5):
        begin = time.perf_counter()
        child = subprocess.Popen([f"crates/{name}/out/{name}"], stdout=subprocess.PIPE, text=True)
        said = child.stdout.read().strip()
        _, status, usage = os.wait4(child.pid, 0)
        walls.append(time.perf_counter() - begin)
        users.append(usage.ru_utime)
        peak = max(peak, usage.ru_maxrss)
    return said, min(walls), min(users), peak / 1024
said, wall, user, peak = measure("read_bench")
_, filled, filled_user, _ = measure("fill_bench")
print(f"bay plan: {said}; read in {1000 * (wall - filled):.0f} ms ({1000 * (user - filled_user):.0f} ms of user time), peak {peak:.0f} MB")
PY
