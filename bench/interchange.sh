#!/usr/bin/env bash
# Times the interchange reader on a text of 64 MB of short segments, with its peak memory, in a small
# program over the proved crates that makes the text and reads it.
# Aims: at most 1 s, and at most six times the text.
set -eu
root=$(cd "$(dirname "$(readlink -f "${BASH_SOURCE[0]}")")/.." && pwd)
folder=$(mktemp -d)
trap 'rm -rf "$folder"' EXIT
cd "$folder"
git init -q
mkdir -p crates/read_bench/src crates/fill_bench/src
cp -r "$root/crates/stow_data" "$root/crates/edifact_segments" crates/
cat >crates.txt <<'TXT'
stow_data: arrayvec
edifact_segments: stow_data
fill_bench: stow_data
read_bench: edifact_segments stow_data
TXT
cat >crates/read_bench/src/main.rt <<'RT'
//! Makes a long interchange and reads it.
#![tactic(auto)]

use edifact_segments::read_interchange;
use std::io;
use stow_data::{Bytes, NoMemory};

fn fill(text: &mut Bytes) -> Result<(), NoMemory> {
    text.extend(b"UNB+UNOA:2+LINE+PORT+260101:1200+77'\n")?;
    for _index in 0..560_000 {
        text.extend(b"LOC+147+0020102::5'\nMEA+WT++KGM:22000'\nLOC+11+DEHAM:139:6'\nRFF+BM:1'\nEQD+CN+ABCU1234567+42G1+++5'\nNAD+CA+ABC:172:20'\n")?;
    }
    text.extend(b"UNZ+1+77'\n")
}

fn main(rt: HostRuntime) -> io::Result<()> {
    let mut text = Bytes::new(rt.alloc());
    if fill(&mut text).is_err() || text.len() > 536_870_912 {
        return println!(rt; "memory");
    }
    let length = text.len();
    match read_interchange(rt.alloc(), text.as_slice()) {
        Ok(segments) => {
            let count = segments.len();
            println!(rt; "{length} bytes, {count} segments")
        }
        Err(fault) => println!(rt; "{fault:?}"),
    }
}
RT
# The same program without the reading: its time is taken off.
sed -e '/edifact_segments/d' -e '/match read_interchange/,/^    }$/c\    println!(rt; "{length} bytes")' \
    crates/read_bench/src/main.rt >crates/fill_bench/src/main.rt
for crate in read_bench fill_bench; do
    if ! (cd "crates/$crate" && rt run) >"$crate.log" 2>&1; then
        cat "$crate.log" >&2
        exit 70
    fi
done
python3 - <<'PY'
import os, subprocess, time
def measure(name):
    runs, peak = [], 0
    for _ in range(3):
        begin = time.perf_counter()
        child = subprocess.Popen([f"crates/{name}/out/{name}"], stdout=subprocess.PIPE, text=True)
        said = child.stdout.read().strip()
        _, status, usage = os.wait4(child.pid, 0)
        runs.append(time.perf_counter() - begin)
        peak = max(peak, usage.ru_maxrss)
    return said, min(runs), peak / 1024
said, whole, peak = measure("read_bench")
_, made, _ = measure("fill_bench")
size = int(said.split()[0]) / 1e6
print(f"interchange: {said}; read in {whole - made:.2f} s ({whole:.2f} s with making the text), peak {peak:.0f} MB, {peak * 1.048576 / size:.1f} times the text")
PY
