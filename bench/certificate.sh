#!/usr/bin/env bash
# Times the reading and the writing of a certificate of 64 MB, in a small program over the proved crates. Its
# records have some twenty lines, with rows of all families.
# Aims: reading in at most 1.5 s, writing in at most 1 s, peak memory in reading at most eight times the text.
set -eu
root=$(cd "$(dirname "$(readlink -f "${BASH_SOURCE[0]}")")/.." && pwd)
folder=$(mktemp -d)
trap 'rm -rf "$folder"' EXIT
cd "$folder"
git init -q
mkdir -p crates/certificate_bench/src
for crate in stow_data stow_io stowage_rules proof_trees zero_one_rows certificate; do
    cp -r "$root/crates/$crate" crates/
    grep "^$crate:" "$root/crates.txt" >>crates.txt
done
echo 'certificate_bench: certificate stow_data stow_io' >>crates.txt
cat >crates/certificate_bench/src/main.rt <<'RT'
//! Reads certificates, and writes again what stands behind the word `write`.
#![tactic(auto)]

use certificate::{read_cert, write_cert};
use std::env;
use std::io;
use stow_io::{Folder, RealFolder};

fn main(rt: HostRuntime) -> io::Result<()> {
    let alloc = rt.alloc();
    let mut folder = RealFolder::new(&rt, alloc);
    let mut writes = false;
    let mut is_program = true;
    for arg in env::args(&rt)? {
        if is_program {
            is_program = false;
            continue;
        }
        if arg.as_str() == "write" {
            writes = true;
            continue;
        }
        let Ok(bytes) = folder.read(arg.as_str()) else {
            continue;
        };
        if bytes.len() > 536_870_912 {
            continue;
        }
        let Ok((head, tree)) = read_cert(alloc, bytes.as_slice()) else {
            println!(rt; "no certificate")?;
            continue;
        };
        let count = tree.len();
        if writes {
            match write_cert(alloc, &head, &tree) {
                Ok(text) => println!(rt; "{count} records, the same text: {}", text.as_slice() == bytes.as_slice())?,
                Err(_) => println!(rt; "memory")?,
            }
        } else {
            println!(rt; "{count} records")?;
        }
    }
    Ok(())
}
RT
if ! (cd crates/certificate_bench && rt run -- none) >certificate_bench.log 2>&1; then
    cat certificate_bench.log >&2
    exit 70
fi
python3 - <<'PY'
import os, random, subprocess, time
r = random.Random(1)
def row():
    n = lambda high: r.randrange(high)
    return r.choice([
        lambda: f"flow {n(2)} {n(12)} {n(2000)}", lambda: f"start {n(2)} {n(3000)}", lambda: f"cell {n(12)} {n(6000)}",
        lambda: f"support {n(12)} {n(6000)}", lambda: f"twenty {n(12)} {n(6000)}", lambda: f"block {n(12)} {n(6000)}",
        lambda: f"hatch {n(2)} {n(12)} {n(6000)} {n(6000)}", lambda: f"weight {n(12)} {n(500)}",
        lambda: f"apart {n(12)} {n(20)} {n(3000)} {n(3000)}",
        lambda: "cross 40 " + str(1 + n(9)) + "".join(f" {c}" for c in sorted(r.sample(range(13), r.choice([4, 6, 8]))))])()
def record(end):
    steps = "".join(f"s {row()}\n" for _ in range(r.randrange(4, 14)))
    raises = "".join(f"r {r.randrange(-2**40, 2**40 + 1)} {row()}\n" for _ in range(r.randrange(4, 20)))
    return f"n {r.randrange(2)}\n{steps}{raises}{end}\n"
pool = [record(r.choice(["l", "o", f"b {r.randrange(12)} {r.randrange(2000)} {r.randrange(13)} {r.randrange(3000)}"])) for _ in range(2000)]
parts, size = ["stow-cert 1\noutcome gap\nrehandles 9\nbound 3\nnodes 1000\n"], 0
while size < 64_000_000:
    parts.append(r.choice(pool))
    size += len(parts[-1])
with open("X.cert", "w") as file:
    file.write("".join(parts) + "end\n")
def measure(*words):
    runs, peak = [], 0
    for _ in range(3):
        begin = time.perf_counter()
        child = subprocess.Popen(["crates/certificate_bench/out/certificate_bench", *words], stdout=subprocess.PIPE, text=True)
        said = child.stdout.read().strip()
        _, _, usage = os.wait4(child.pid, 0)
        runs.append(time.perf_counter() - begin)
        peak = max(peak, usage.ru_maxrss)
    return said, min(runs), peak * 1024
size = os.path.getsize("X.cert")
said, read, peak = measure("X.cert")
again, both, _ = measure("write", "X.cert")
print(f"certificate of {size} bytes: {again}; read in {read:.2f} s, written in {both - read:.2f} s, peak in reading {peak / size:.1f} times the text")
PY
