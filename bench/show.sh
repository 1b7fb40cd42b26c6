#!/usr/bin/env bash
# Times `stow show` of the built program, with its peak memory, on a bay plan of 20,000 cell groups (6 MB).
# Aim: at most 250 ms.
set -eu
root=$(cd "$(dirname "$(readlink -f "${BASH_SOURCE[0]}")")/.." && pwd)
"$root/bin/stow" show >/dev/null || true   # builds the program where sources changed
program=$root/crates/stow_main/out/stow_main
folder=$(mktemp -d)
trap 'rm -rf "$folder"' EXIT
cd "$folder"
python3 - "$program" <<'PY'
import os, subprocess, sys, time
group = """LOC+147+0020102::5'
FTX+AAI+++O?'NEIL ?+ CO'
MEA+VGM++KGM:21999.5'
DIM+5+CMT:10'
LOC+9+NLRTM:139:6'
LOC+11+DEHAM:139:6'
LOC+83+DEHAM:139:6'
RFF+BM:1'
TMP+2+-18:CEL'
EQD+CN+ABCU1234567+42G1+++5'
NAD+CA+ABC:172:20'
FTX+AAA+++GENERAL CARGO, NOT FURTHER SPECIFIED, SHIPPER LOAD AND COUNT'
DGS+IMD+3+1263'
"""
count = 20000
with open("plan.edi", "w") as file:
    file.write("UNB+UNOA:2+LINE+SHIP+260131:0900+77'\nUNH+1+BAPLIE:D:95B:UN:SMDG22'\nBGM++PLAN1+9'\n")
    file.write(group * count)
    file.write(f"UNT+{3 + 13 * count}+1'\nUNZ+1+77'\n")
runs, users, peak = [], [], 0
for _ in range(5):
    begin = time.perf_counter()
    child = subprocess.Popen([sys.argv[1], "show", "plan.edi"], stdout=subprocess.PIPE, text=True)
    said = child.stdout.read()
    _, status, usage = os.wait4(child.pid, 0)
    runs.append(time.perf_counter() - begin)
    users.append(usage.ru_utime)
    peak = max(peak, usage.ru_maxrss)
size = os.path.getsize("plan.edi")
print(f"{size} bytes: status {os.waitstatus_to_exitcode(status)}, {' '.join(said.split()[-4:])}; "
      f"least {min(runs) * 1000:.0f} ms of 5, {min(users) * 1000:.0f} ms of user time, peak {peak / 1024:.0f} MB")
PY
