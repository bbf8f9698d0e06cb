#!/usr/bin/env bash
# Times the proved program's `run` over a lane of which each second line was sent before, against a plain loop in C that makes sure
# of as many records as are new, by fdatasync and by fsync, in the same folder and in turns; and then the same lane again, of which
# no line is new. It is no test.
#
# usage: bench/resend.sh [PROGRAM] [FOLDER] [ROUNDS]
set -eu
cd "$(dirname "$0")/.."
program=${1:-} folder=${2:-} rounds=${3:-5}
. bench/prelude.sh
need cc "a C compiler, for the loop,"
cc -O2 -Wall -o "$work/loop" bench/journal_loop.c
timed "$rounds" <<'P'
import statistics, sys
import lanes
from proved import Bench
bench, rounds = Bench(*sys.argv[1:3]), int(sys.argv[3])
records, staff = 2500, 50
lines = 2 * records
bench.write("resent", lanes.resent(records, staff, seed=671))
bench.write("head", "L|1|01\n")
loops = {"fdatasync": [], "fsync": []}
half, again = [], []
for _ in range(rounds):
    last = bench.begin_journal(staff) + records
    served = f"RUN|1|{lines}|{lines}|0|{last}"
    half.append(bench.run("run", "site", "journal", "resent", last=served)[0])
    for sync, times in loops.items():
        times.append(bench.loop(records, sync))
    # what the program and its reopening take is no part of what a line takes
    opened, _ = bench.run("run", "site", "journal", "head", last=f"RUN|1|0|0|0|{last}")
    again.append((bench.run("run", "site", "journal", "resent", last=served)[0] - opened) / lines)
print(f"{lines} lines, {records} of them sent again: {statistics.median(half) * 1000:.0f} ms, from start to end of the program")
for sync, times in loops.items():
    ratio = statistics.median(b / a for a, b in zip(half, times))
    print(f"C loop, {records} records, {sync}: {statistics.median(times) * 1000:.0f} ms")
    print(f"run against it: {ratio:.3f} times its records a second, the median of {rounds} rounds")
print(f"the same lane again: {statistics.median(again) * 1e6:.1f} us a line, the opening of the journal left out")
P
