#!/usr/bin/env bash
# Times the proved program's `run`, which makes sure of each record before it answers, against a plain loop in C that does the
# same writes and syncs and nothing else, in the same folder and in turns. It is no test.
#
# usage: bench/run.sh [PROGRAM] [FOLDER] [ROUNDS]
set -eu
cd "$(dirname "$0")/.."
program=${1:-} folder=${2:-} rounds=${3:-5}
. bench/prelude.sh
need cc "a C compiler, for the loop,"
cc -O2 -Wall -o "$work/loop" bench/journal_loop.c
timed "$rounds" <<'P'
import statistics, sys
import lanes
from proved import Bench
bench, rounds = Bench(*sys.argv[1:3]), int(sys.argv[3])
records, staff = 5000, 50
bench.write("marks", lanes.clockings(records, staff))
rates = {"run": [], "fdatasync": [], "fsync": []}
for _ in range(rounds):
    before = bench.begin_journal(staff)
    took, _ = bench.run("run", "site", "journal", "marks", last=f"RUN|1|{records}|{records}|0|{before + records}")
    rates["run"].append(records / took)
    for sync in ("fdatasync", "fsync"):
        rates[sync].append(records / bench.loop(records, sync))
for name, label in (("run", "run, from start to end of the program"), ("fdatasync", "C loop, fdatasync"), ("fsync", "C loop, fsync")):
    each = ", ".join(f"{rate:.0f}" for rate in rates[name])
    print(f"{label}: {statistics.median(rates[name]):.0f} records a second ({each})")
for sync in ("fdatasync", "fsync"):
    ratio = statistics.median(a / b for a, b in zip(rates["run"], rates[sync]))
    print(f"run against the loop with {sync}: {ratio:.3f} times, the median of {rounds} rounds of {records} records")
P
