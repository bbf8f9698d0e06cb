#!/usr/bin/env bash
# Times `drill` over schedules of 10,000 events, of which one message in 100, in 20 and in 5 meets a failure or a crash and a
# reopening, and over shorter ones, with the peak of memory. It is no test.
#
# usage: bench/drill.sh [PROGRAM] [EVENTS ..]
set -eu
cd "$(dirname "$0")/.."
program=${1:-}
[ $# -eq 0 ] || shift
[ $# -gt 0 ] || set -- 2500 5000 10000
. bench/prelude.sh
need /usr/bin/time "GNU time (apt-get install time)"
timed "$@" <<'P'
import sys
import schedules
from proved import Bench
bench, sizes = Bench(*sys.argv[1:3]), [int(word) for word in sys.argv[3:]]
for every in (100, 20, 5):
    for events in sizes:
        text, entries = schedules.crashing(events, every)
        bench.write("schedule", text)
        best = min(bench.run("drill", "schedule", last=f"DRILL|{events}|{entries}")[0] for _ in range(3))
        crashes = sum(text.count(f"\n{letter}|") for letter in "FKC")
        print(f"{events} events, {crashes} failures and crashes, {entries} entries: {best:.2f} s, peak {bench.peak('drill', 'schedule'):.1f} MiB")
P
