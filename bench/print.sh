#!/usr/bin/env bash
# Times the proved program's `print`: wall time and peak memory over the example lane, and over lanes of 500 inclusions
# and a growing number of clockings. It is no test.
#
# usage: bench/print.sh [PROGRAM] [CLOCKINGS ..]
set -eu
cd "$(dirname "$0")/.."
program=${1:-}
[ $# -eq 0 ] || shift
[ $# -gt 0 ] || set -- 2000 5000 10000 20000
. bench/prelude.sh
need /usr/bin/time "GNU time (apt-get install time)"
cp examples/acme-day.lane "$work/example"
timed "$@" <<'P'
import sys
import lanes
from proved import Bench
bench, sizes = Bench(*sys.argv[1:3]), [int(word) for word in sys.argv[3:]]
staff = 500
def measure(label, name, times):
    words = ("print", name, "afd", "-0300")
    runs = [bench.run(*words) for _ in range(times)]
    best, said = min(took for took, _ in runs), runs[0][1].decode("latin-1").splitlines()[-1]
    with open(bench.path(name), "rb") as file: lines = sum(1 for _ in file) - 1
    print(f"{label}: {said}, {best * 1000:.1f} ms, {best / lines * 1e6:.2f} us a line, peak {bench.peak(*words):.1f} MiB")
measure("example lane", "example", 5)
for count in sizes:
    bench.write("lane", lanes.printed(staff, count))
    measure(f"{staff} inclusions, {count} clockings", "lane", 1)
P
