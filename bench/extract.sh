#!/usr/bin/env bash
# Times `extract` out of journals of a growing length: of all records, and of a day before them, for which the journal is opened
# and no record is written. The difference is what the records cost beyond the opening. It says the peak of memory of both, and
# looks whether the file has as many lines as it should. It is no test.
#
# usage: bench/extract.sh [PROGRAM] [RECORDS ..]
set -eu
cd "$(dirname "$0")/.."
program=${1:-}
[ $# -eq 0 ] || shift
[ $# -gt 0 ] || set -- 1000 5000 20000
. bench/prelude.sh
need /usr/bin/time "GNU time (apt-get install time)"
timed "$@" <<'P'
import statistics, sys
from proved import Bench
bench, sizes = Bench(*sys.argv[1:3]), [int(word) for word in sys.argv[3:]]
staff, rounds = 400, 15
# bytes of an AFD's lines with their ends: head, trailer and signature line, and a record of the employer, a worker, a clocking
FRAME, EMPLOYER, WORKER, CLOCKING = 472, 333, 120, 139
whole = ("site", "journal", "1970-01-02", "9999-12-31", "afd")
none = ("site", "journal", "1970-01-01", "1970-01-01", "afd")
records = bench.begin_journal(staff)
for size in sizes:
    records = bench.grow_journal(records, size, staff)
    length = FRAME + EMPLOYER + staff * WORKER + (records - 1 - staff) * CLOCKING
    took, opened = [], []
    for _ in range(rounds):
        # in turns, so that what else the machine does falls on both
        opened.append(bench.run("extract", *none, last=f"EXTRACT|0|0|{FRAME}")[0])
        took.append(bench.run("extract", *whole, last=f"EXTRACT|1|{records}|{length}")[0])
    with open(bench.path("afd"), "rb") as file: afd = file.read()
    if len(afd) != length or afd.count(b"\r\n") != records + 3: sys.exit("another file than was said")
    cost = min(took) - min(opened)
    middle = statistics.median(took) - statistics.median(opened)
    print(f"{records} records, {length} bytes: {min(took) * 1000:.1f} ms, of which the opening {min(opened) * 1000:.1f} ms; beyond it"
          f" {cost / records * 1e6:.2f} us a record (of medians {middle / records * 1e6:.2f}), peak {bench.peak('extract', *whole):.1f} MiB,"
          f" of the opening {bench.peak('extract', *none):.1f} MiB")
P
