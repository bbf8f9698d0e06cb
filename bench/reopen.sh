#!/usr/bin/env bash
# Times the opening of a journal: `run` of a lane that has its head alone, over journals of a growing number of frames, with its
# peak memory. It is no test.
#
# usage: bench/reopen.sh [PROGRAM] [FRAMES ..]
set -eu
cd "$(dirname "$0")/.."
program=${1:-}
[ $# -eq 0 ] || shift
[ $# -gt 0 ] || set -- 1000 5000 20000
. bench/prelude.sh
need /usr/bin/time "GNU time (apt-get install time)"
timed "$@" <<'P'
import os, sys
from proved import Bench
bench, sizes = Bench(*sys.argv[1:3]), [int(word) for word in sys.argv[3:]]
staff = 400
bench.write("head", "L|2|01\n")
words = ("run", "site", "journal", "head")
frames = bench.begin_journal(staff)
for size in sizes:
    frames = bench.grow_journal(frames, size, staff)
    best = min(bench.run(*words, last=f"RUN|1|0|0|0|{frames}")[0] for _ in range(5))
    length = os.path.getsize(bench.path("journal"))
    print(f"{frames} frames, {length} bytes: {best * 1000:.1f} ms, {best / frames * 1e6:.2f} us a frame, peak {bench.peak(*words):.1f} MiB")
P
