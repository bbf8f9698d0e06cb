#!/usr/bin/env bash
# Kills the real program by SIGKILL at random moments of a run, opens the journal again by running the same lane, and looks
# whether what was receipted before the kill stands, and whether the bytes of the records before it are unchanged. The lane has lines that
# are sent again, exclusions, and extractions where the program takes them. The moments come from a fixed seed.
#
# usage: tests-real/kill.sh [PROGRAM]
#
# It is no part of `rt ci`: it shows that the order of writes holds when the process ends anywhere. What the machine itself loses
# when its power fails can't be shown so.
set -eu
cd "$(dirname "$0")/.."
program=$(realpath "${1:-crates/rep_cli/out/rep_cli}")
[ -x "$program" ] || { echo "build it first: cd crates/rep_cli && rt run -- --version" >&2; exit 2; }
exec env PYTHONPATH="$PWD/bench" PYTHONDONTWRITEBYTECODE=1 python3 tests-real/kill.py "$program"
