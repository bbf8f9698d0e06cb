#!/usr/bin/env bash
# Tries on real files that a command never destroys what it reads or keeps: the slips of a hand (an output that is the journal, the
# lane or the site, by its name, by links of both kinds, or as standard output), outputs of other kinds (a folder, a pipe, devices, a
# closed standard output, one that is full or too long), journals that are missing or may only be read, a second program while one
# works, and a signal in mid-run. After each command every file is compared byte by byte with what stood before, and every name and
# mode, but for those that it was to write. It prints a line a check, and ends with status 0 only where all held.
#
# usage: [SMALL=FOLDER] tests-real/outputs.sh [PROGRAM]
#
# It mounts nothing. What a full disk does is tried where SMALL names an empty folder on a file system of at most some megabytes, as
# after `mount -t tmpfs -o size=256k none FOLDER`. Journals that may only be read are tried as the user `nobody` where root runs it,
# since modes don't bind root. It is no part of `rt ci`.
set -eu
cd "$(dirname "$0")/.."
program=$(realpath "${1:-crates/rep_cli/out/rep_cli}")
[ -x "$program" ] || { echo "build it first: cd crates/rep_cli && rt run -- --version" >&2; exit 2; }
exec env PYTHONPATH="$PWD/bench" PYTHONDONTWRITEBYTECODE=1 python3 tests-real/outputs.py "$program"
