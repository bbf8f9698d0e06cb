# What the scripts beside this one begin with, sourced at the top of the checkout. It sets `program` to the proved program, and
# `work` to a new folder that is removed at the end; `timed FILE WORD ..` runs the Python text FILE (- for standard input) over both.
program=$(realpath "${program:-crates/rep_cli/out/rep_cli}")
[ -x "$program" ] || { echo "build it first: cd crates/rep_cli && rt run -- --version" >&2; exit 2; }
work=$(mktemp -d "${folder:-${TMPDIR:-/tmp}}/bench.XXXXXX")
trap 'rm -rf "$work"' EXIT

need() { # command, what it is
  command -v "$1" >/dev/null || { echo "$2 is needed" >&2; exit 2; }
}

timed() {
  PYTHONPATH="$PWD/bench" PYTHONDONTWRITEBYTECODE=1 python3 - "$program" "$work" "$@"
}
