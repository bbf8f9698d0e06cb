#!/usr/bin/env bash
# Times the proved reader of plans over a file of 2,000 links and 20,000 absences (or as many as the arguments say). It is no
# test. It copies the crates that the reader stands on, adds a program that reads a plan, and proves and builds that there.
set -eu
cd "$(dirname "$0")/.."
links=${1:-2000}
absences=${2:-20000}
work=$(mktemp -d); trap 'rm -rf "$work"' EXIT
mkdir -p "$work/crates/plan_time/src"
for crate in rep_fields toml_fields tr_plan; do
  mkdir "$work/crates/$crate"
  cp -r "crates/$crate/src" "crates/$crate/specs" "$work/crates/$crate/"
  [ ! -d "crates/$crate/proofs" ] || cp -r "crates/$crate/proofs" "$work/crates/$crate/"
done
{ grep -E '^(rep_fields|toml_fields|tr_plan):' crates.txt; echo 'plan_time: tr_plan'; } > "$work/crates.txt"
cat > "$work/crates/plan_time/src/main.rt" <<'P'
//! Reads the plan in plan.toml, and says how long that took.
#![tactic(auto)]

use std::time::Instant;
use std::{fs, io};
use tr_plan::Plan;

fn main(rt: HostRuntime) -> io::Result<()> {
    let text = fs::read(&rt, "plan.toml")?;
    let start = Instant::now(&rt)?;
    let read = Plan::read(rt.alloc(), &text);
    let took = start.elapsed(&rt)?;
    match read {
        Ok(plan) => println!(rt; "{} links, {} absences", plan.links.len(), plan.absences.len())?,
        Err(fault) => println!(rt; "{fault}")?,
    }
    println!(rt; "{} bytes read in {} ms", text.len(), took.as_millis())
}
P
python3 - "$links" "$absences" > "$work/plan.toml" <<'P'
import sys
links, absences = map(int, sys.argv[1:])
def digits(nine):
    for weights in (range(10, 1, -1), range(11, 1, -1)):
        rest = sum(w * int(d) for w, d in zip(weights, nine)) % 11
        nine += str(0 if rest < 2 else 11 - rest)
    return nine
print('''[program]
name = "TRATADOR"
version = "1.0"
developer_kind = 1
developer = "11222333000181"
developer_name = "ACME SOFT"
email = "dev@acme.example"
offset = "-0300"
[[schedule]]
code = "N8"
minutes = 420
times = ["2200", "0200", "0300", "0600"]''')
# Half of the links are one person's, a day each; the others have a person each.
for i in range(links):
    if i % 2:
        cpf, day = digits(str(100000001 + i)), '2024-01-01"\nuntil = "2024-12-31'
    else:
        date = f'{2020 + i // 2 // 336}-{i // 2 % 336 // 28 + 1:02}-{i // 2 % 28 + 1:02}'
        cpf, day = '11144477735', f'{date}"\nuntil = "{date}'
    print(f'[[link]]\nid = {i + 1}\ncpf = "{cpf}"\nname = "MARIA"\nschedule = "N8"\nsince = "{day}"')
for i in range(absences):
    print(f'[[absence]]\nlink = {i % links + 1}\nkind = {i % 2 * 2 + 1}\ndate = "2024-03-04"' + ('\nminutes = 60\nmovement = 2' if i % 2 else ''))
P
(cd "$work/crates/plan_time" && rt run > "$work/run.log" 2>&1) || true
program="$work/crates/plan_time/out/plan_time"
[ -x "$program" ] || { tail -20 "$work/run.log" >&2; exit 1; }
cd "$work" && "$program"
