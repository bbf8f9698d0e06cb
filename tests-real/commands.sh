#!/usr/bin/env bash
# Runs the built program once for each command, on the repository's examples, and compares what it says, writes and ends with.
# What hangs on the clock (stamps and hashes) is left out of the comparison.
set -u
cd "$(dirname "$0")/.." || exit 2
program=${1:-crates/rep_cli/out/rep_cli}
program=$(realpath "$program") || exit 2
examples=$PWD/examples
folder=$(mktemp -d) || exit 2
trap 'rm -rf "$folder"' EXIT
cp "$examples"/* "$folder" && cd "$folder" || exit 2
failed=0

# check NAME STATUS SAID WORD..: the words are run; SAID is compared with each line's fields that don't hang on the clock
check() {
    local name=$1 status=$2 said=$3
    shift 3
    local got came
    got=$("$program" "$@" 2>&1)
    came=$?
    got=$(printf '%s' "$got" | steady)
    if [ "$came" = "$status" ] && [ "$got" = "$said" ]; then
        echo "ok $name"
    else
        echo "MISS $name: status $came, wanted $status"
        printf -- '--- wanted\n%s\n--- came\n%s\n' "$said" "$got"
        failed=1
    fi
}

# A reply's recorded stamp, its hash, and the marked stamp of a clocking that was made now, are taken away.
steady() {
    sed -E 's/20[0-9]{2}-[0-9]{2}-[0-9]{2}T[0-9:]{8}[-+][0-9]{4}/STAMP/g; s/[0-9a-f]{64}/HASH/g'
}


check 'no word' 2 'FAULT|2'
check print 0 'R|2|1|1||STAMP||1
R|3|2|2||STAMP||2
R|4|3|3|STAMP|STAMP|HASH|3
R|5|4|4|STAMP|STAMP|HASH|4
RUN|1|4|4|0|4' print acme-day.lane acme.afd -0300
check create 0 'CREATED|1' create site.toml acme.journal
check 'run, workers' 0 'RUN|1|2|2|0|3' run site.toml acme.journal workers.lane
check 'run, marks' 0 'RUN|1|3|3|0|6' run site.toml acme.journal marks.lane
check 'run again' 0 'RUN|1|3|3|0|6' run site.toml acme.journal marks.lane
check extract 0 'EXTRACT|1|6|1462' extract site.toml acme.journal 2024-01-01 2099-12-31 period.afd
check 'receipt of an employee' 3 'FAULT|3|NOTACLOCKING|2' receipt site.toml acme.journal 2
check 'receipt of a number that is none' 3 'FAULT|3|NOSUCHNSR|7' receipt site.toml acme.journal 7
check drill 0 'S|1|1
R|2|1|2||STAMP||2
S|3|2
K|4|2
O|5|2
R|6|1|3|STAMP|STAMP|HASH|3
C|7|3
O|8|3
R|9|1|3|STAMP|STAMP|HASH|3
DRILL|9|3' drill crash.schedule

[ "$(stat -c %s acme.afd)" = 1203 ] && echo 'ok the size of the AFD' || { echo 'MISS the size of the AFD'; failed=1; }
[ "$(stat -c %s period.afd)" = 1462 ] && echo 'ok the size of the AFD of a period' || { echo 'MISS the size of the AFD of a period'; failed=1; }
[ "$("$program" receipt site.toml acme.journal 4 | head -1)" = 'COMPROVANTE DE REGISTRO DE PONTO DO TRABALHADOR' ] &&
    echo 'ok receipt' || { echo 'MISS receipt'; failed=1; }
[ "$(wc -l < workers.lane.out)" = 2 ] && echo 'ok the replies' || { echo 'MISS the replies'; failed=1; }
"$program" --version > version.txt && [ "$(wc -l < version.txt)" = 1 ] && echo 'ok version' || { echo 'MISS version'; failed=1; }
exit "$failed"
