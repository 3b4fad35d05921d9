#!/usr/bin/env bash
# Large trials, outside the gate: each file here is named by the words of a trial, and holds the lines that it must print.
# Run it once the program is built: trials/run.sh [PROGRAM]
cd "$(dirname "$0")" || exit 1
program=${1:-../crates/jass/out/jass}
status=0
for wanted in *.txt; do
    read -ra words <<<"$(basename "$wanted" .txt | tr - ' ')"
    if "$program" trial "${words[@]}" | cmp -s - "$wanted"; then
        echo "trial ${words[*]}: as wanted"
    else
        echo "trial ${words[*]}: other lines"
        status=1
    fi
done
exit $status
