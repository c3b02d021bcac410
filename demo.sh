#!/usr/bin/env bash
# Shows the stored tables of examples/sales, loads them into a store in a temporary folder, changes it and asks it queries.
# It runs the proved program where the gate, `.ci/run`, has left one, and else builds the program once from its sources
# (rt try), which does not wait for the proofs and takes about a minute.
set -eu
cd "$(dirname "$0")"
sales=$PWD/examples/sales
dir=$(mktemp -d)
trap 'rm -rf "$dir"' EXIT
mkdir "$dir/store" "$dir/cases"
cd crates/whc

# Runs a command of the program, or puts it down as the next case of one build.
count=0
whc() {
    count=$((count + 1))
    if [ -x out/whc ]; then
        out/whc "$dir/store" "$@" || [ $? -eq 1 ]
    else
        : >"$dir/cases/$count"
        printf '%s\n' "$dir/store" "$@" >"$dir/cases/$count.args"
    fi
}

demo() {
    whc show "$sales/spec.txt" "$sales/dumps"
    whc load "$sales/spec.txt" "$sales/dumps"
    whc query "(project (clerk) Emp) minus project (clerk) Sale"
    # The second change is refused, so the run ends with status 1.
    whc refresh "$sales/changes/monday.csv" "$sales/changes/tuesday.csv"
    whc dump Emp
    [ -x out/whc ] || rt try --cases "$dir/cases" 2>&1 | grep -vE '^(== [0-9]+|cases?=.*)$'
}
demo | sed "s|$sales/changes/||"
