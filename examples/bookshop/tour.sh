#!/usr/bin/env bash
# The bookshop, from its dumps to its changes, in a store in a temporary folder. Each command is printed before what it prints.
# It runs the proved program where the gate, `.ci/run`, has left one, and else builds the program from its sources (rt try),
# which does not wait for the proofs.
set -eu
here=$(cd "$(dirname "$0")" && pwd)
crate=$here/../../crates/whc
work=$(mktemp -d)
trap 'rm -rf "$work"' EXIT
cp -r "$here/spec.txt" "$here/dumps" "$here/changes" "$here/closing.csv" "$here/shops.csv" "$work"
mkdir "$work/store"
cd "$work"
# Names of files stand beside the store; the program that is built from its sources runs in another folder.
whc() {
    if [ -x "$crate/out/whc" ]; then
        "$crate/out/whc" store "$@"
        return
    fi
    local words=()
    for word in "$@"; do
        if [ -e "$word" ]; then words+=("$work/$word"); else words+=("$word"); fi
    done
    (cd "$crate" && rt try -- "$work/store" "${words[@]}") | sed "s|$work/||"
}
tour() {
    printf '$ %s\n' "$1"
    # A refused change ends the program with a status of its own, which is no fault of the tour.
    eval "$1" 2>&1 || true
}

tour 'whc load spec.txt dumps'
tour 'whc query "project (title, aname) (select (author = 3) Book join Author)"'
tour 'whc query "project (cust) select (town = '"'v0'"') Customer minus project (cust) Ord"'
tour 'whc refresh changes/change-01.csv changes/change-02.csv changes/change-03.csv changes/change-04.csv'
tour 'whc refresh closing.csv'
tour 'whc refresh changes/change-0[5-9].csv changes/change-[123]?.csv | tail -n 2'
tour 'whc query "project (ord, cname, day) select (day >= 28 and ord >= 300) Buyers"'
tour 'whc dump Shop | head -n 4'
tour 'whc report'
tour 'whc audit Shop shops.csv | tee audit.csv'
tour 'whc refresh audit.csv'
tour 'whc audit Shop shops.csv'
