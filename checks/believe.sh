#!/usr/bin/env bash
# Checks that each definition that docs/believe.md quotes stands in the file that it names, word for word, and that the page
# has at most 400 lines.
set -eu
cd "$(dirname "$0")/.."
python3 - docs/believe.md <<'PYTHON'
import re
import sys

page = open(sys.argv[1], encoding="utf-8").read()
failed = page.count("\n") > 400
if failed:
    print("checks: docs/believe.md has more than 400 lines", file=sys.stderr)
quotes = 0
for path, text in re.findall(r"^```antt (\S+)\n(.*?)^```$", page, re.M | re.S):
    paragraphs = open(path, encoding="utf-8").read().split("\n\n")
    # A definition stands behind the comments on it.
    stands = {re.sub(r"\A(--.*\n)*", "", p).strip("\n") for p in paragraphs}
    for quote in text.strip("\n").split("\n\n"):
        quotes += 1
        if quote not in stands:
            failed = True
            print(f"checks: {path} has no such definition:\n{quote}", file=sys.stderr)
if not failed:
    print(f"checks: the {quotes} definitions of docs/believe.md stand where it says")
sys.exit(failed)
PYTHON
