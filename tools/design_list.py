#!/usr/bin/env python3
"""Writes docs/DESIGN-SIGNATURES.txt: what the design pass changed, old (-) and new (+), out of the kit's contracts.py.

    git worktree add /tmp/old 6c305e3; tools/design_list.py /tmp/old > docs/DESIGN-SIGNATURES.txt
"""
import json
import subprocess
import sys

d = json.loads(subprocess.run(
    ["python3", "/opt/rattle/port/contracts.py", sys.argv[1], ".", "--json"],
    capture_output=True, text=True, check=True).stdout)


def is_library(name):
    return not name.startswith(("test_", "dialogue ", "lnk100 "))


def clauses(pairs):
    return " ".join("{ " + (label + ": " if label else "") + text + " }" for label, text in pairs) or "-"


print("Signatures, clauses and definitions that the design pass changed, old (-) and new (+), by contracts.py over the commit at which it")
print("began and this tree (tools/design_list.py). docs/DESIGN-PASS.md says why. The crates of programs have none that count as a promise.")
print(f"\nensures all gone: {len(d['ensures all gone'])}; fewer ensures: {len(d['fewer ensures'])}; more requires: {len(d['more requires'])}; "
      f"a new Wait or Threads: {len(d['a new Wait or Threads'])}")

print("\n== signatures and clauses\n")
signatures = {s[0]: s[1:] for s in d["signatures changed"]}
contracts = {c[0]: c[1:] for c in d["contracts changed"]}
for name in sorted(n for n in set(signatures) | set(contracts) if is_library(n)):
    print(name)
    if name in signatures:
        print("  -", signatures[name][0])
        print("  +", signatures[name][1])
    if name in contracts:
        old_requires, old_ensures, requires, ensures = contracts[name]
        if old_requires != requires:
            print("  - requires", clauses(old_requires))
            print("  + requires", clauses(requires))
        if old_ensures != ensures:
            print("  - ensures", clauses(old_ensures))
            print("  + ensures", clauses(ensures))

print("\n== functions of library crates that are gone by their old name; docs/DESIGN-PASS.md says what states their promise\n")
for name in d["functions not found again"]:
    if is_library(name):
        print(name)
print("\n== functions that are pub no longer\n")
for name in d["no longer pub"]:
    print(name)
for kind in ("definitions", "ghost items and constants", "edits and outputs"):
    print(f"\n== {kind}: {d[kind]['old']} -> {d[kind]['new']}, the same {d[kind]['same']}\n")
    for key in ("changed", "gone"):
        for item in d[kind].get(key, []):
            crate, name, *texts = item if isinstance(item, list) else (item, "")
            print(key, crate, name)
            for text, mark in zip(texts, "-+"):
                print("  " + mark, " ".join(" ".join(text if isinstance(text, list) else [str(text)]).split()))
