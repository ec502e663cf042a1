#!/usr/bin/env python3
"""Lists the definitions, lemmas and labels whose spelling the port changed: crate, file, the name at LANDED and today's.

usage: python3 tools/port_list.py LANDED SPELLED     two folders: LANDED checked out, and LANDED with port.py and tools/port_names.py run over it

The two declare the same names in the same order, file by file; a file for which that fails is told. What was mended by hand behind the
scripts (docs/PORT.md) is in the table below. It prints docs/PORT-NAMES.tsv.
"""
import glob
import os
import re
import sys

NAME = r'[^\s(){}.;,@"«»`]+'
DECLARED = re.compile(r"(?m)^[ \t]*(?:(?:abbrev|unfoldable|pub|data|record|module|ruleset)\s+)*((?:" + NAME + r"[ \t]+)*?" + NAME + r")(?:\s+[({][^:\n]*:[^)}\n]*[)}])*\s*:(?=\s)")
MENDED = {
    ("reading", "part_cells_lem"): "part_cells",
    ("reading", "row_cells_lem"): "row_cells",
    ("rules/specs/Demand.antt", "goes_on_lem"): "goes_on",
    # the unfinished work had a field of that name, so the script, run over it too, gave the lemma the longer one
    ("rules/proofs/ImageLaws.antt", "fourth_quarter"): "fourth_quarter_lem",
}
GONE = {"record_tags", "other_tags", "not_entry", "not_external"}
AS_LANDED = {("rules/specs/Demand.antt", "goes_on"), ("rules/proofs/Demand3.antt", "goes_on")}


def names(path):
    with open(path, encoding="utf-8") as it:
        text = "\n".join("" if l.lstrip().startswith("--") else l for l in it.read().split("\n"))
    return [n for m in DECLARED.finditer(text) for n in m[1].split()]


landed, spelled = sys.argv[1:3]
seen = set()
print("crate\tfile\tLANDED\ttoday")
for f in sorted(glob.glob(spelled + "/crates/*/specs/**/*.antt", recursive=True) + glob.glob(spelled + "/crates/*/proofs/*.antt")):
    place = os.path.relpath(f, spelled + "/crates")
    old = os.path.join(landed, "crates", place)
    if not os.path.exists(old):
        continue
    a, b = names(old), names(f)
    if len(a) != len(b):
        print(f"{place}: {len(a)} names and {len(b)}", file=sys.stderr)
        continue
    crate, file = place.split("/", 1)
    for x, y in zip(a, b):
        y = MENDED.get((crate, y), MENDED.get((place, y), y))
        row = (crate, file, x, y)
        if x != y and y not in GONE and (place, x) not in AS_LANDED and row not in seen:
            seen.add(row)
            print("\t".join(row))
