#!/usr/bin/env python3
"""Spells this repository's own definitions, lemmas and labels as today's Rattle does: words in snake case, types and modules in camel case.

usage: python3 tools/port_names.py [FOLDER]      once, right behind /opt/rattle/port/port.py, at the top of the repository (or of FOLDER)

port.py respells the names of Rattle's own libraries and those that are spelled like them. This does the others, in the .antt files, in the
clauses and `ghost use` lines of the .rt files, and in the backquoted words of README.md and docs/. What a function of src/ is called,
strings, inputs and outputs stay as they are, and so does every name that Rattle makes (the goals and steps in proofs/F/).

A lemma that would get the name of another definition ends in _lem. The script prints those, and each name whose new spelling
stood somewhere already. It writes the whole list, old and new, to docs/PORT-NAMES.tsv.
"""
import collections
import glob
import os
import re
import sys

TOP = sys.argv[1] if len(sys.argv) > 1 else "."
KIT = "/opt/rattle/rattle"
NAME = r'[^\s(){}.;,@"«»`]+'
DECLARED = re.compile(r"(?m)^[ \t]*(?:(?:abbrev|unfoldable|pub|data|record|module)\s+)*((?:" + NAME + r"[ \t]+)*?" + NAME + r")(?:\s+[({][^:\n]*:[^)}\n]*[)}])*\s*:(?=\s)")
TOKEN = re.compile(r"(?<![^\s(){}.;,@\"«»`])(\.?)(" + NAME + r")")


def antt():
    return sorted(glob.glob(TOP + "/crates/*/specs/**/*.antt", recursive=True) + glob.glob(TOP + "/crates/*/proofs/**/*.antt", recursive=True))


def is_proof(f):
    return os.path.basename(f) == "Proof.antt"


def to_turn(n):
    camel = n[:1].islower() and re.search(r"[a-z0-9][A-Z]", n)
    return bool(camel or ("-" in n[1:-1] and re.search(r"[A-Za-z]", n) and not n.startswith("-")))


def snake(n):
    n = re.sub(r"getD(?![a-z])", "get_or", n)
    n = re.sub(r"(?<=[a-z0-9])([A-Z]+)(?=[A-Z][a-z]|$|[^A-Za-z0-9])|(?<=[a-z0-9])([A-Z])", lambda m: "_" + (m[1] or m[2]).lower(), n)
    return n.replace("-", "_")


def read(f):
    with open(f, encoding="utf-8") as it:
        return it.read()


def without_comments(t):
    return "\n".join("" if l.lstrip().startswith("--") else l for l in t.split("\n"))


def names_of(text):
    text = without_comments(text)
    for m in DECLARED.finditer(text):
        for n in m[1].split():
            yield n, text[m.end():m.end() + 40]


kit = set()
for folder, _, files in os.walk(KIT):
    for f in files:
        if f.endswith(".antt"):
            kit.update(n for n, _ in names_of(read(os.path.join(folder, f))))

texts = {f: read(f) for f in antt()}
declared, answers, kinds = collections.defaultdict(set), set(), {}
for f, t in texts.items():
    for n, rest in names_of(t):
        if is_proof(f) and (re.match(r"\s*tie\.", rest) or "statement M" in rest):
            answers.add(n)
        else:
            declared[n].add(f)
own = {n for n in declared if to_turn(n)}
# what is bound by a pattern, a λ or a let, and what a declaration of several names declares
for f, t in texts.items():
    if not is_proof(f):
        for m in TOKEN.finditer(without_comments(t)):
            if not m[1] and to_turn(m[2]) and m[2] not in kit:
                own.add(m[2])
    else:
        for m in TOKEN.finditer(without_comments(t)):
            if not m[1] and re.fullmatch(r"[a-z][a-z0-9]*[A-Z]\w*", m[2]) and m[2] not in kit:
                own.add(m[2])
RT = [f for f in sorted(glob.glob(TOP + "/crates/*/src/**/*.rt", recursive=True))]
GHOST = re.compile(r"\s*(ghost use |ghost |requires\b|ensures\b)")
for f in RT:
    for l in read(f).split("\n"):
        if GHOST.match(l):
            own.update(m[2] for m in TOKEN.finditer(l) if not m[1] and to_turn(m[2]) and m[2] not in kit)
own -= {n for n in own if n in answers and all(is_proof(f) for f in declared.get(n, ["/Proof.antt"]))}

FIELDS = {n for f, t in texts.items() for m in re.finditer(r"(?ms)^(?:pub )?record [^\n]* where\n((?:[ \t]+[^\n]*\n)+)", without_comments(t)) for n, _ in names_of(m[1])}

# what a file declares outside of its records
law_names = {f: {n for n, _ in names_of(re.sub(r"(?m)^(?:pub )?record [^\n]* where\n((?:[ \t]+[^\n]*\n)+)", "", without_comments(t)))} for f, t in texts.items()}

# Lemmas and labels of this repository that port.py had spelled, and that a definition's new spelling would meet in one file.
FELL_TOGETHER = "same_text too_many no_room without_end in_bounds word_sound goes_on no_words value_cell".split()
IN_READING = {"part_room": "part_room_is", "row_room": "row_room_is"}

# the names that stay and that a new spelling could meet
standing = set()
for t in texts.values():
    standing.update(m[2] for m in TOKEN.finditer(without_comments(t)))
standing -= own
new = {}
taken = collections.defaultdict(list)
for n in sorted(own, key=lambda n: ("-" in n, n)):
    s = snake(n)
    label = n in FIELDS and all(n not in law_names.get(f, ()) for f in declared[n])
    if (taken[s] or (s in standing and "-" in n)) and not label:
        s += "_lem"
        print("lem:", n, "->", s)
    elif s in standing:
        print("look:", n, "->", s, "stood already")
    taken[s].append(n)
    new[n] = s


for n in FELL_TOGETHER:
    if n in declared:
        new[n] = n + "_lem"
        print("lem:", n, "->", new[n])


def imports_of_kit(t):
    found = set()
    for m in re.finditer(r"(?m)^[ \t]*(?:ghost )?use ([^\s{]+)\.\{([^}]*)\}", t):
        if not own_path(m[1]):
            found.update(w.strip().split(" as ")[0].strip() for w in m[2].split(","))
    return found


CRATES = {os.path.basename(c) for c in glob.glob(TOP + "/crates/*")}


def own_path(p):
    steps = p.split(".")
    return steps[0] == "Rattle" and len(steps) > 1 and steps[1] in CRATES




def turn(t, proof, skip, laws=True, reading=False):
    out = []
    for l in t.split("\n"):
        if l.lstrip().startswith("--"):
            out.append(l)
            continue

        def one(m):
            n = m[2]
            if n in IN_READING and reading:
                return m[1] + IN_READING[n]
            if n not in new or n in skip or n in FELL_TOGETHER and (m[1] or not laws):
                return m[0]
            # behind a dot in a function's own proof stand Rattle's names, but for the labels of this repository's records
            if m[1] and proof and n not in FIELDS and re.match(r"[a-z]", l[:m.start()].split()[-1][:1] if l[:m.start()].split() else ""):
                return m[0] if "-" in n else m[1] + new[n]
            if proof and n in answers and not m[1]:
                return m[0]
            return m[1] + new[n]

        out.append(TOKEN.sub(one, l))
    return "\n".join(out)


for f, t in texts.items():
    u = turn(t, is_proof(f), imports_of_kit(t), True, "/reading/" in f)
    if u != t:
        with open(f, "w", encoding="utf-8") as it:
            it.write(u)

for f in RT:
    t = read(f)
    skip = imports_of_kit(t)
    u = "\n".join(turn(l, False, skip, False) if GHOST.match(l) else l for l in t.split("\n"))
    if u != t:
        with open(f, "w", encoding="utf-8") as it:
            it.write(u)

for f in [TOP + "/README.md"] + sorted(glob.glob(TOP + "/docs/**/*.md", recursive=True)):
    t = read(f)
    u = re.sub(r"`([^`\n]+)`", lambda m: "`" + new.get(m[1], snake(m[1]) if to_turn(m[1]) and snake(m[1]) in declared else m[1]) + "`", t)
    if u != t:
        with open(f, "w", encoding="utf-8") as it:
            it.write(u)

with open(TOP + "/docs/PORT-NAMES.tsv", "w", encoding="utf-8") as it:
    for n in sorted(new):
        if n in declared:
            it.write(n + "\t" + new[n] + "\n")
print(len(new), "names")
