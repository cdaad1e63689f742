#!/usr/bin/env python3
"""Respells the repository's own definitions and lemmas: words in snake case (the toolchain's script turned only those names that its library has too).

usage: tools/respell.py            at the top of the repository, after the toolchain's port.py: prints the table and turns crates/, edits and pages
       tools/respell.py --table    prints the table alone: old, a tab, new

A name is own where a file of specs/ or a lemma file of proofs/ declares it. Names of types, names in capitals and names that only a walk (Proof.antt) has stay.
Two old names that would fall together are kept apart: the lemma gets `_lem`.
"""
import collections
import glob
import os
import re
import subprocess
import sys
import tempfile

KIT = os.path.dirname(os.path.dirname(os.path.realpath("/usr/local/bin/rt")))
SNAKE = os.path.join(KIT, "port/notes/2026-11-18-names-are-in-snake-case/snake.py")
WORD = r"[^\s(){}.;,@\"«»:]+"
DECLARED = re.compile(r"^(\s*)((?:pub |abbrev |unfoldable )*)(" + WORD + r")(?:\s+\{[^}]*\})?\s*:(?:\s|$)", re.M)
# names of capitals alone that fall together with nothing, and are types
# constructors that share a line, and names that a signature binds
BOUND = """windowShut nothingWaiting notOperational sentRest paceTexts nextTexts radioTexts onData onControl offerTexts withdrawTexts queryTexts answersTexts anotherTexts offersTexts isUnknown isOperational isControlled isKnown""".split()
TYPES = {"Whole-options": "WholeOptions"}


def own_files():
    for part in ("specs", "proofs"):
        for f in glob.glob(f"crates/*/{part}/**/*.antt", recursive=True):
            yield f


def declared():
    own, walks = set(), set()
    for f in own_files():
        with open(f, encoding="utf-8") as text:
            names = {m.group(3) for m in DECLARED.finditer(text.read())}
        walk = "/proofs/" in f and f.count("/") > 3 and os.path.basename(f) in ("Proof.antt", "Answers.antt", "Invariants.antt")
        (walks if walk else own).update(names)
    return own, walks


def imported():
    """Names that a `use` line takes from elsewhere than this repository."""
    crates = set(os.listdir("crates"))
    out = set()
    for f in list(own_files()) + glob.glob("crates/*/src/**/*.rt", recursive=True):
        with open(f, encoding="utf-8") as text:
            for m in re.finditer(r"use ([\w.'+]+?)\.\{([^}]*)\}", text.read()):
                head = m.group(1).split(".")
                if head[0] == "Rattle" and len(head) > 1 and head[1] in crates:
                    continue
                out.update(w.strip().split(" as ")[0] for w in m.group(2).split(","))
    return out


def snake(name):
    name = re.sub(r"(?<=[a-z0-9ℕℤ])(?=[A-Z])", "_", name).replace("-", "_")
    return name.lower() if re.search(r"[a-z]", name) else name


def table():
    own, walks = declared()
    theirs = imported()
    rows = {}
    for n in sorted(own):
        if n in TYPES:
            rows[n] = TYPES[n]
        elif n in theirs or not re.match(r"[a-z]", n) or ("-" not in n and not re.search(r"[A-Z]", n)):
            continue
        elif re.search(r"[^\w'-]", n):
            continue
        else:
            rows[n] = snake(n)
    taken = collections.Counter(rows.values())
    stay = (own | theirs) - set(rows)
    rust = set()
    for f in glob.glob("crates/*/src/**/*.rt", recursive=True):
        with open(f, encoding="utf-8") as text:
            rust.update(re.findall(r"\w+", "\n".join(l for l in text.read().split("\n") if "ghost" not in l and "ensures" not in l and "requires {" not in l)))
    for n in sorted(rows):
        new = rows[n]
        if taken[new] > 1 and "-" in n or new in stay and ("-" in n or new in theirs):
            rows[n] = new + "_lem"
        elif new in stay and new in rust:
            rows[n] = new + "_of"
        elif new in stay:
            # a function takes its name, and the lemma that the toolchain's script gave it goes on
            rows[new] = new + "_lem"
    both = [new for new, k in collections.Counter(rows.values()).items() if k > 1]
    if both:
        raise SystemExit(f"respell: these fall together: {both}")
    # no file has one of these beside an own name of the same new spelling
    rows.update({w: snake(w) for w in BOUND + ["indexOf"]})
    return {a: b for a, b in rows.items() if a != b}


def turn_edit(path, rows):
    with open(path, encoding="utf-8") as f:
        text = f.read()
    new = re.sub(r"[^\s(){}.;,@\"«»:`]+", lambda m: rows.get(m.group(0), m.group(0)), text)
    if new != text:
        with open(path, "w", encoding="utf-8") as f:
            f.write(new)


def main(argv):
    rows = table()
    lines = "".join(f"{a}\t{b}\n" for a, b in rows.items())
    sys.stdout.write(lines)
    if argv == ["--table"]:
        return 0
    with tempfile.NamedTemporaryFile("w", suffix=".tsv", delete=False, encoding="utf-8") as f:
        f.write(lines)
    for only, paths in (("antt,rt", ["crates"]), ("md", ["docs", "README.md"])):
        subprocess.run([sys.executable, SNAKE, "--table", f.name, "--only", only, *paths], check=True, stdout=sys.stderr)
    for path in glob.glob("crates/*/must-fail/*.edit"):
        turn_edit(path, rows)
    return 0


if __name__ == "__main__":
    raise SystemExit(main(sys.argv[1:]))
