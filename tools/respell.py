#!/usr/bin/env python3
"""Brings the repository's own definitions and lemmas to today's spelling, once, after the kit's port.py.

    python3 tools/respell.py         rewrites crates/ and prints how many places changed
    python3 tools/respell.py --list  prints each renaming, one a line, and writes nothing

The rule: types and modules, which are in upper camel case already, stay; everything else is in snake case. In the name of
a lemma a dash stays where it joins two names that are themselves defined (`bytes-length`), and else a plain word is
added with `_` (`round_made`). Where two names would fall together, the lemma gets `_lem`.
Names that Rattle makes, names from Rattle source, strings, and the names of files stay.
"""
import os
import re
import sys

TOP = os.path.dirname(os.path.dirname(os.path.abspath(__file__)))
CRATES = os.path.join(TOP, "crates")
# what stands for itself between two dots, brackets or blanks
NAME = r"[^\s(){}.;,@\"«»\[\]|`:]+"
WORD = re.compile(NAME)
# words of std that a dash may join
STD = set("length take drop append set get_or map reverse sum zero suc min max fst snd".split())
# spellings of std that changed
OF_STD = {"getD": "get_or", "leZ": "int_le", "eqb": "nat_eq"}
# spelled by hand: what the rule cannot know, old and new
BY_HAND = {
    "tagLength": "tag_len",
    "rounds-done": "rounds_told",
    "meta-fits": "meta_inside",
    "text-room": "text_inside",
}


def antt_files():
    for folder, dirs, files in os.walk(CRATES):
        dirs[:] = sorted(d for d in dirs if d != "out")
        for f in sorted(files):
            if f.endswith(".antt"):
                yield os.path.join(folder, f)


def made_by_rattle(path):
    """A file that answers the goals of one function: its goals' names are Rattle's."""
    return os.path.basename(path) in ("Proof.antt", "Answers.antt", "Invariants.antt")


SIGNED = re.compile(r"^ *(?:abbrev |unfoldable |pub |mutual )*(" + NAME + r")((?: \{[^{}]*\})*) : (.*)$")


def declared():
    """Each name that the repository's own texts declare: a 'label' of a record or of data, a 'definition' of specs/, or a 'lemma'."""
    kinds = {}
    for path in antt_files():
        inside = None
        lines = open(path, encoding="utf-8").read().split("\n")
        for at, line in enumerate(lines):
            if line.lstrip().startswith("--"):
                continue
            rec = re.match(r"^ *(?:pub )?(?:record|data) (" + NAME + r")", line)
            deep = len(line) - len(line.lstrip())
            if rec:
                inside = deep
                continue
            if line.strip() and inside is not None and deep <= inside:
                inside = None
            head = SIGNED.match(line)
            if not head or head.group(1) in ("let", "in", "λ", "use", "mod"):
                continue
            sig = head.group(3)
            k = at + 1
            while k < len(lines) and lines[k].strip() and len(lines[k]) - len(lines[k].lstrip()) >= deep + 4:
                sig += " " + lines[k].strip()
                k += 1
            if made_by_rattle(path) and re.search(r"\b(tie|goal|statement)\b", sig):
                continue
            kind = "label" if inside is not None else "definition" if "/specs/" in path else "lemma"
            kinds.setdefault(head.group(1), kind)
    return kinds


def camels():
    """Words in lower camel case that only stand in texts of antt: parameters, locals, labels."""
    found = set()
    for path in antt_files():
        for line in open(path, encoding="utf-8"):
            for w in WORD.findall(line.split("--")[0]):
                if re.match(r"^[a-z][a-z0-9']*([A-Z][a-z0-9']*)+$", w):
                    found.add(w)
    return found


def snake(part):
    return re.sub(r"([a-z0-9'])([A-Z])", lambda m: m.group(1) + "_" + m.group(2).lower(), part)


def stem(name):
    return snake(name) if name[0].islower() else name


def plan():
    kinds = declared()
    for w in camels():
        kinds.setdefault(w, "local")
    stems = {n: stem(n) for n in kinds if "-" not in n}
    defined = {stems[n] for n in stems if kinds[n] == "definition"} | STD
    new = dict(stems)
    for name in kinds:
        if "-" in name:
            parts = [stems.get(p, OF_STD.get(p, snake(p) if p[:1].islower() else p)) for p in name.split("-")]
            out = parts[0]
            for i in range(1, len(parts)):
                both = kinds[name] == "lemma" and parts[i - 1] in defined and parts[i] in defined
                out += ("-" if both else "_") + parts[i]
            new[name] = out
    new.update({a: b for a, b in BY_HAND.items() if a in kinds})
    # a lemma that would have a function's name gets _lem
    taken = {}
    for name in sorted(kinds, key=lambda n: ("-" in n, n)):
        while new[name] in taken and taken[new[name]] != name:
            new[name] += "_lem"
        taken[new[name]] = name
    return {a: b for a, b in new.items() if a != b}, kinds


def turn(text, renames):
    """The text with each whole name renamed; a name behind a dot is a field or a path's last part, and turns too."""
    return WORD.sub(lambda m: renames.get(m.group(0), m.group(0)), text)


def turn_rust(text, renames):
    """A file of src/: strings stay; a name is one that Rust's own text cannot have, or one in a clause or a ghost item."""
    parts = re.split(r'("(?:[^"\\\n]|\\.)*")', text)
    return "".join(p if i % 2 else turn(p, renames) for i, p in enumerate(parts))


def main():
    if os.path.exists(os.path.join(TOP, "docs", "PORT.md")):
        sys.exit("this was done: docs/PORT.md has each name as it was and as it is")
    renames, kinds = plan()
    if "--list" in sys.argv:
        for a in sorted(renames):
            print(a, renames[a], kinds[a])
        return
    changed = 0
    for folder, dirs, files in os.walk(CRATES):
        dirs[:] = sorted(d for d in dirs if d not in ("out", "must-fail", "data"))
        for f in sorted(files):
            if not f.endswith((".antt", ".rt")):
                continue
            path = os.path.join(folder, f)
            old = open(path, encoding="utf-8").read()
            new = turn_rust(old, renames) if f.endswith(".rt") else turn(old, renames)
            if new != old:
                open(path, "w", encoding="utf-8").write(new)
                changed += 1
    print(f"{len(renames)} names, {changed} files")


if __name__ == "__main__":
    main()
