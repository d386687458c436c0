#!/usr/bin/env python3
"""Compares the definitions of crates/*/specs, and the theorems that README and docs/ (docs/PORT.md and docs/DESIGN-PASS.md aside) name, of a commit with
those of the tree: which are gone, moved (the same text in another file) or changed, old and new side by side.

    python3 tools/theorems.py --at COMMIT              that commit and the tree
    python3 tools/theorems.py --at COMMIT --with OTHER   that commit and another
    python3 tools/theorems.py --at COMMIT --all        those of proofs/ too that no page names
    python3 tools/theorems.py --at COMMIT --types      the public structs, enums, types and constants of src/ instead, which port.py contracts does not compare
    python3 tools/theorems.py --list                   what it takes for one, file, name and text

A definition is its whole text, a record with its fields; of a theorem the statement counts, not the proof; of both the heads of the modules around them. White
space, comments and `unfolding` do not count. What it cannot see: that a name of a text which stayed means another thing. Where such a name is brought in from
another file than before, the last lines say so."""
import collections
import dataclasses
import re
import sys

from source import plain, source, texts

NAME = r"[^\s(){}.;,@\"«»\[\]|`:=λ]+"
WORD = re.compile(NAME)
MARKS = r"(?:(?:abbrev|unfoldable|opaque|pub|instance|mutual)\s+)*"
GROUPS = r"(?:\s*\{[^{}]*\}|\s*\((?:[^()]|\([^()]*\))*\))*"
HEAD = re.compile(rf"^(?P<deep> *)(?P<marks>{MARKS})(?P<kind>record |data |postulate )?(?P<name>{NAME}){GROUPS}\s*(?::(?=\s|$)|$)")
NOT_NAMES = {"use", "mod", "module", "open", "let", "in", "infix", "infixl", "infixr", "prefix", "unfolding", "where", "pub", "record", "data"}
MADE = ("Answers.antt", "Invariants.antt", "Proof.antt", "Lib.antt")
# Crates of one width or one instance that became one of any lanes: a name of the old one is held against that of the new one, not against a stranger's.
GENERIC = {"steps64": "lanes", "steps32": "lanes", "lanes64": "lanes", "lanes32": "lanes", "keccak64": "permutation", "keccak32": "permutation",
           "piston64": "blocks", "piston32": "blocks", "engine64": "engine", "engine32": "engine", "lake": "keyak", "river": "keyak"}


@dataclasses.dataclass(frozen=True)
class Told:
    file: str
    name: str
    public: bool
    text: str  # what counts: a definition whole, a theorem's statement
    names: tuple  # the names in it and where each is brought in from


def bare(text):
    return re.sub(r"\s+", " ", text).strip()


def lines_of(raw):
    return [re.sub(r"(^|\s)--.*", "", line).rstrip() for line in raw.split("\n")]


def brought_in(raw):
    """Where each name that a file brings in comes from."""
    found = {}
    for path, names in re.findall(r"^use ([\w.\-·]+)\.\{([^}]*)\}", raw, re.M):
        for name in names.split(","):
            old, _, new = name.strip().partition(" as ")
            for part in (new or old).split("◌"):
                if part.strip():
                    found[part.strip()] = f"{path}.{old.strip()}"
    return found


def items(file, raw):
    """The definitions and theorems of a file: by their first lines, each up to the next that is as deep."""
    uses, modules, lines, k = brought_in(raw), [], lines_of(raw), 0
    while k < len(lines):
        line = lines[k]
        deep = len(line) - len(line.lstrip())
        if line.strip():
            modules = [m for m in modules if m[0] < deep]
        if re.match(r" *module\b", line):
            last = next((j for j in range(k, len(lines)) if lines[j].endswith("where")), k)
            modules.append((deep, bare(" ".join(lines[k : last + 1]))))
            k = last + 1
            continue
        found = HEAD.match(line)
        if not found or found["name"] in NOT_NAMES or (line.endswith(found["name"]) and not (k + 1 < len(lines) and lines[k + 1].lstrip().startswith(":"))):
            k += 1
            continue
        end = k + 1
        while end < len(lines) and (not lines[end].strip() or len(lines[end]) - len(lines[end].lstrip()) > deep or goes_on(lines[end], found["name"])):
            end += 1
        yield told(file, found, lines[k:end], [m for _, m in modules], uses)
        k = end


def goes_on(line, name):
    """Whether a line as deep as an item's first is one of its equations, or says what it unfolds."""
    return bool(re.match(rf" *(unfolding\b|{re.escape(name)}(?=[\s({{]|$)(?!{GROUPS}\s*:(?:\s|$)))", line))


def told(file, found, lines, modules, uses):
    deep, whole = len(found["deep"]), found["kind"] or "/specs/" in file
    first = lines[0][: found.start("marks")] + lines[0][found.end("marks") :]
    kept = [first]
    for line in lines[1:]:
        if re.match(r" *unfolding\b", line):
            continue
        if not whole and line.strip() and len(line) - len(line.lstrip()) <= deep:
            break
        kept.append(line)
    text = bare(" ".join(modules + kept))
    names = tuple(sorted({(w, uses[w]) for w in WORD.findall(text) if w in uses}))
    return Told(file, found["name"], "pub" in found["marks"], text, names)


def read(commit):
    return [item for file, raw in texts([r"crates/\w+/(?:specs|proofs)/.*\.antt"], commit) if not file.endswith(MADE) for item in items(file, raw)]


def named(commit):
    """The words that stand between backquotes in README and docs/."""
    pages = [raw for name, raw in texts([r"README\.md", r"docs/[^/]*\.md"], commit) if not name.endswith(("PORT.md", "DESIGN-PASS.md"))]
    return {w for raw in pages for quoted in re.findall(r"`([^`\n]+)`", raw) for w in WORD.findall(quoted)}


def wanted(all_, names, everything):
    """Definitions of specs/ that are public, and theorems of proofs/ that a page names."""
    return [i for i in all_ if ("/specs/" in i.file and i.public) or ("/proofs/" in i.file and (everything or i.name in names))]


def stands(old, new):
    """Whether the new text is the old one, or, of a theorem that went from specs/ to proofs/, its statement."""
    proved = "/specs/" in old.file and "/proofs/" in new.file and old.text.startswith(f"{new.text} {old.name} ")
    return new.text == old.text or proved


def crate(item):
    return item.file.split("/")[1]


def compare(old, new):
    """For each old item what became of it: a word, and the new ones that it is held against."""
    by = collections.defaultdict(list)
    for i in new:
        by[i.name].append(i)
    for i in old:
        here = [n for n in by[i.name] if n.file == i.file]
        if any(n.text == i.text for n in here):
            yield "same", i, [n for n in here if n.text == i.text][:1]
        elif same := [n for n in by[i.name] if stands(i, n)]:
            yield "moved", i, same[:1]
        elif here:
            yield "changed", i, here
        elif near := [n for n in by[i.name] if crate(n) in (crate(i), GENERIC.get(crate(i)))]:
            yield "moved and changed", i, near
        else:
            yield "gone", i, [n for n in new if n.text.replace(n.name, "") == i.text.replace(i.name, "") and len(i.text) > 30]


def types(commit):
    """The public structs, enums, types and constants of src/, their attributes aside, as old and new may be held against one another."""
    kept = [i for i in source(commit) if i.kind != "fn" and i.public]
    return [Told(f"crates/{i.place()}", i.name, True, plain(re.sub(r"//[^\n]*", "", i.raw)), ()) for i in kept]


def elsewhere(results):
    """Names of texts that stayed which are brought in from another place than before, and in how many texts."""
    moved = collections.Counter()
    for word, old, new in results:
        if word in ("same", "moved"):
            then = dict(new[0].names)
            moved.update((name, path, then.get(name, "its own file")) for name, path in old.names if then.get(name) != path)
    return moved


def show(results):
    counts = collections.Counter(word for word, _, _ in results)
    print(", ".join(f"{word} {counts[word]}" for word in ("same", "moved", "changed", "moved and changed", "gone")))
    for word, old, new in results:
        if word == "moved":
            print(f"moved: {old.name}: {old.file} -> {new[0].file}")
        elif word != "same":
            print(f"{word}: {old.name}: {old.file}\n    - {old.text}")
            for n in new:
                print(f"    + {n.file if n.file != old.file else ''}{' ' + n.name + ':' if n.name != old.name else ''} {n.text}")
    for (name, path, now), count in sorted(elsewhere(results).items()):
        print(f"from elsewhere: {name}: {path} -> {now} ({count} texts that stayed)")


def main(argv):
    option = lambda word: argv[argv.index(word) + 1] if word in argv else None  # noqa: E731
    at, other = option("--at"), option("--with")
    if "--list" in argv:
        for i in wanted(read(at), named(at), "--all" in argv):
            print(f"{i.file} {i.name}: {i.text}")
        return
    if not at:
        sys.exit(__doc__)
    if "--types" in argv:
        show(list(compare(types(at), types(other))))
        return
    show(list(compare(wanted(read(at), named(at), "--all" in argv), read(other))))


if __name__ == "__main__":
    main(sys.argv[1:])
