"""Rattle source as text: the functions, types, constants and calls of crates/*/src, of the tree or of a commit. By text alone, no compiler: what a macro or a
string makes is not seen. tools/places.py and tools/theorems.py stand on it."""
import dataclasses
import pathlib
import re
import subprocess

TOP = pathlib.Path(__file__).resolve().parent.parent


def git(*words):
    return subprocess.run(["git", *words], cwd=TOP, check=True, capture_output=True, text=True).stdout


def texts(patterns, commit=None):
    """Name and text of each file of the tree, or of a commit, whose name one of the patterns matches whole."""
    if commit:
        names = git("ls-tree", "-r", "--name-only", commit).splitlines()
    else:
        names = [str(f.relative_to(TOP)) for top in ("crates", "docs", "README.md") for f in ([TOP / top] if (TOP / top).is_file() else (TOP / top).rglob("*"))]
    for name in sorted(n for n in names if "/out/" not in n and any(re.fullmatch(p, n) for p in patterns)):
        yield name, git("show", f"{commit}:{name}") if commit else (TOP / name).read_text()


def blank(text):
    """The text with comments and what stands in strings and characters blanked, as long as it was."""
    hide = lambda found: re.sub(r"[^\n]", " ", found[0]) if found[0].startswith("//") else found[0][0:1].replace("b", " ") + re.sub(r"[^\n]", "_", found[0][1:])  # noqa: E731
    return re.sub(r"//[^\n]*|b?\"(?:[^\"\\]|\\.)*\"|b?'(?:[^'\\]|\\[^u]|\\u\{\w+\})'", hide, text, flags=re.S)


def closing(text, at):
    """The place behind the bracket that closes the one at `at`."""
    pair, deep = {"{": "}", "(": ")", "[": "]", "<": ">"}[text[at]], 0
    for k in range(at, len(text)):
        deep += (text[k] == text[at]) - (text[k] == pair and not (pair == ">" and text[k - 1] in "-="))
        if deep == 0:
            return k + 1
    return len(text)


def split(text, mark=","):
    """The parts of a text between marks that stand in no bracket."""
    parts, deep, last = [], 0, 0
    for k, c in enumerate(text):
        deep += (c in "([{") - (c in ")]}") + (c == "<" and mark == ",") - (c == ">" and mark == "," and text[k - 1] not in "-=")
        if c == mark and deep == 0:
            parts.append(text[last:k])
            last = k + 1
    return [p.strip() for p in parts + [text[last:]] if p.strip()]


def plain(text):
    return re.sub(r"\s+", " ", text).strip()


@dataclasses.dataclass
class Item:
    """A function, struct, enum, constant or type: `parts` are parameters, fields or variants, as (name, type)."""
    kind: str
    name: str
    crate: str
    file: str
    line: int
    public: bool
    notes: str  # the comment above it
    raw: str
    text: str  # the same with comments and strings blanked
    parts: list = dataclasses.field(default_factory=list)
    result: str = ""
    clauses: list = dataclasses.field(default_factory=list)
    body: str = ""
    body_raw: str = ""
    body_line: int = 0
    owner: str = ""  # the type or trait around it

    def place(self):
        return f"{self.crate}/{self.file}"

    def full(self):
        return f"{self.owner}::{self.name}" if self.owner else self.name


def pairs(text):
    """Names and types of parameters or fields; of a tuple struct the places count as names."""
    out = []
    for k, part in enumerate(split(re.sub(r"#\[[^\]]*\]", "", text))):
        part = re.sub(r"^(pub(\([^)]*\))?|mut|ghost)\s+", "", plain(part))
        name, colon, kind = part.partition(":")
        out.append((name.strip(), kind.strip()) if colon and not name.startswith(("[", "&")) and "::" not in part[: len(name) + 2] else (str(k), part))
    return out


def function(item, text, raw, at):
    """Fills in what stands behind a function's name: parameters, result, clauses and body."""
    if text[at] == "<":
        at = closing(text, at)
    start = text.index("(", at)
    end = closing(text, start)
    item.parts = pairs(text[start + 1 : end - 1])
    here = end
    while here < len(text) and text[here] not in "{;":
        clause = re.match(r"(requires|ensures)\*?[^{;]*", text[here:])
        if clause:
            first = here + clause.end()
            here = closing(text, first)
            item.clauses.append((clause[1], plain(raw[first + 1 : here - 1])))
        elif text[here] in "([":
            here = closing(text, here)
        else:
            here += 1
    found = re.match(r"\s*->\s*(.*?)\s*(?=\brequires\b|\bensures\b|\bwhere\b|$)", text[end:here], re.S)
    item.result = plain(found[1]) if found else ""
    stop = closing(text, here) if here < len(text) and text[here] == "{" else here
    item.body, item.body_raw = text[here:stop], raw[here:stop]
    return here, stop


HEAD = re.compile(r"(?P<pub>\bpub\s+(?:\([^)]*\)\s*)?)?(?:(?:const|unsafe|ghost)\s+)?(?:extern\s+_?\S*\s+)?\b(?P<kind>fn|struct|enum|type|const)\s+(?P<name>[A-Za-z_]\w*)")


def owners(text):
    """Where each impl and trait begins and ends, and whose it is."""
    for found in re.finditer(r"^\s*(?:pub\s+)?(?:impl|trait)\b([^{;]*)\{", text, re.M):
        words = re.sub(r"^\s*<[^{]*?>\s+", "", found[1]) if found[1].startswith("<") else found[1]
        yield found.end() - 1, closing(text, found.end() - 1), plain(words)


def items(name, raw):
    """The items of a file."""
    text, crate = blank(raw), name.split("/")[1]
    file, around, past = name.split("/src/")[1], list(owners(blank(raw))), 0
    for found in HEAD.finditer(text):
        if found.start() < past or re.search(r"ghost use[^;]*$", text[max(0, found.start() - 200) : found.start()]):
            continue
        line = raw.count("\n", 0, found.start("kind")) + 1
        notes = re.search(r"((?:[ \t]*//[^\n]*\n)*)(?:[ \t]*#\[[^\n]*\n)*[^\n]*$", raw[: found.start("kind")])[1]
        owner = next((o for a, z, o in around if a < found.start() < z), "")
        item = Item(found["kind"], found["name"], crate, file, line, bool(found["pub"]), plain(notes.replace("//", "")), "", "", owner=owner)
        if item.kind == "fn":
            here, past = function(item, text, raw, found.end())
            item.body_line = raw.count("\n", 0, here) + 1
        else:
            here = re.compile(r"[{(;]" if item.kind in ("struct", "enum") else r"[=;]").search(text, found.end()).start()
            past = closing(text, here) if text[here] in "{(" else re.compile(r"(?:[^;\[]|\[[^]]*\])*;").match(text, here).end()
            inside = text[here + 1 : past - 1]
            item.parts = pairs(inside) if item.kind in ("struct", "enum") else []
            item.result, item.body = plain(text[found.end() : here].lstrip(" :")), plain(inside)
        item.raw, item.text = raw[found.start() : past], text[found.start() : past]
        yield item


def source(commit=None):
    """All items of crates/*/src, in the order of files and lines."""
    return [item for name, raw in texts([r"crates/\w+/src/.*\.rt"], commit) for item in items(name, raw)]
