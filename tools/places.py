#!/usr/bin/env python3
"""Lists the places of each of seven points (docs/DESIGN-PASS.md) at which crates/*/src is written in an older form than today's Rattle has.

    python3 tools/places.py                  one line a place: point crate/file:line kind: what
    python3 tools/places.py --at COMMIT      the same of a commit
    python3 tools/places.py --count          a table: point, kind of place, number, crates
    python3 tools/places.py --page           the places by point and crate, as the page lists them
    python3 tools/places.py --crates         the places by crate
    python3 tools/places.py --beside         under each place the comments that stand at it: a reason for keeping it is among them

Each function below finds the places of one kind, and its first line says which. The rules look at forms, by text; where a reader finds a place that no
rule does, BY_HAND names it for as long as it is there, and where a rule finds what is none, NONE says why."""
import collections
import dataclasses
import itertools
import re
import sys

from source import TOP, closing, plain, source, split

WHOLE = r"(?:[ui](?:8|16|32|64|128|size))"
POINTS = {1: "own enums, flags and numbers for Option, Result and enums", 2: "twins", 3: "loops counted by hand",
          4: "equality, order, copying, conversion and printing by hand", 5: "facts and parameters that travel together",
          6: "buffers with a length beside them, lists and links by hand", 7: "switches on which step to run"}
# Functions of the dip's cases that are alike, and of the two programs that run vectors.
CASES = [("read_three", "wrote_three"), ("run_left", "bytes_left"), ("read_some", "write_some"), ("read_refused", "write_refused")]
RUNS = [("sessions/main", "dip_vectors/main", "lines"), ("sessions/around", "dip_vectors/around", "changes")]
# Places that a reader finds and no rule does: point, crate/file, name, kind, what; where the name stayed, a text of it that did not.
BY_HAND = [
    (1, "vectors/tallies.rt", "NO_CALL", "numbers for kinds", "NO_CALL, beside kinds that have no name, 0 to 7"),
    *[(1, f"{c}/lib.rt", "Permuted", "a number that stands for none", "rounds: 0 where the count was refused") for c in ("keccak64", "keccak32", "permutation")],
    (1, "dip_text/head.rt", "first_false", "a number that stands for none", "which word is no number, or one more"),
    (1, "line_text/line_words.rt", "word", "a number that stands for none", "nothing past the last word"),
    (1, "line_text/text_lines.rt", "line", "a number that stands for none", "nothing past the last line"),
    (1, "packets/lib.rt", "text_length", "a number that stands for none", "a count over 31 counts as 31"),
    (2, "channel/either.rt", "on_lake", "functions alike", "on_river"),
    (2, "channel/either.rt", "on_river", "functions alike", "on_lake"),
    (2, "dip_readings/lib.rt", "scan_bytes", "functions alike", "scan_run: one looks at bytes, one at numbers"),
    (2, "dip_readings/lib.rt", "scan_run", "functions alike", "scan_bytes"),
    (2, "dip_readings/lib.rt", "read_readings", "functions alike", "write_readings: refusals and answers alike, the work and what is scanned not"),
    (2, "dip_readings/lib.rt", "write_readings", "functions alike", "read_readings"),
    (2, "slices/lib.rt", "same", "functions alike", "vectors/compare.rt same: a second one, since the library's is under test"),
    (2, "vectors/compare.rt", "same", "functions alike", "slices/lib.rt same"),
    (2, "vectors/file.rt", "read_full", "functions alike", "year_job/files.rt fill: the same loop, which stops at a failure"),
    (2, "year_job/files.rt", "fill", "functions alike", "vectors/file.rt read_full"),
    *[(2, "dip_cases/readings.rt", a, "functions alike", b) for pair in CASES for a, b in (pair, pair[::-1])],
    *[(2, f"{a}.rt", name, "functions alike", f"{b}.rt {name}") for one, other, name in RUNS for a, b in ((one, other), (other, one))],
    (6, "world/hashes.rt", "all", "parallel arrays", "lengths, and the digits of all one after another", "lengths: &[usize]"),
    (6, "year_text/names.rt", "is_new", "a set searched by hand", "whether a name stands among those of the months before"),
    (1, "dip_text/head.rt", "header", "a number that stands for none", "0 for a number that is none of its type", "unwrap_or(0)"),
    (1, "dip_readings/bad.rt", "index", "a number that stands for none", "0 beside another refusal", "_ => 0"),
    (4, "dip_text/numbers.rt", "whole", "a cast of another kind", "2", "as i64"),
    (4, "decimal/lib.rt", "read", "conversion by hand", "word to usize", "is_ascii_digit"),
    (6, "dip_readings/lib.rt", "decode", "parts of one size cut by hand", "by the number of the reading", "fours[i]"),
    *[(6, place, name, "an array with a length beside it", what, text) for place, name, what, text in (
        ("one_month/lib.rt", "there_and_back", "room, the text's", ".min(124)"), ("dip_cases/readings.rt", "read", "room, the run's", ".min(40)"),
        ("dip_cases/readings.rt", "write", "room, the bytes'", ".min(160)"), ("dip_cases/readings.rt", "refused", "two, those of the table", ".min(160)"),
        ("dip_cases/header.rt", "lent", "out, n", ".min(25)"), ("world/hashes.rt", "is_hash", "room, the message's", ".min(LONGEST)"),
        ("year_job/sealing.rt", "open_month", "out, the packet's", "sealed.text_length()"), ("year_job/opened.rt", "levels_of", "31, the header's count", "[i32; 31]"),
        ("dip_vectors/run.rt", "Run", "array, size", "size: usize"), ("trials/lanes.rt", "State", "200, of which 100 at 32 bits", "200"))],
    *[(7, place, name, "a match that picks a step", what, text) for place, name, what, text in (
        ("sessions/run.rt", "line", "match line.first()", "match line.first()"), ("dip_vectors/main.rt", "take", "match line.first()", "match line.first()"),
        ("year_job/job.rt", "run_on", "match words.instance", "match words.instance"))],
]
# What a rule finds and is no place: point, crate/file, name, kind, why.
NONE = [
    (2, "trials/lanes.rt", "byte", "functions alike", "byte64 takes a state, byte a lane"),
    (2, "trials/lanes.rt", "byte64", "functions alike", "byte64 takes a state, byte a lane"),
    (6, "year_text/one_year.rt", "Stood", "a stretch as two places", "two lines of a file, no stretch of a slice"),
    (6, "world/states32.rt", "asked", "a length or a place beside a slice", "a count of rounds"),
    (6, "world/states64.rt", "asked", "a length or a place beside a slice", "a count of rounds"),
    (6, "year_job/attacks.rt", "tell", "a length or a place beside a slice", "the size of the output, which is not handed in"),
    (7, "trials/tally.rt", "add", "a flag that picks a step", "one sum, of one count or the other"),
    (7, "year_job/attacks.rt", "tell_output", "a flag that picks a step", "one call, with one text or the other"),
]


@dataclasses.dataclass(frozen=True, order=True)
class Place:
    point: int
    crate: str
    file: str
    line: int
    kind: str
    what: str

    def told(self):
        return f"{self.point} {self.crate}/{self.file}:{self.line} {self.kind}: {self.what}"


def at(point, item, kind, what, line=0):
    return Place(point, item.crate, item.file, line or item.line, kind, what)


def line_in(item, offset):
    return item.body_line + item.body.count("\n", 0, offset)


def functions(items):
    return [i for i in items if i.kind == "fn"]


def own_functions(items):
    """Functions but for the methods of a trait for a type: there a conversion, a comparison or a printing is today's form (From, PartialEq, Display)."""
    return [f for f in functions(items) if " for " not in f.owner]


def structs(items):
    return [i for i in items if i.kind == "struct"]


def params(item, kind):
    return [name for name, what in item.parts if re.fullmatch(kind, what)]


def block(body, start):
    """The block that opens at or behind `start`, without its braces."""
    first = body.index("{", start)
    return body[first + 1 : closing(body, first) - 1]


# ---- point 1


def flags(items):
    """A flag beside a value: a struct with a bool and with a field of another type."""
    for s in structs(items):
        bools = params(s, "bool")
        if bools and len(bools) < len(s.parts):
            yield at(1, s, "a flag beside a value", f"{s.name}: {', '.join(bools)}")


def flags_alone(items):
    """Flags as a result: a struct of two bools or more and nothing else."""
    for s in structs(items):
        if len(s.parts) > 1 and len(params(s, "bool")) == len(s.parts):
            yield at(1, s, "flags alone", f"{s.name}: {', '.join(n for n, _ in s.parts)}")


def families(items):
    """Numbers for kinds: constants of one integer type in one file, each one more than the one before."""
    consts = [i for i in items if i.kind == "const" and re.fullmatch(WHOLE, i.result) and re.fullmatch(r"\d+", i.body)]
    runs = []
    for c in consts:
        before = runs[-1][-1] if runs else None
        if before and before.place() == c.place() and before.result == c.result and int(c.body) == int(before.body) + 1:
            runs[-1].append(c)
        else:
            runs.append([c])
    return [r for r in runs if len(r) > 1]


def numbers_for_kinds(items):
    """Numbers for kinds: see families; a family is one place."""
    for run in families(items):
        yield at(1, run[0], "numbers for kinds", f"{len(run)} constants, {run[0].name} to {run[-1].name}")


def kinds_by_constants(items):
    """The constants of families, and others that an arm of a match names: as a pattern of their names."""
    names = {c.name for run in families(items) for c in run}
    consts = {i.name for i in items if i.kind == "const" and re.fullmatch(WHOLE, i.result)}
    for f in functions(items):
        names |= {n for n in re.findall(r"\b(?:\w+::)*([A-Z][A-Z0-9_]+)\s*=>", f.body) if n in consts}
    return r"\b(?:" + "|".join(sorted(names) or ["-"]) + r")\b"


def numbered(name, kind):
    """Whether a name and a type are those of a number for a kind or a refusal."""
    if name in ("kind", "which", "why"):
        return kind in ("u8", "usize", "u32")
    return kind == "u8" and name in ("number", "expected", "what", "refusal", "choice")


def number_fields(items):
    """A number for a kind or a refusal as a field."""
    for s in structs(items):
        for name, kind in s.parts:
            if numbered(name, kind):
                yield at(1, s, "a number as a field", f"{s.name}.{name}: {kind}")


def number_results(items):
    """A number for a refusal as a result: a u8 from constants of a family, from `.number`, or from another such function."""
    known, consts = {}, kinds_by_constants(items)
    small = [f for f in functions(items) if f.result == "u8"]
    for _ in range(4):
        for f in small:
            names = {k.name for k in known.values()} & set(re.findall(r"\b(\w+)\(", f.body))
            if names or re.search(consts + r"|\.number\b|\bnumber_of\b", f.body) or any(numbered(n, k) for n, k in f.parts):
                known[f.place(), f.line] = f
    for f in known.values():
        yield at(1, f, "a number as a result", f.full())


def number_params(items):
    """A number for a kind or a refusal as a parameter."""
    for f in functions(items):
        names = [f"{n}: {k}" for n, k in f.parts if numbered(n, k)]
        if names:
            yield at(1, f, "a number as a parameter", f"{f.full()}({', '.join(names)})")


def number_matches(items):
    """A match on numbers for kinds: two arms or more are whole numbers of source, or words are chosen by them."""
    for f in functions(items):
        for found in re.finditer(r"\bmatch\s+([^{]+)\{", f.body):
            arms = re.findall(r"(?:^|[\s{,}|])(\d\w*)\s*(?==>|\|)", block(f.body, found.start()))
            if len(arms) > 1 and not re.search(r"\.(read|cmp)\(", found[1]):
                yield at(1, f, "a match on numbers", f"{f.full()}: match {plain(found[1])}", line_in(f, found.start()))


def told_by_bool(items):
    """A success as a bool: a function that prints, or calls such a one, answers whether it went well by a bool and not by a Result."""
    for f in functions(items):
        if f.result == "bool" and any("impl Print" in k or "impl Write" in k for _, k in f.parts):
            yield at(1, f, "a success as a bool", f.full())


def own_options(items):
    """An own enum of the shape of Option or Result: of its two variants one has a value and the other none, or one is named for a success or a failure.
    The error of a Result is none."""
    for e in items:
        variants = split(e.body) if e.kind == "enum" else []
        bare = [v for v in variants if not re.search(r"[({]", v)]
        named = re.search(r"\b(Ok|Err|Done|Failed|Good|Bad|Fine|Wrong|Some|None|Missing|Present)\b", e.body)
        error = any(re.search(rf"Result<[^<>]*(?:<[^<>]*>)?[^<>]*, (?:\w+::)*{e.name}>", f.result) for f in functions(items))
        if len(variants) == 2 and len(bare) < 2 and (bare or named) and not error:
            yield at(1, e, "an enum like Option or Result", e.name)


STANDS = re.compile(r"\bor (?:0|the end|the count|the limit|`\w+`)(?= where|[.:,;]|$)|\bfor any other\b|any other (?:byte |word )?is|\b0 if (?:it|there|none)", re.I)


def stands_for_none(items):
    """A number that stands for none: the comment of a function with a number as result says so, or a search answers the place or something else."""
    for f in functions(items):
        if re.fullmatch(WHOLE, f.result) and f.result != "u8" and (STANDS.search(f.notes) or search_of(f)):
            yield at(1, f, "a number that stands for none", f.full())
        elif f.result == "u8" and STANDS.search(f.notes) and not re.search(r"number|refus", f.notes):
            yield at(1, f, "a number that stands for none", f.full())


# ---- point 2

# What differs between twins, and what stands for it: types of numbers, numbers, numbers in names, instances, true and false, strings.
SAME = [(rf"\b{WHOLE}\b", "uN"), (rf"\b0x[\da-fA-F_]+\w*|\b\d[\d_]*{WHOLE}?\b", "#"), (r"(?<=[A-Za-z_])\d+(?=\b|_|\()", ""), (r"[Ll]ake|[Rr]iver", "X"),
        (r"\b(?:true|false)\b", "B"), (r"_+\"?(?=[,)\s;\]])", "S")]
WORDS = {"fn": "functions alike", "struct": "types alike", "enum": "types alike", "type": "types alike", "const": "constants alike"}


def alike_name(name):
    """A name without what says a width, a number or an instance."""
    return re.sub(r"[Ll]ake|[Rr]iver", "X", re.sub(r"\d+", "", name))


def alike_text(item):
    """An item's text without clauses, comments and its own name, each width, number, string and instance put alike, and what is repeated put once."""
    text = item.text
    if item.kind == "fn":
        text = ", ".join(k for _, k in item.parts) + " -> " + item.result + item.body
    text = re.sub(rf"\b{item.name}\b", "F", re.sub(r"\"_*", "S", text))
    for old, new in SAME:
        text = re.sub(old, new, text)
    text = re.sub(r",(?=[)\]}])", "", re.sub(r"\s+", "", text))
    for _ in range(3):
        text = re.sub(r"(.{2,90}?)\1+", r"\1", text)
    return f"{item.kind} {text}"


def twins(items):
    """Twins, each of both counted: the same text but for widths, numbers, strings or instances, or names that differ by nothing else, in one file or in two
    whose names do so too."""
    by_name, by_text = collections.defaultdict(list), collections.defaultdict(list)
    for i in items:
        by_name[alike_name(i.crate), alike_name(i.file), i.owner and alike_name(i.owner), alike_name(i.name), i.kind].append(i)
        text = alike_text(i)
        if len(text) > (48 if i.kind == "fn" else 28) and i.kind in ("fn", "struct", "enum"):
            by_text[text].append(i)
    found = {}
    for group in itertools.chain(by_text.values(), by_name.values()):
        if len({(i.crate, i.file, i.name, i.owner) for i in group}) > 1:
            for i in group:
                found.setdefault((i.crate, i.file, i.line), (i, [o for o in group if o is not i]))
    for i, others in found.values():
        words = "methods of one trait for two types" if " for " in i.owner else WORDS[i.kind]
        yield at(2, i, words, f"{i.full()} ~ {', '.join(sorted((o.crate + '::' if o.crate != i.crate else '') + o.full() for o in others))}")


# ---- point 3


def whiles(f):
    """Each while of a function: its place in the body, its condition, its block."""
    for found in re.finditer(r"\bwhile\s+([^{]+)\{|\bloop\s*\{", f.body):
        yield found.start(), plain(found[1] or "true"), block(f.body, found.end() - 1)


def counted_whiles(items):
    """A while whose condition names a counter that its block steps by one."""
    for f in functions(items):
        for offset, test, inside in whiles(f):
            steps = re.findall(r"\b(\w+)\s*[-+]=\s*1\s*;", inside) + [a for a, b in re.findall(r"\b(\w+)\s*=\s*(\w+)\s*[-+]\s*1\s*;", inside) if a == b]
            if any(re.search(rf"\b{s}\b", test) for s in steps):
                yield at(3, f, "while, stepped by one", f"{f.full()}: while {test}", line_in(f, offset))


def other_whiles(items):
    """Any other while, or a loop: stepped by another number, or until something holds."""
    for f in functions(items):
        for offset, test, inside in whiles(f):
            if not re.search(r"\b(" + "|".join(re.findall(r"\w+", test)) + r")\s*[-+]=\s*1\s*;", inside):
                yield at(3, f, "while, of another kind", f"{f.full()}: while {test}", line_in(f, offset))


def counted_fors(items):
    """A for over a range of numbers, by whether its number only reaches into a run (in brackets, or in a call of `at`) or is used otherwise."""
    for f in functions(items):
        for found in re.finditer(r"\bfor\s+(\w+)\s+in\s+([^{\[]*\.\.[^{]*)\{", f.body):
            name, inside = found[1], block(f.body, found.end() - 1)
            if name == "_":
                continue
            uses = len(re.findall(rf"\b{name}\b", inside))
            reach = len(re.findall(rf"\[[^\[\]]*\b{name}\b[^\[\]]*\]|\bat\([^()]*\b{name}\b[^()]*\)", inside))
            kind = "for, its number only an index" if reach == uses else "for, its number used otherwise"
            yield at(3, f, kind, f"{f.full()}: for {name} in {plain(found[2])}", line_in(f, found.start()))


# ---- point 4


def own_types(items):
    return {i.name for i in items if i.kind in ("struct", "enum")}


def equalities(items):
    """Equality by hand: named same or equal, or a bool by which the fields of two values of one type, or the elements of two runs, are compared."""
    own = own_types(items)
    for f in own_functions(items):
        kinds = [re.sub(r"^&(mut )?", "", k) for _, k in f.parts]
        if f.result == "bool" and len(f.parts) == 2 and kinds[0] == kinds[1]:
            a, b = f.parts[0][0], f.parts[1][0]
            fields = re.search(rf"\b{a}\.\w+\s*==\s*{b}\.\w+", f.body)
            order = re.search(rf"\b{a}\.\w+\s*<=?\s*{b}\.\w+", f.body)
            runs = re.search(rf"\b{a}\[\w+\]\s*(?:==|\^)\s*{b}\[\w+\]", f.body)
            if re.search(r"(^|_)(same|equals?|eq)(_|$)", f.name) or (fields and kinds[0] in own) or runs:
                yield at(4, f, "equality by hand", f.full())
            elif order:
                yield at(4, f, "order by hand", f.full())


def kind_tests(items):
    """A test of a kind by hand: a match whose arms are true and false alone."""
    for f in own_functions(items):
        if f.result == "bool" and (found := re.fullmatch(r"\{\s*match\s+[^{]+(\{.*\})\s*\}", f.body, re.S)):
            answers = {a for _, a in arms(found[1][1:-1])}
            if answers and answers <= {"true", "false"}:
                yield at(4, f, "a test of a kind by hand", f.full())


def is_least(f):
    """Whether a function is the lesser or the larger of its two parameters."""
    found = re.fullmatch(r"\{\s*if\s+[\w.]+\s*<=?\s*[\w.]+\s*\{\s*(\w+)\s*\}\s*else\s*\{\s*(\w+)\s*\}\s*\}", f.body)
    return bool(found) and {found[1], found[2]} == {n for n, _ in f.parts}


def is_copy(f):
    """Whether a function is a loop that copies, or that sets each element to one value."""
    return bool(re.search(r"\{\s*let mut (\w+) = 0;\s*while [^{]*\{\s*\w+\[\1\] = (?:\w+\[\1\]|\w+);\s*\1 \+= 1;\s*\}\s*\}$", f.body))


def helpers(items):
    """Functions of our own that do what the library's min, max, copy and fill do, and those that only pass on to them."""
    found = {(f.crate, f.name): f for f in functions(items) if is_least(f) or is_copy(f)}
    names = {f.name for f in found.values()}
    for f in functions(items):
        inner = re.fullmatch(r"\{\s*(?:\w+\()?(?:\w+::)*(\w+)\([^;]*\)?;?\s*\}", f.body)
        if inner and inner[1] in names and len(f.parts) <= 2:
            found[f.crate, f.name] = f
    return found


def order_and_copies(items):
    """Order and copying by hand: see helpers."""
    for f in helpers(items).values():
        kind = "copying by hand" if is_copy(f) or any(k.startswith("&mut") for _, k in f.parts) else "order by hand"
        yield at(4, f, kind, f.full())


def helper_calls(items):
    """Calls of those, and of equality by hand over slices, by function: what the library's own method would do there."""
    same = {(p.crate, p.file, p.line) for p in equalities(items)}
    names = {f.name for f in helpers(items).values()} | {f.name for f in functions(items) if (f.crate, f.file, f.line) in same and all("[" in k for _, k in f.parts)}
    for f in functions(items):
        calls = re.findall(r"(?<![\w.:])((?:\w+::)*)(\w+)\(", f.body)
        counts = collections.Counter(name for path, name in calls if name in names and name != f.name and (path or crate_has(items, f, name)))
        if counts:
            yield at(4, f, "a call of such a helper", f"{f.full()}: {', '.join(f'{n} {c}' if c > 1 else n for n, c in sorted(counts.items()))}")


def crate_has(items, f, name):
    """Whether a bare name is a function of the file, or brought in there."""
    here = [i for i in items if i.crate == f.crate and i.file == f.file and i.kind == "fn" and i.name == name]
    return bool(here) or name in ("least", "copy", "clear")


def rebuilt(items):
    """A struct written out anew field by field though fields of a value of it, or of another struct, are taken over: one place a literal."""
    own = {i.name: {n for n, _ in i.parts} for i in structs(items)}
    for f in own_functions(items):
        held = {v: k for v, k in f.parts}
        for found in re.finditer(r"(?<!struct )\b((?:\w+::)?[A-Z]\w*)\s*\{", f.body):
            name = found[1].split("::")[-1]
            if name not in own or re.search(r"->\s*$|enum\s*$", f.body[: found.start()]):
                continue
            parts = split(block(f.body, found.start()))
            taken = collections.Counter(source_of(f.body, p) for p in parts)
            taken.pop("", None)
            var, most = taken.most_common(1)[0] if taken else ("", 0)
            alike = held[var].lstrip("&") == found[1] if var in held else 2 * most > len(own[name])
            if most > 1 or (most and alike):
                word = "a struct rebuilt for some of its fields" if alike else "a struct made of another's fields"
                yield at(4, f, word, f"{f.full()}: {name} from {var}", line_in(f, found.start()))


def source_of(body, part):
    """The value that a field of a literal is taken from as it is: of `x: v.x`, or of `x` after `let x = v.x`, it is v."""
    name, colon, value = part.partition(":")
    value = (value if colon else name).strip()
    found = re.fullmatch(r"(\w+)\.(\w+)", value) or re.search(rf"\blet {re.escape(value)} = (\w+)\.(\w+);", body)
    return found[1] if found else ""


def passed_on(items):
    """Copying by way of a local: `let x = a.b;` or `let x = f(..); y = x;`, where x is named just once more; by function."""
    for f in functions(items):
        count_ = 0
        for name, value in re.findall(r"\blet (\w+) = ([^;]+);", f.body):
            once = len(re.findall(rf"(?<!\w)(?<!\w\.){name}\b(?!\s*:(?!:))", f.body)) == 2
            count_ += once and bool(re.fullmatch(r"\w+(\.\w+)+", value) or re.search(rf"\n\s*[\w.]+ = {name};", f.body))
        if count_:
            yield at(4, f, "a local that only passes on", f"{f.full()}: {count_}")


def conversions(items):
    """Conversion by hand: a function of one value whose result is a value of another type, by a cast, a match, a literal or a choice of two numbers."""
    own = own_types(items) | {i.name for i in items if i.kind == "type"}
    known = rf"(?:{WHOLE}|bool|\[[^\]]+\]|(?:\w+::)?(?:{'|'.join(sorted(own))}))"
    for f in own_functions(items):
        if len(f.parts) != 1 or not re.fullmatch(known, f.parts[0][1]) or not re.fullmatch(known, f.result) or f.result in ("bool", f.parts[0][1]):
            continue
        tail = f.result.split("::")[-1]
        made = re.search(rf"\bas {WHOLE}\b|\bmatch\b|\{{\s*[01]\s*\}}\s*else\s*\{{\s*[01]\s*\}}", f.body) or re.search(rf"\b{re.escape(tail)}\s*[({{]", f.body) or re.search(r"\{\s*\[", f.body)
        if made:
            yield at(4, f, "conversion by hand", f"{f.full()}: {f.parts[0][1]} to {f.result}")


WIDTH = {"u8": 8, "i8": 8, "u16": 16, "i16": 16, "u32": 32, "i32": 32, "u64": 64, "i64": 64, "usize": 64, "isize": 64}


def cast_kinds(items):
    """A cast: one that widens is a From, one that narrows a TryFrom or a mask; by function. The type of what is cast is known for parameters and for
    fields whose name has one type everywhere."""
    fields = collections.defaultdict(set)
    for s in structs(items):
        for name, kind in s.parts:
            fields[name].add(kind)
    for f in functions(items):
        held, counts = dict(f.parts), collections.Counter()
        for value, kind in re.findall(rf"([\w.]+(?:\[[^\]]*\])?|\))\s+as\s+({WHOLE})\b", f.body):
            last = value.split(".")[-1]
            was = held.get(value) or (next(iter(fields[last])) if "." in value and len(fields[last]) == 1 else "")
            was = "u8" if was == "" and re.fullmatch(r"\w+\[[^\]]*\]", value) and "u8" in held.get(value.split("[")[0], "") else was
            counts["a cast that widens" if was in WIDTH and WIDTH[was] < WIDTH[kind] else "a cast of another kind"] += 1
        for kind, count in sorted(counts.items()):
            yield at(4, f, kind, f"{f.full()}: {count}")


def printed(items):
    """Printing by hand: a function that prints and takes one value beside where it goes, a number, an array or a value of an own type: a Display."""
    own = own_types(items)
    for f in own_functions(items):
        others = [k for _, k in f.parts if "impl Print" not in k]
        if f.result in ("", "bool", "io::Result<()>") and len(others) == len(f.parts) - 1 == 1 and re.fullmatch(rf"&?(?:{WHOLE}|\[u8; \w+\]|(?:\w+::)?(?:{'|'.join(sorted(own))}))", others[0]):
            yield at(4, f, "printing by hand", f"{f.full()} of {others[0]}")


# ---- point 5


def conjuncts(clause):
    """The facts of a clause: what stands between × outside of brackets, each without brackets around it."""
    text = clause.strip()
    while text.startswith("(") and closing(text, 0) == len(text):
        text = text[1:-1].strip()
    parts = split(text, "×")
    return [text] if len(parts) < 2 else [c for p in parts for c in conjuncts(p)]


def facts(items):
    """A fact in the contracts of three functions of a crate, or more; spelled alike."""
    held = collections.defaultdict(dict)
    for f in functions(items):
        for _, clause in f.clauses:
            for fact in conjuncts(clause):
                held[f.crate, fact][f.file, f.full()] = f
    for (crate, fact), where in held.items():
        if len(where) > 2:
            first = min(where.values(), key=lambda f: (f.file, f.line))
            yield at(5, first, "a fact in three contracts or more", f"{fact} [{len(where)}: {', '.join(sorted(n for _, n in where))}]")


def groups(items):
    """Three parameters or more that travel together, by name and type, through three functions of a crate or more; the largest such groups. What is
    printed to and written to counts as any other."""
    by = collections.defaultdict(list)
    for f in functions(items):
        by[f.crate].append((f, frozenset(p for p in f.parts if p[1] not in ("self", "&self", "&mut self"))))
    for crate, all_ in by.items():
        sets = {a & b for (_, a), (_, b) in itertools.combinations(all_, 2) if len(a & b) > 2}
        sets |= {s & t for s in sets for t in sets if len(s & t) > 2}
        often = {s: [f for f, p in all_ if s <= p] for s in sets}
        often = {s: fs for s, fs in often.items() if len(fs) > 2}
        for s, fs in often.items():
            if any(s < t for t in often):
                continue
            order = [p for p in fs[0].parts if p in s]
            yield at(5, fs[0], "parameters that travel together", f"{', '.join(f'{n}: {k}' for n, k in order)} [{len(fs)}: {', '.join(f.full() for f in fs)}]")


def always_two(items):
    """Two parameters that always travel together: each function of the crate that has the one has the other, six functions or more; such pairs that share
    one are one place. Where it is printed to does not count."""
    for crate in sorted({i.crate for i in items}):
        by = collections.defaultdict(set)
        for f in functions(items):
            for part in f.parts if f.crate == crate else []:
                if "impl " not in part[1] and not part[1].endswith("self"):
                    by[part].add((f.file, f.line, f.full()))
        chains = []
        for a, b in itertools.combinations(sorted(by), 2):
            if len(by[a] & by[b]) > 5 and (by[a] <= by[b] or by[b] <= by[a]):
                joined = [c for c in chains if c & {a, b}]
                chains = [c for c in chains if c not in joined] + [set().union({a, b}, *joined)]
        for chain in chains:
            held = sorted(f for f, n in collections.Counter(f for p in chain for f in by[p]).items() if n > 1)
            first = next(f for f in items if (f.crate, f.file, f.line) == (crate, *held[0][:2]))
            names = ", ".join(n for _, _, n in held)
            yield at(5, first, "two parameters or more that always travel together", f"{', '.join(f'{n}: {k}' for n, k in sorted(chain))} [{len(held)}: {names}]")


# ---- point 6


def lengths_beside(items):
    """An array of fixed length and how much of it is used: an array made here, or lent to be filled here, is cut at a length that is no constant."""
    for f in functions(items):
        made = [(found[1], found.start()) for found in re.finditer(r"\blet mut (\w+)(?:: [^=;]+)? = \[", f.body)]
        lent = [(n, 0) for n, k in f.parts if re.fullmatch(r"&mut \[[^;]+\]", k)]
        for name, offset in made + lent:
            cut = re.search(rf"\b{name}\[\s*0?\s*\.\.\s*([a-z]\w*(?:\.\w+)?)\s*\]", f.body[offset:])
            if cut and (offset or re.search(rf"\blet {cut[1]} = [^;]*\b{name}\b", f.body)):
                yield at(6, f, "an array with a length beside it", f"{f.full()}: {name}, {cut[1]}", line_in(f, offset))


def sizes_beside(items):
    """A length as a parameter beside the slice that it is of: named for a length, or bounded by it in a clause."""
    for f in functions(items):
        slices = [n for n, k in f.parts if re.fullmatch(r"&(mut )?\[[^;]+\]", k)]
        if not slices:
            continue
        for name in params(f, "usize"):
            bound = any(re.search(rf"\b{name}\b", c) and any(re.search(rf"length {s}\.", c) for s in slices) for kind, clause in f.clauses if kind == "requires" for c in conjuncts(clause))
            if bound or name in ("n", "count", "len", "length", "size", "room", "months", "total"):
                yield at(6, f, "a length or a place beside a slice", f"{f.full()}: {name} of {', '.join(slices)}")


def stretches(items):
    """A stretch of a slice as two places: fields from and to, start and end, X and Xend."""
    for s in structs(items):
        names = {n for n, _ in s.parts}
        if {"from", "to"} <= names or {"start", "end"} <= names or {"first", "last"} <= names or any(n + e in names for n in names for e in ("end", "_end")):
            yield at(6, s, "a stretch as two places", s.name)


def parallel(items):
    """Parallel arrays: a struct with two arrays or more."""
    for s in structs(items):
        arrays = [n for n, k in s.parts if k.startswith("[") or k.startswith("Vec<")]
        if len(arrays) > 1:
            yield at(6, s, "parallel arrays", f"{s.name}: {', '.join(arrays)}")


def search_of(f):
    """Whether a loop of the function answers the place at which a test holds."""
    for found in re.finditer(r"\b(?:while\s+([^{]+)|for\s+(\w+)\s+in\s+([^{]+))\{", f.body):
        inside = block(f.body, found.end() - 1)
        name = found[2] or next(iter(re.findall(r"\b(\w+) [-+]= 1", inside)), "")
        if name and re.search(rf"\bif [^{{]+\{{\s*return {name}\b[^;]*;", inside):
            return True
    return False


def searches(items):
    """A search by hand: a loop that answers the place at which a test holds. None is of a sorted list."""
    for f in functions(items):
        if search_of(f):
            yield at(6, f, "a search by hand", f.full())


def ends_by_index(items):
    """A first or last element by its index, after a look at the length: `first`, `last`, or a pattern."""
    for f in functions(items):
        for name in sorted(set(re.findall(r"\b(\w+)\.len\(\)", f.body))):
            if re.search(rf"\b{name}\[(?:0|n - 1)\]", f.body) and re.search(rf"\b(?:{name}\.len\(\)|n) (?:==|!=|<) [01]\b|\b0 < {name}\.len", f.body):
                yield at(6, f, "a first or last element by its index", f"{f.full()}: {name}")


def chunks(items):
    """A run cut into parts of one size by hand: from K * i up to K more, by a literal place or two local ones."""
    for f in functions(items):
        found = re.search(r"\[\s*(\w+ \* \w+|\w+)\s*\.\.\s*\1 \+ \w+\s*\]", f.body) or (re.search(r"\blet (\w+) = \w[\w:]* \* \w+;\s*let \w+ = \1 \+ [\w:]+;", f.body) if re.search(r"\[\w+\.\.\w+\]", f.body) else None)
        pairs = re.search(r"\[\d \* (\w+)\].*\[\d \* \1 \+ 1\]", f.body, re.S)
        if found or pairs:
            yield at(6, f, "parts of one size cut by hand", f.full(), line_in(f, (found or pairs).start()))


def links(items):
    """An index as a link: a field named next, prev, parent, left, right or child that is a usize, in a struct that stands in an array."""
    held = {k for i in items for _, k in i.parts} | {i.text for i in functions(items)}
    for s in structs(items):
        names = [n for n, k in s.parts if k == "usize" and re.fullmatch(r"(next|prev|parent|left|right|child)\w*", n)]
        if names and any(re.search(rf"\[{s.name};|&(mut )?\[{s.name}\]|Vec<{s.name}", h) for h in held):
            yield at(6, s, "an index as a link", f"{s.name}: {', '.join(names)}")


def words_as_bytes(items):
    """Text as bytes: a parameter `&[u8]` to which a call gives a literal of two letters or more."""
    by = collections.defaultdict(list)
    for f in functions(items):
        by[f.name].append(f)
    found = {}
    for f in functions(items):
        for call in re.finditer(r"\b((?:\w+::)*)(\w+)\(", f.body):
            for g in callees(by, f, call[1], call[2]):
                end = closing(f.body, call.end() - 1)
                for k, arg in enumerate(spans(f.body, call.end(), end - 1)):
                    text = f.body_raw[arg[0] : arg[1]].strip()
                    if k < len(g.parts) and g.parts[k][1] == "&[u8]" and re.match(r"b\"[^\"]*[A-Za-z ]{2}", text):
                        found.setdefault((g.crate, g.file, g.name, g.parts[k][0]), g)
    for (_, _, _, name), g in found.items():
        yield at(6, g, "text as bytes", f"{g.full()}: {name}")


def callees(by, f, path, name):
    """The functions that a call may mean: of the module or crate that its path names, else of the file, else of the only one of the name."""
    these = by[name]
    part = path.rstrip(":").split("::")[-1] if path else ""
    if part and part not in ("crate", "self"):
        return [g for g in these if g.crate == part or g.file in (f"{part}.rt", f"{part}/mod.rt") or g.owner.startswith(part)]
    return [g for g in these if g.place() == f.place()] or [g for g in these if g.crate == f.crate] or these[:1] if len(these) else []


def spans(text, start, end):
    """Where each argument of a call begins and ends."""
    deep, last = 0, start
    for k in range(start, end):
        deep += (text[k] in "([{") - (text[k] in ")]}")
        if text[k] == "," and deep == 0:
            yield last, k
            last = k + 1
    yield last, end


# ---- point 7


def arms(inside):
    """The answers of a match's arms."""
    at_, out = 0, []
    while (k := inside.find("=>", at_)) >= 0:
        k += 2
        deep, z = 0, k
        while z < len(inside) and not (inside[z] == "," and deep == 0):
            deep += (inside[z] in "([{") - (inside[z] in ")]}")
            z += 1
            if deep == 0 and inside[z - 1] == "}" and inside[k:z].strip().startswith("{"):
                break
        out.append((plain(inside[at_ : k - 2]).lstrip(", "), plain(inside[k:z])))
        at_ = z
    return out


def switches(items):
    """A match on a kind or a number whose arms call different functions."""
    for f in functions(items):
        for found in re.finditer(r"\bmatch\s+([^{]+)\{", f.body):
            all_ = arms(block(f.body, found.end() - 1))
            if any(re.match(r"(Ok|Err|Some|None)\b", a) for a, _ in all_):
                continue
            calls = {re.sub(r"\(.*", "", v) for _, v in all_ if re.match(r"!?\{?\s*(?:\w+::)*\w+\(", v) or re.search(r"\w\(", v)}
            if len(calls) > 1 and not all(c.split("::")[-1] in ("put",) for c in calls):
                yield at(7, f, "a match that picks a step", f"{f.full()}: match {plain(found[1])}", line_in(f, found.start()))


def chosen_by_bool(items):
    """An if on a flag that was handed in, a parameter or a field of one, with one call on the one side and another on the other."""
    flags_ = {n for s in structs(items) for n, k in s.parts if k == "bool"}
    for f in functions(items):
        held = {n for n, k in f.parts if k == "bool"}
        for found in re.finditer(r"\bif (\w+)(?:\.(\w+))?\s*\{", f.body):
            if not ((found[1] in held and not found[2]) or (found[2] in flags_ and found[1] in dict(f.parts))):
                continue
            end = closing(f.body, found.end() - 1)
            one, other = f.body[found.end() : end - 1], f.body[end:]
            if re.search(r"\b[a-z]\w*\(", one) and re.search(r"\b[a-z]\w*\(", other) and ("return" in one or other.lstrip().startswith("else")):
                yield at(7, f, "a flag that picks a step", f"{f.full()}: if {found[1]}{'.' + found[2] if found[2] else ''}", line_in(f, found.start()))


def tables(items):
    """A table of functions: a function pointer, or a dyn value."""
    for i in items:
        if re.search(r"\bdyn\s|:\s*\[?fn\s*\(", i.text):
            yield at(7, i, "a table of functions", i.full())


RULES = [flags, flags_alone, numbers_for_kinds, number_fields, number_results, number_params, number_matches, told_by_bool, own_options, stands_for_none, twins, counted_whiles, other_whiles, counted_fors,
         equalities, kind_tests, order_and_copies, helper_calls, rebuilt, passed_on, conversions, cast_kinds, printed, facts, groups, always_two, lengths_beside, sizes_beside, stretches, parallel, searches, ends_by_index, chunks, links, words_as_bytes, switches,
         chosen_by_bool, tables]


def places(items):
    """All places, each once, in the order of points, crates and lines."""
    found = {p for rule in RULES for p in rule(items)}
    for point, place, name, kind, what, *text in BY_HAND:
        for i in items:
            if i.place() == place and i.name == name and all(t in i.raw for t in text) and not any(p.point == point and (p.crate, p.file, p.line) == (i.crate, i.file, i.line) for p in found):
                found.add(at(point, i, kind, f"{i.full()}: {what}"))
    inside = lambda p, i: (p.crate, p.file) == (i.crate, i.file) and i.line <= p.line <= i.line + i.raw.count("\n")  # noqa: E731
    none = [(point, kind, i) for point, place, name, kind, _ in NONE for i in items if i.place() == place and i.name == name]
    return sorted(p for p in found if not any(p.point == point and p.kind == kind and inside(p, i) for point, kind, i in none))


def count(all_):
    """The table of numbers: a row a kind, and a sum for each point."""
    rows = ["| Point | Kind of place | Places | Crates |", "|---|---|---|---|"]
    for point, words in POINTS.items():
        mine = [p for p in all_ if p.point == point]
        rows.append(f"| **{point}** | **{words}** | **{len(mine)}** | **{len({p.crate for p in mine})}** |")
        for kind in sorted({p.kind for p in mine}, key=lambda k: (-sum(p.kind == k for p in mine), k)):
            these = [p for p in mine if p.kind == kind]
            rows.append(f"| {point} | {kind} | {len(these)} | {', '.join(f'{c} {n}' for c, n in sorted(collections.Counter(p.crate for p in these).items()))} |")
    return "\n".join(rows)


def page(all_):
    """The places by point, kind and crate, a line a crate."""
    for point, words in POINTS.items():
        print(f"\n### Point {point}: {words}\n")
        mine = [p for p in all_ if p.point == point]
        for kind in sorted({p.kind for p in mine}):
            print(f"- *{kind}*")
            for crate in sorted({p.crate for p in mine if p.kind == kind}):
                print(f"  - `{crate}`: " + "; ".join(f"{p.file}:{p.line} {short(p.what)}" for p in mine if p.kind == kind and p.crate == crate))


def short(what):
    return "`" + what.replace("`", "'") + "`" if len(what) < 240 else "`" + what[:236].replace("`", "'") + " ..`"


def above_impl(p):
    """The comment above the impl that a place stands in."""
    lines = (TOP / "crates" / p.crate / "src" / p.file).read_text().split("\n")[: p.line]
    begins = next((k for k in range(len(lines) - 1, -1, -1) if re.match(r"\S", lines[k]) and not lines[k].startswith("//")), 0)
    first = begins
    while first and lines[first - 1].startswith("//"):
        first -= 1
    return plain(" ".join(line.lstrip("/ ") for line in lines[first:begins])) if lines[begins].startswith("impl") else ""


def beside(items, p):
    """The comments at a place: above the impl and the item that it stands in, and in it up to the place."""
    inside = [i for i in items if (i.crate, i.file) == (p.crate, p.file) and i.line <= p.line <= i.line + i.raw.count("\n")]
    impl = above_impl(p)
    return [f"    {impl}"] * bool(impl) + [f"    {i.notes}" for i in inside if i.notes] + [f"    {c.strip()}" for i in inside for c in re.findall(r"//([^\n]*)", i.raw)]


def main(argv):
    items = source(argv[argv.index("--at") + 1] if "--at" in argv else None)
    all_ = places(items)
    if "--count" in argv:
        print(count(all_))
    elif "--page" in argv:
        page(all_)
    elif "--crates" in argv:
        for crate in sorted({p.crate for p in all_}):
            print(f"\n== {crate}: {sum(p.crate == crate for p in all_)}\n" + "\n".join(p.told() for p in all_ if p.crate == crate))
    else:
        for p in all_:
            print("\n".join([p.told()] + (beside(items, p) if "--beside" in argv else [])))


if __name__ == "__main__":
    main(sys.argv[1:])
