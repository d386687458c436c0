"""Where the must-fail edits fall. The second line of an edit is `falls: PLACE FACT`. PLACE is a function as the check names it, with its modules and, of a
method, its type or impl, as `keyak::work::seal`, `keyak::Session::wrap` and `endian::U64Little::load`, or the file of a law, as `calls/proofs/Story.antt`;
FACT is what is not proved there, a goal of the function (`returns`, `loop-i-preserved`) or the law. Once rt has refused the edits, this checks each crate
with its edit once more, in a copy, for rt tells of an edit one line alone, and passes over what only names something that is gone; and the crate as it
stands, whose log says which functions it has. The first error of the whole log that does not follow from another one must be that fact; a name that is
missing is never one; and every function that the edit adds, by the log or by the source, must be proved. Of the edit itself: it changes code or a
definition (src/ or specs/, comments aside), the fact stands in the unedited crate, and the edit leaves the proof of that fact as it is: the answers and
invariants of the function, or the lines of the law from its signature on, not the rest of its file. Whether a changed proof is right for harmless code
cannot be told from a log: MENDED lists these edits with why.
python3 tests/falls.py SAID [NAME...], SAID the file of what `rt ci` said, or `rt must-fail` without names, with names for the edits of those crates and of what they
stand on (as `rt ci NAME...` tries them), says of each edit where it falls, and leaves with 1 where that is not what it names."""
import collections
import concurrent.futures
import contextlib
import pathlib
import re
import shutil
import subprocess
import sys
import tempfile

import edits

TOLD = re.compile(r"(?:rt: )?must-fail (\w+)/(\S+)\.edit: (.*)")
REFUSED = "refused, as it must be: "
ERROR = re.compile(r"(?:\./)?(?P<file>[^:\s]+):\d+:\d+: error: (?:`(?P<fact>[^`]+)`: )?(?P<words>.*)")
UNPROVED = re.compile(r"fn (?P<function>\S+): no proof: expected answers in [^;]+; `search` did not prove `(?P<fact>[^`]+)`")
CALLS = re.compile(r"fn \S+: (?:not proved;|no proof:)(?: expected answers in [^;]+;)? it calls [^;]+, which (?:is|are) not proved")
WAITS = re.compile(r"(?:impl|trait) \S+: not proved; it waits for the proofs? of `[^`]+`(?:(?:,| and|, and) `[^`]+`)*")
UNREAD = re.compile(r"\w+ \S+: (?:no proof|not proved)|(?:\S+:\d+: )?error\b")
FOLLOWS = re.compile(r"\d+ declarations? that depends? on `[^`]+`, which was (?:not admitted|rejected), (?:was|were) not checked")
NAME = r"is not in scope|that can be named from here|has no field `|no module is found by|exports no such name"
PROOFS = ("Answers.antt", "Invariants.antt", "Proof.antt")
# The edits that change the proof of the very fact that they name, each with how that proof was seen to be right.
HARMLESS = "with a helper that leaves the tag alone, the same proof text was seen to be proved"
MENDED = {"keyak/refused-wrap-writes": HARMLESS, "keyak/refused-start-writes": HARMLESS}


def code(folder):
    """What the files under src/ and specs/ say, without comments and spaces."""
    files = [file for part, kind in (("src", "rt"), ("specs", "antt")) for file in folder.glob(f"{part}/**/*.{kind}")]
    return {file.relative_to(folder): re.sub(r"(//|--).*", "", file.read_text()).split() for file in files}


def told(lines):
    """The functions that a log tells of, as the check names them: with the crate, the modules and, of a method, its type or its impl."""
    return {line.split(": ")[0].removeprefix("fn ") for line in lines if line.startswith("fn ")}


def proved(lines):
    """Those of them that are proved; a closure that has a `requires` is told with the second of the two words."""
    return {name for name in told(lines) if not {f"fn {name}: {word}" for word in ("proved", "proved where its callers give what it asks")}.isdisjoint(lines)}


def written(crate, folder):
    """How often a crate's folder has a function of a name, with the crate and the module. Which type or impl a method is of is not read here."""
    names = collections.Counter()
    for file in sorted(folder.glob("src/**/*.rt")):
        inside = file.relative_to(folder / "src").with_suffix("").parts
        modules = [part for part in inside if part not in ("lib", "main", "mod")]
        for name in re.findall(r"\bfn\s+(\w+)\s*[(<]", re.sub(r"//[^\n]*|/\*.*?\*/", " ", file.read_text(), flags=re.DOTALL)):
            names["::".join([crate, *modules, name])] += 1
    return names


def unproved(more, lines, names):
    """The functions of an edit's own that are not proved: those that its log tells of and the unedited crate's does not, and those that it writes (`more`), for
    each of which the log must tell of another new one that is proved, in that module or in a type or an impl of it."""
    new = told(lines) - names
    bare = sorted(new - proved(lines))
    for name, count in more.items():
        module, last = name.rsplit("::", 1)
        if sum(each.startswith(f"{module}::") and each.endswith(f"::{last}") for each in new & proved(lines)) < count:
            bare.append(name)
    return bare


def place(crate, file):
    """The function whose proof it is, or the file of a law."""
    function = re.fullmatch(rf"proofs/(.+)/(?:{'|'.join(PROOFS)})", file)
    return "::".join([crate, *function[1].split("/")]) if function else f"{crate}/{file}"


def declaration(lines, name):
    """The lines of a law or a goal: what begins with its name, and what follows up to a line behind an empty one that is indented no deeper. None where
    it has no signature."""
    begins = re.compile(rf"\s*(?:(?:pub|abbrev|unfoldable) )*{re.escape(name)} (?P<signature>(?:\{{[^}}]*\}} )*: )?")
    kept, signed, inside, depth, gap = [], False, False, 0, False
    for line in lines:
        if not line.strip():
            gap = True
            continue
        indent, starts = len(line) - len(line.lstrip()), begins.match(line)
        if starts:
            inside, depth = True, min(depth, indent) if inside else indent
            signed = signed or bool(starts["signature"])
        elif gap and indent <= depth:
            inside = False
        gap = False
        if inside:
            kept.append(line)
    return kept if signed else None


def proof(folder, where, fact):
    """The lines that prove a fact in a crate's folder: of a law its own, of a function its answers and invariants. None where there are none."""
    if "::" not in where:
        file = folder / where.split("/", 1)[1]
        return declaration(file.read_text().splitlines(), fact) if file.is_file() else None
    files = [folder / "proofs" / "/".join(where.split("::")[1:]) / file for file in PROOFS]
    lines = [(file.name, file.read_text().splitlines()) for file in files if file.is_file()]
    return lines or None


def goals(root, crate, function):
    """The goals that the check makes of a function of the unedited crate, answered or not."""
    with tempfile.TemporaryDirectory() as made:
        subprocess.run(["rt", "check", "--start", function, "--generated", made], cwd=root / "crates" / crate, capture_output=True, check=False)
        file = pathlib.Path(made) / f"Rattle-{crate}-proofs" / "/".join(function.split("::")[1:]) / "AnswersOffered.antt"
        return re.findall(r"^pub (\S+) : ", file.read_text(), re.MULTILINE) if file.is_file() else []


def stands(root, crate, names, where, fact):
    """Whether the unedited crate has the fact: the law in its file, or the function, which its check proves, with the goal among its answers, or else among
    those that are found."""
    folder = root / "crates" / crate
    answers = proof(folder, where, fact)
    if "::" not in where:
        return answers is not None
    if where not in names:
        return False
    return any(declaration(lines, fact) is not None for _, lines in answers or []) or fact in goals(root, crate, where)


def whole(root, crate, names, where, fact):
    """The goal that a fact is one case of: a check that goes through the variants of an enum one by one tells the first that is not proved, as `returns-4`, where
    the unedited crate has the goal `returns` and no such case."""
    case = re.fullmatch(r"(returns)-\d+", fact or "")
    if case and not stands(root, crate, names, where, fact) and stands(root, crate, names, where, case[1]):
        return case[1]
    return fact


def first_error(crate, lines):
    """The first error that does not follow from another one: its place, its fact, what is wrong with it where it is no fact, and its line."""
    for at, line in enumerate(lines):
        made, error = UNPROVED.match(line), ERROR.match(line)
        if made:
            return made["function"], made["fact"], None, line
        if error and not FOLLOWS.match(error["words"]):
            where, fact = place(crate, error["file"]), error["fact"]
            words = error["words"] + "".join(more for more in lines[at + 1:at + 2] if more.startswith("  "))
            if re.search(NAME, words):
                return where, fact, "a name is missing", line
            if not fact or error["file"].startswith("src/"):
                return where, fact, "no fact: the text is not read", line
            return where, fact, None, line
        if not error and UNREAD.match(line) and not CALLS.fullmatch(line) and not WAITS.fullmatch(line):
            return None, None, "no fact: a line that is not understood", line
    return None, None, "no error", ""


def wrong_fact(root, folder, crate, label, names, where, fact):
    """What is wrong with the fact that an edit names, if anything: it is the edit's own, or its proof is."""
    if not stands(root, crate, names, where, fact):
        return f"{where} {fact} does not stand in the unedited crate"
    changed = proof(root / "crates" / crate, where, fact) != proof(folder, where, fact)
    listed = f"{crate}/{label}" in MENDED
    if changed and not listed:
        return f"it changes the proof of {where} {fact}, which it names, and is not listed with how that proof was seen to be right"
    if listed and not changed:
        return f"it is listed for a changed proof, and leaves the proof of {where} {fact} as it is"
    return None


@contextlib.contextmanager
def copied(root):
    """A copy of the repository, of what a check reads: the crates, and what they were built to."""
    with tempfile.TemporaryDirectory() as room:
        copy = pathlib.Path(room)
        (copy / "crates").mkdir()
        for file in root.glob("*"):
            if file.name == "crates.txt" or file.name == "HANDLES":
                shutil.copy(file, copy)
        for crate in sorted((root / "crates").iterdir()):
            for part in ("src", "specs", "proofs", "out/rlib"):
                if (crate / part).is_dir():
                    shutil.copytree(crate / part, copy / "crates" / crate.name / part)
        yield copy


def checked(still, folder):
    """What a check says of the crate in the folder, line by line, in a copy of the repository beside what its other crates were built to. `still` is a copy too,
    in which nothing runs: in the repository `goals` does, at the same time, and its check builds again what lies below."""
    with copied(still) as copy:
        to = copy / "crates" / folder.name
        for part in ("src", "specs", "proofs"):
            shutil.rmtree(to / part, ignore_errors=True)
            if (folder / part).is_dir():
                shutil.copytree(folder / part, to / part)
        ran = subprocess.run(["rt", "check"], cwd=to, capture_output=True, text=True, errors="replace", check=False)
        return (ran.stdout + ran.stderr).splitlines()


def judge(root, still, crate, label, said, names):
    """Whether the edit falls at the fact that it names, and a line that says where it falls. `names`: the functions that the unedited crate's check proves."""
    before, edit = root / "crates" / crate, root / "crates" / crate / "must-fail" / f"{label}.edit"
    named = re.fullmatch(r"falls: (\S+ \S+)", "".join(edit.read_text().splitlines()[1:2]))
    if not named:
        return False, "its second line is not `falls: PLACE FACT`"
    if f"{crate}/{label}" not in said:
        return False, "rt said nothing of it: it was not tried"
    words = said[f"{crate}/{label}"]
    texts, why = edits.edited(edit, before)
    if why:
        return False, f"it cannot be made: {why}"
    with tempfile.TemporaryDirectory() as room:
        folder = pathlib.Path(room) / crate
        for part in ("src", "specs", "proofs"):
            if (before / part).is_dir():
                shutil.copytree(before / part, folder / part)
        for file, text in texts.items():
            (folder / file).write_text(text)
        if code(folder) == code(before):
            return False, "it changes nothing under src/ or specs/"
        if not words.startswith(REFUSED):
            return False, f"rt does not say that it is refused at a fact: {words[:400]}"
        lines = checked(still, folder)
        bare = unproved(written(crate, folder) - written(crate, before), lines, names)
        if bare:
            return False, f"a function of its own is not proved: {', '.join(bare)}"
        where, fact, wrong, line = first_error(crate, lines)
        fact = fact if wrong else whole(root, crate, names, where, fact)
        if wrong or f"{where} {fact}" != named[1]:
            return False, f"{wrong or f'it falls at {where} {fact}'}, and names {named[1]}; the first error: {line[:400]}"
        wrong, why = wrong_fact(root, folder, crate, label, names, where, fact), MENDED.get(f"{crate}/{label}")
        if wrong:
            return False, wrong
        return True, f"falls at {where} {fact}, as it names" + (f" (it changes that proof: {why})" if why else "")


def crates(root, names):
    """The crates of crates.txt that are asked for, with what they stand on; without names all."""
    lines = [line.split("#")[0].split(":") for line in (root / "crates.txt").read_text().splitlines()]
    stands_on = {line[0].split()[0]: line[1].split() for line in lines if len(line) == 2}
    asked = set(names or stands_on)
    while more := {on for name in asked for on in stands_on.get(name, []) if on in stands_on} - asked:
        asked |= more
    return [name for name in stands_on if name in asked]


def main():
    root, wrong = pathlib.Path("."), 0
    said = {f"{found[1]}/{found[2]}": found[3] for line in pathlib.Path(sys.argv[1]).read_text(errors="replace").splitlines() if (found := TOLD.match(line))}
    tried = [(crate, edit.stem) for crate in crates(root, sys.argv[2:]) for edit in sorted((root / "crates" / crate / "must-fail").glob("*.edit"))]
    with copied(root) as still, concurrent.futures.ThreadPoolExecutor(4) as pool:
        edited = sorted({crate for crate, _ in tried})
        names = dict(zip(edited, pool.map(lambda crate: proved(checked(still, root / "crates" / crate)), edited)))
        for (crate, label), (right, words) in zip(tried, pool.map(lambda it: judge(root, still, *it, said, names[it[0]]), tried)):
            print(f"must-fail {crate}/{label}: {words if right else f'NOT AS NAMED: {words}'}", flush=True)
            wrong += not right
    print(f"{len(tried) - wrong} of {len(tried)} edits fall at the fact that they name")
    sys.exit(1 if wrong else 0)


if __name__ == "__main__":
    main()
