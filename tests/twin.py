"""What stands twice, once for lanes of 64 bits or Lake and once for 32 bits or River, stands there alike but for names and numbers: the two impls of lanes
and their proofs, the two records and the demands on them, and the exports that C has under a name for each. python3 tests/twin.py leaves with 1 and names
what differs. White space, comments of exports and the commas of wrapped argument lists don't count."""
import pathlib
import re
import sys

CRATES = pathlib.Path("crates")
# The files of the first and of the second, each pair once; of a folder all its files.
FILES = [("lanes/src/wide.rt", "lanes/src/narrow.rt"), ("lanes/proofs/wide/ArrayU6425Lanes", "lanes/proofs/narrow/ArrayU3225Lanes"),
         ("keyak/specs/Lake.antt", "keyak/specs/River.antt"), ("promises/proofs/Lake.antt", "promises/proofs/River.antt")]
# The files whose functions are two of each, and what begins the names of the first and of the second.
EXPORTS = ["bench/src/lib.rt", "timing/src/lib.rt"]
# In these files the numbers are a lane's width in bits and in bytes, the width's binary logarithm, and the rounds of KECCAK-f.
WORDS = [("u64", "u32"), ("U64", "U32"), ("width64", "width32"), ("repeat64", "repeat32"), ("wide", "narrow"), ("lake", "river"), ("Lake", "River")]
NUMBERS = [("64", "32"), ("24", "22"), ("8", "4"), ("6", "5")]
# What no rule makes: a round's constant is a lane of 64 bits as it stands, and of a narrower lane its lowest bits are taken.
OTHER = {"lanes/src/wide.rt": [("k: u32", "k: u64"), ("b[0] ^= k;", "// No `From` narrows: the constant's lowest 32 bits, as the clause has them.\n        b[0] ^= (k % 0x1_0000_0000) as u32;")]}


def twin(text):
    """The text that one for 64 bits or Lake asks for."""
    for wide, narrow in WORDS:
        text = text.replace(wide, narrow)
    for wide, narrow in NUMBERS:
        text = re.sub(rf"\b{wide}\b", narrow, text)
    return text


def twin_of(file):
    text = twin(file.read_text())
    for made, stands in OTHER.get(str(file.relative_to(CRATES)), []):
        text = text.replace(made, stands) if text.count(made) == 1 else f"not there once: {made}"
    return text


def bare(text):
    return re.sub(r",(?=[)\]}])", "", re.sub(r"\s+", "", text))


def files(path):
    return [path] if path.is_file() else sorted(file for file in path.rglob("*") if file.is_file())


def pairs():
    """Every pair of files, by their paths, with what the first asks for."""
    for wide, narrow in FILES:
        wide, narrow = CRATES / wide, CRATES / narrow
        inside = {file.relative_to(path) for path in (wide, narrow) for file in files(path)}
        if not inside:
            yield narrow, "no files"
        for file in sorted(inside):
            yield narrow / file, twin_of(wide / file) if (wide / file).is_file() else "no such twin"


def exported(file):
    """The functions that C has a name for, without comments, by these names."""
    text = re.sub(r"//.*", "", (CRATES / file).read_text())
    return {found[1]: found[0] for found in re.finditer(r'pub extern "C" fn (\w+)\(.*?^\}', text, re.MULTILINE | re.DOTALL)}


def differ():
    """What differs, and how many pairs there are."""
    wrong, count = [], 0
    for narrow, asked in pairs():
        count += 1
        if not narrow.is_file() or bare(asked) != bare(narrow.read_text()):
            wrong.append(str(narrow))
    for file in EXPORTS:
        functions = exported(file)
        narrow = {name for name in functions if twin(name) == name}
        count += len(narrow)
        if not narrow:
            wrong.append(f"{file}: nothing for C")
        asked = {twin(name): twin(text) for name, text in functions.items() if name not in narrow}
        wrong += [f"{file}: {name}" for name in sorted(narrow | set(asked)) if bare(asked.get(name, "")) != bare(functions.get(name, ""))]
    return wrong, count


def main():
    wrong, count = differ()
    print("\n".join(wrong) if wrong else f"{count} files and exports alike at both widths")
    sys.exit(1 if wrong else 0)


main()
