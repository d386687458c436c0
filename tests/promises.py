"""docs/PROMISES.md names only what there is: files, theorems, contracts and must-fail edits; it names every edit; and it prints the contract of every
public call, methods among them, as it stands in the code, where none has a `requires`; and `dip` passes on just the dip's calls printed there, their types
and the public constants. python3 tests/promises.py leaves with 1 and says what is missing."""
import pathlib
import re
import sys

CRATES = pathlib.Path("crates")
PLACES = "(specs|proofs|src|must-fail)"


def texts(*patterns):
    return "\n".join(f.read_text() for p in patterns for f in sorted(CRATES.glob(p)))


def cells(page):
    for line in page.splitlines():
        if line.startswith("|"):
            yield from line.strip("|").split(" | ")


def edit_named(word, crate):
    """The edit that a word of a cell names, where `crate` is the one named before it there."""
    found = re.fullmatch(r"(\w+)/must-fail/([\w-]+)", word)
    if found:
        return found.groups()
    return (crate, word) if crate and (CRATES / crate / "must-fail" / f"{word}.edit").exists() else None


PUBLIC = ["keyak", "permutation", "dip_header", "dip_readings"]
INNER = {"permutation::permute12"}
FUNCTION = re.compile(r"^(?P<block>impl\b[^{;]*?(?P<type>\w+)(?:<[^{;]*>)?\s*\{)|^(?P<indent> *)pub fn (?P<name>\w+)(?:<[^(]*>)?\(.*?^(?P=indent)\{", re.M | re.S)


def used(item):
    """What an item passes on: of `pub use a::{b, c}` a::b and a::c; of anything else the item itself."""
    found = re.fullmatch(r"pub use (\w+)::(?:(\w+)|\{([\w\s,]+)\})", item)
    return {f"{found[1]}::{name.strip()}" for name in (found[2] or found[3]).split(",") if name.strip()} if found else {item}


def offered(crate):
    """The functions that a crate offers, methods with the name of their type before their own: those of its lib.rt, and of a module what lib.rt passes on by
    `pub use`, of a type its methods, or all by `pub mod`."""
    lib = texts(f"{crate}/src/lib.rt")
    passed = {name for item in re.findall(r"^pub use [^;]*(?=;)", lib, re.M) for name in used(item)}
    for file in sorted((CRATES / crate / "src").rglob("*.rt")):
        kind = ""
        for found in FUNCTION.finditer(file.read_text()):
            if found["block"]:
                kind = found["type"]
                continue
            name = f"{kind}::{found['name']}" if found["indent"] else found["name"]
            if file.stem == "lib" or f"pub mod {file.stem};" in lib or f"{file.stem}::{name.split('::')[0]}" in passed:
                yield name, found[0]


def contracts():
    """Of every function that a public crate offers: its name, and what stands between its arguments and its body."""
    for crate in PUBLIC:
        if "::*" in texts(f"{crate}/src/**/*.rt"):
            sys.exit(f"{crate}: what `::*` passes on is not looked at")
        for name, text in offered(crate):
            yield f"{crate}::{name}", text


def unprinted(page):
    """The public calls whose contract the page does not print, or which ask something of their caller."""
    for call, text in contracts():
        row = next((line for line in page.splitlines() if line.startswith(f"| `{call}` |")), "")
        printed = re.search(r"\| `[^`]+` \| `([^`]+)` \|", row)
        ends = printed and text.endswith(f"ensures {{ {printed[1]} }}\n" + text.rsplit("\n", 1)[1])
        if call not in INNER and not (ends and text.count("ensures") == 1 and "requires" not in text):
            yield f"contract not printed as it stands: {call}"


def passed_on(page):
    """What `dip` offers beside the dip's calls that the page prints, the types in their signatures and of their methods, and the constants beside them; and what
    of these it leaves out."""
    signatures = {call: text.split("ensures")[0] for call, text in contracts() if f"\n| `{call}` |" in page and call.startswith("dip_")}
    needed = {"::".join(call.split("::")[:2]) for call in signatures}
    for crate in {call.split("::")[0] for call in signatures}:
        code = texts(f"{crate}/src/**/*.rt")
        types = re.findall(r"^pub (?:struct|enum) (\w+)", code, re.M)
        needed |= {f"{crate}::{name}" for name in types if re.search(rf"\b{name}\b", "".join(signatures.values()))}
        needed |= {f"{crate}::{name}" for name in re.findall(r"^pub const (\w+)", code, re.M)}
    text = re.sub(r"//.*", "", texts("dip/src/**/*.rt")).replace("#![tactic(auto)]", "")
    offered = {name for item in text.split(";") if item.strip() for name in used(item.strip())}
    yield from (f"dip offers what is no printed call of the dip: {more}" for more in sorted(offered - needed))
    yield from (f"dip does not pass on: {less}" for less in sorted(needed - offered))


def main():
    page = pathlib.Path("docs/PROMISES.md").read_text()
    laws, code = texts("*/specs/**/*.antt", "*/proofs/**/*.antt"), re.sub(r"//.*", "", texts("*/src/**/*.rt"))  # a name in a comment is none
    missing, edits, seen = [], set(), 0
    for cell in cells(page):
        crate = None
        for word in re.findall(r"`([^`]+)`", cell):
            seen += 1
            edit = edit_named(word, crate)
            if edit:
                crate = edit[0]
                edits.add(edit)
                there = (CRATES / crate / "must-fail" / f"{edit[1]}.edit").exists()
            elif word.startswith("tests/"):
                there = pathlib.Path(word).exists()
            elif re.fullmatch(rf"\w+/{PLACES}(/[\w/.-]+)?", word):
                there = (CRATES / word).exists()
            elif word.endswith(".antt"):
                there = any(CRATES.glob(f"*/proofs/{word}")) or any(CRATES.glob(f"*/specs/{word}"))
            elif "≡" in word or " " in word:
                there = word in code or word in laws
            elif "::" in word:
                there = re.search(rf"\b(fn|struct|enum|trait|type) {word.split('::')[-1]}\b", code)
            else:
                there = re.search(rf"(^|\s){re.escape(word)} :|^ *(pub )?record {re.escape(word)} ", laws, re.M) or re.search(rf"\b{re.escape(word)}\b", code)
            if not there:
                missing.append(f"no such thing: {word}")
    missing += [*unprinted(page), *passed_on(page)]
    for file in sorted(CRATES.glob("*/must-fail/*.edit")):
        if (file.parts[1], file.stem) not in edits:
            missing.append(f"not named: {file}")
    print("\n".join(missing) if missing else f"{seen} names and {len(edits)} edits, all there")
    sys.exit(1 if missing else 0)


main()
