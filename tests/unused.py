"""No file brings in a name that it does not use: python3 tests/unused.py leaves with 1 and names file and name.
python3 tests/unused.py --drop takes them out."""
import pathlib
import re
import sys

USE = re.compile(r"^(?P<head>(?:ghost )?use [^{;\n]*\.\{)(?P<names>[^}]*)(?P<tail>\};?)$", re.M)
LETTER = r"[\w\-'?\u2080-\u2089]"


def used(name, text):
    """Whether a name, or every part of an operator such as `◌≡◌`, stands in the text, other than as a field."""
    parts = [p for p in name.split(" as ")[-1].strip().split("◌") if p]
    return all(re.search(rf"(?<!{LETTER})(?<!\.){re.escape(p)}(?!{LETTER})", text) for p in parts)


def unused(file):
    text = file.read_text()
    comment = "--" if file.suffix == ".antt" else "//"
    body = re.sub(rf"{comment}.*", "", USE.sub("", text))
    found = []
    for line in USE.finditer(text):
        for name in re.split(r",\s*", line["names"]):
            if not used(name, body):
                found.append((line, name))
    return text, found


def without(text, found):
    for head, names, tail in {(l["head"], l["names"], l["tail"]) for l, _ in found}:
        gone = {n for l, n in found if (l["head"], l["names"]) == (head, names)}
        kept = [n for n in re.split(r",\s*", names) if n not in gone]
        text = text.replace(head + names + tail + "\n", head + ", ".join(kept) + tail + "\n" if kept else "")
    return text


def main():
    count = 0
    for file in sorted(f for pattern in ("*.antt", "*.rt") for f in pathlib.Path("crates").rglob(pattern) if "out" not in f.parts):
        text, found = unused(file)
        count += len(found)
        if found and "--drop" in sys.argv:
            file.write_text(without(text, found))
        for _, name in found:
            print(f"{file}: {name}")
    print(f"{count} names brought in and not used")
    sys.exit(1 if count else 0)


main()
