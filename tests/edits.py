"""Every must-fail edit can be made: each `old:` text stands just once in its file, as the edit's lines before it left that, and the edit changes something.
rt says so too, but only once everything is proved, and then passes all the same. python3 tests/edits.py leaves with 1 and names the edit, the file and the text."""
import pathlib
import sys


def pairs(edit):
    """The file, the old and the new text of each replacement, as rt reads them."""
    file = old = ""
    for line in edit.read_text().splitlines():
        if line.startswith("file: "):
            file = line.removeprefix("file: ").strip()
        elif line.startswith("old: "):
            old = line.removeprefix("old: ")
        elif line.startswith("new:"):
            yield file, old, line.removeprefix("new:").removeprefix(" ")


def edited(edit, crate):
    """The texts of the files of a crate's folder that the edit changes, by their names there; or what is wrong with it."""
    texts, was = {}, {}
    for file, old, new in pairs(edit):
        path = crate / file
        if not file.startswith(("src/", "specs/", "proofs/")) or ".." in file or not path.is_file():
            return {}, f"no such file: {file}"
        if file not in texts:
            texts[file] = was[file] = path.read_text()
        if not old or texts[file].count(old) != 1:
            return {}, f"{texts[file].count(old) if old else 0} times in {file}: {old}"
        texts[file] = texts[file].replace(old, new)
    return (texts, "") if texts != was else ({}, "it replaces nothing")


def main():
    edits = sorted(pathlib.Path("crates").glob("*/must-fail/*.edit"))
    found = [f"{edit}: {words}" for edit in edits if (words := edited(edit, edit.parent.parent)[1])]
    print("\n".join(found) if found else f"{len(edits)} edits can be made")
    sys.exit(1 if found else 0)


if __name__ == "__main__":
    main()
