"""The README shows what there is: the sample year's output as the gate compares it, the example as it stands in crates/one_month, and the wrong
lines, the line of two names and the month that cannot be read as year_cases prints them. python3 tests/readme.py leaves with 1 and says what differs."""
import pathlib
import re
import sys

BLOCKS = re.findall(r"^```\w*\n(.*?)^```$", pathlib.Path("README.md").read_text(), re.M | re.S)

# how the blocks begin whose lines year_cases prints
BEGINS = ("line ", "One borehole, ", "KW-4 2026-02: ")


def text(path):
    return pathlib.Path(path).read_text()


def main():
    example = text("crates/one_month/src/lib.rt")
    wanted = {
        "what the sample year prints": text("crates/year/stdout"),
        "the example of crates/one_month": example[example.index("pub fn "):],
    }
    missing = [what for what, block in wanted.items() if block not in BLOCKS]
    told = text("crates/year_cases/stdout").splitlines()
    for begins in BEGINS:
        shown = next((block for block in BLOCKS if block.startswith(begins)), f"no block that begins with '{begins}'\n")
        missing += [line for line in shown.splitlines() if line not in told]
    for what in missing:
        print(f"README.md does not show as it is: {what}")
    if not missing:
        print(f"{len(wanted) + len(BEGINS)} blocks as they are")
    return 1 if missing else 0


sys.exit(main())
