"""Files of data: written into a folder, or made again and compared with what stands there."""

import os


def first_difference(a, b):
    """Number of the first line in which two texts differ, from 1."""
    one, other = a.split("\n"), b.split("\n")
    for i, (x, y) in enumerate(zip(one, other)):
        if x != y:
            return i + 1
    return min(len(one), len(other)) + 1


def check(files, folder):
    differ = 0
    for name, made in files:
        with open(os.path.join(folder, name), encoding="ascii", errors="replace", newline="") as file:
            there = file.read()
        if there == made:
            print(f"{name}: the same, {len(made)} characters")
        else:
            print(f"{name}: differs from line {first_difference(there, made)} on")
            differ = 1
    return differ


def write(files, folder):
    """All are made before the first is written."""
    for name, made in list(files):
        with open(os.path.join(folder, name), "w", encoding="ascii", newline="") as file:
            file.write(made)
        print(f"{name}: {len(made)} characters")
    return 0


def main(files, usage, arguments):
    """FOLDER, or --check FOLDER; files: makes the names and texts."""
    if len(arguments) == 2 and arguments[0] == "--check":
        return check(files(), arguments[1])
    if len(arguments) == 1 and not arguments[0].startswith("-"):
        return write(files(), arguments[0])
    print(usage)
    return 2
