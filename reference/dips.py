"""Writes the readings of months that the library is run against.

    python3 dips.py FOLDER           write the files
    python3 dips.py --check FOLDER   make them again and compare; 1 if one differs

Two files, in the layout of docs/VECTORS.md: readings.txt with the families below, each month read and written, and
wrong_readings.txt, of which every line must be reported. What they must contain is looked at before anything is
written. The same bytes come out each time: all choices follow from SEED.
"""

import sys

import dip
import stored
from book import Dice, Given, hexed, pattern, with_word
from dip import MISSING
from wrongs import other_digit, wrong_bytes, wrong_numbers

SEED = 20250718

KINDS = ("read", "write")
NUMBERS = (0, 6, 13, 15, 16)

# Both sides of both limits, and the ends of 32 bits.
LIMITS = (-2000001, -2000000, 2000000, 2000001, 2147483647, -2147483647, MISSING)
BAD = (-2000001, 2000001, 2147483647, -2147483647)

# A number out of range whose four bytes are all 127.
OUT = 0x7f7f7f7f

# Counts that no run has; four times the second and the third is 4 in 32 bits, the last is the most that a line tells.
HUGE = (2 ** 30, 2 ** 30 + 1, 2 ** 32 + 1, 99999999999999)

# The program's room for bytes, and for the bytes of a run.
ROOM = 256


def filled(content, fill):
    """Bytes told as one byte throughout, and what is otherwise from its first place to its last."""
    other = [i for i, byte in enumerate(content) if byte != fill]
    first, end = (other[0], other[-1] + 1) if other else (0, 0)
    return Given(f"{len(content)} 0 {fill} {first} {hexed(content[first:end])}", bytes(content))


def tell(content):
    """The shortest of three ways: over the bytes of reading 0, of reading -1, or of one out of range."""
    return min((filled(content, fill) for fill in (0, 255, 127)), key=lambda given: len(given.words))


def after(content, lent):
    """The words of what a call leaves: as it was lent, or told."""
    return lent.words if bytes(content) == lent.content else tell(content).words


class Months:
    """Each call as it is made and written down, and what was answered. A run is told by the bytes of its numbers."""

    def __init__(self, dice):
        self.dice = dice
        self.lines, self.families, self.answers, self.facts = [], [], {}, set()

    def note(self, kind, count, given, lent, answer, left):
        self.lines.append(f"{kind} {count} {given.words} {lent.words} "
                          f"{answer.number} {answer.index} {left}")
        self.answers[kind, answer.number] = self.answers.get((kind, answer.number), 0) + 1
        self.facts |= {(kind, answer.number), (kind, *answer), (kind, *answer, count)}

    def read(self, count, content, run):
        lent = dip.numbers_of(run.content)
        answer = dip.read(count, content.content, lent)
        self.note("read", count, content, run, answer, after(dip.bytes_of(lent), run))

    def write(self, count, run, content):
        lent = bytearray(content.content)
        answer = dip.write(count, dip.numbers_of(run.content), lent)
        self.note("write", count, run, content, answer, after(lent, content))

    def both(self, count, numbers, room=None, size=None):
        """Both calls, on a run of so many numbers and on so many bytes; without them, on all that there are."""
        room = len(numbers) if room is None else room
        size = 4 * len(numbers) if size is None else size
        content = dip.bytes_of(numbers)
        self.read(count, tell(content[:size]), self.dice.bytes(4 * room))
        self.write(count, tell(content[:4 * room]), self.dice.bytes(size))

    def told(self):
        """All lines, and the line of totals."""
        return [*self.lines, f"end {len(self.lines)}"]


# ---------------------------------------------------------------------------
# What is covered.
# ---------------------------------------------------------------------------


def good(dice):
    return MISSING if dice.below(8) == 0 else dice.below(4000001) - 2000000


def bad(dice):
    """Out of range: just so, or anywhere."""
    if dice.below(2):
        return dice.pick(BAD)
    size = 2000001 + dice.below(2 ** 31 - 2000001)
    return dice.pick((size, -size))


def goods(dice, count):
    return [good(dice) for _ in range(count)]


def bads(dice, count):
    return [bad(dice) for _ in range(count)]


def changed(numbers, places):
    """The numbers with others at some places."""
    return [places.get(i, number) for i, number in enumerate(numbers)]


def good_months(months):
    """Every count from 0 to 31 with all readings good, in a run of as many numbers and in a longer one."""
    for count in range(32):
        for more in (0, 1 + months.dice.below(5)):
            months.both(count, goods(months.dice, count + more), size=4 * count)


def one_bad(months):
    """Every count from 1 to 31, and one reading out of range at each place."""
    for count in range(1, 32):
        for place in range(count):
            months.both(count, changed([-(place % 2)] * count, {place: BAD[(count + place) % 4]}))


def two_bad(months):
    """Two readings out of range: the first and the last, two neighbours, and any two."""
    for count in range(2, 32):
        dice = months.dice
        one, other = dice.below(count - 1), dice.below(count - 1)
        for first, last in ((0, count - 1), (one, one + 1), (other, count - 1 - dice.below(count - 1 - other))):
            months.both(count, changed(goods(dice, count), {first: bad(dice), last: bad(dice)}))


def all_bad(months):
    """Every reading out of range."""
    for count in range(1, 32):
        months.both(count, bads(months.dice, count))


def missing_beside(months):
    """A missing reading before, at and behind one out of range, alone and with a second; and all others missing."""
    for count in (3, 12, 31):
        for place in (1, count // 2, count - 2):
            for at in (place - 1, place, place + 1):
                one = {place: bad(months.dice), at: MISSING}
                months.both(count, changed([0] * count, one))
                months.both(count, changed([-1] * count, {count - 1: bad(months.dice), **one}))
            months.both(count, changed([MISSING] * count, {place: bad(months.dice)}))


def limits(months):
    """Both sides of both limits and the ends of 32 bits, alone, in the middle, first and last."""
    for number in LIMITS:
        for count, place in ((1, 0), (3, 1), (31, 0), (31, 30)):
            months.both(count, changed(goods(months.dice, count), {place: number}))


def other_refusals(months):
    """Readings out of range beside the refusals for run, count and bytes, alone and together."""
    cases = [(count, count - 1, 4 * count) for count in (1, 2, 16, 31, 32, 33)]
    cases += [(31, 30, size) for size in (0, 120, 123, 125, 128)]
    cases += [(33, 0, 132), (33, 32, 0), (40, 39, 160)]
    cases += [(count, room, 4 * room) for count in HUGE for room in (0, 1, 31, 40)]
    cases += [(count, room, 4 * count) for count in (32, 33, 40) for room in (count, 41)]
    cases += [(32, room, size) for room in (32, 41) for size in (0, 124, 127, 129, 132)]
    cases += [(count, count + more, 4 * count + other) for count in (1, 2, 16, 30, 31)
              for more in (0, 3) for other in (-4, -1, 1, 4)]
    cases += [(0, room, size) for room in (0, 2) for size in (1, 4)] + [(31, 31, 0), (31, 40, 164)]
    for count, room, size in cases:
        place = months.dice.below(max(1, min(count, room)))
        months.both(count, changed([0] * 41, {place: bad(months.dice)}), room, size)
        months.both(count, [OUT] * 41, room, size)


def past_the_count(months):
    """Numbers out of range past the count in a longer run, which are not looked at and stay."""
    for count in range(32):
        more = bads(months.dice, 1 + months.dice.below(4))
        readings = goods(months.dice, count)
        months.read(count, tell(dip.bytes_of(readings)), tell(dip.bytes_of(bads(months.dice, count) + more)))
        months.write(count, tell(dip.bytes_of(readings + more)), months.dice.bytes(4 * count))


def bad_in_longer_runs(months):
    """A reading out of range in a run longer than the count, with others past the count."""
    for count in range(1, 32):
        place = months.dice.below(count)
        numbers = changed(goods(months.dice, count), {place: bad(months.dice)})
        months.both(count, numbers + bads(months.dice, 3), size=4 * count)


def random_months(months):
    """Random counts, readings, runs and bytes."""
    dice = months.dice
    for _ in range(125):
        count = dice.below(34)
        room = max(0, count + dice.pick((-1, 0, 0, 0, 0, 1, 2, 7)))
        size = max(0, 4 * count + dice.pick((-1, 0, 0, 0, 0, 0, 0, 4)))
        seldom = 1 + dice.below(64)
        numbers = [good(dice) if dice.below(seldom) else bad(dice) for _ in range(42)]
        months.both(count, numbers, room, size)


FAMILIES = (good_months, one_bad, two_bad, all_bad, missing_beside, limits, other_refusals, past_the_count,
            bad_in_longer_runs, random_months)


def required():
    """The facts that there must be: each number, each index, each count done, and each place at each count."""
    for kind in KINDS:
        for number in NUMBERS:
            yield kind, number
        for index in range(31):
            yield kind, 16, index
        for count in range(32):
            yield kind, 0, 0, count
            for index in range(count):
                yield kind, 16, index, count


def write_months():
    months = Months(Dice(SEED))
    for family in FAMILIES:
        before = len(months.lines)
        family(months)
        months.families.append((family, len(months.lines) - before))
    missing = [fact for fact in required() if fact not in months.facts]
    if missing:
        raise AssertionError(f"not covered: {missing}")
    return months


HEAD = """\
# Readings of a month, read and written, with what each call must answer and leave.
# Made by reference/dips.py from seed {seed}; the layout is described in docs/VECTORS.md.
#
"""


def count_notes(months):
    """The counts for the head of the file."""
    yield f"# Calls: {len(months.lines)}, half of them read. By kind:"
    for family, count in months.families:
        yield f"#   {count} {family.__name__}: {family.__doc__}"
    yield "# Calls by answer:"
    for kind in KINDS:
        told = ", ".join(f"{number}: {count}" for (which, number), count
                         in sorted(months.answers.items()) if which == kind)
        yield f"#   {kind} {told}"
    yield "#"


def whole_file():
    months = write_months()
    return HEAD.format(seed=SEED) + "\n".join([*count_notes(months), *months.told()]) + "\n"


# ---------------------------------------------------------------------------
# One wrong word in each line.
# ---------------------------------------------------------------------------

WRONG = """\
# Each line here is wrong in one thing and right in all else, but for the last line of totals, with which the file does
# not end: the program must report {count} differences, and no call agrees.
# Made by reference/dips.py from seed {seed}; the layout is described in docs/VECTORS.md.
#
"""

# Where words stand in a line: COUNT, what is given and what is lent, NUMBER, INDEX, and what is left.
COUNT, GIVEN, LENT, NUMBER, INDEX, LEFT = 1, 2, 7, 12, 13, 14


def wrong_results(line):
    """Every way in which one word of the result is made wrong: its place, and the word."""
    words = line.split(" ")
    for place in (NUMBER, INDEX):
        for word in wrong_numbers(words[place]):
            yield place, word
    if int(words[INDEX]) > 1:
        yield INDEX, "0"
    for place, word in wrong_bytes(words[LEFT:]):
        yield LEFT + place, word


def wrong_places(line):
    """Each byte of what is left, which is told in full, made wrong in turn."""
    shown = line.split(" ")[-1]
    for i in range(len(shown) // 2):
        yield LEFT + 4, other_digit(shown, 2 * i + i % 2)


def wrong_calls(months):
    """Each answer of each call with each word of the result wrong once, and where it is done each byte."""
    months.both(3, [2000000, -2000000, MISSING, 5, -5], size=12)
    done = list(months.lines)
    for count, room, size in ((3, 2, 12), (32, 32, 128), (3, 3, 13), (3, 5, 12)):
        months.both(count, bads(months.dice, 32), room, size)
    months.both(12, changed([0] * 12, {5: 2000001, 7: 2000001}))
    months.both(31, changed([0] * 31, {30: -2000001}))
    yield from (with_word(line, *slip) for line in months.lines for slip in wrong_results(line))
    yield from (with_word(line, *slip) for line in done for slip in wrong_places(line))


def unsound_words(run, size):
    """Words outside the layout, and their places; run: where those of the run begin.

    A reader that only cut what is too large, or what is left over of a number, would read most as the right word.
    """
    if size == ROOM:
        yield from ((GIVEN, "257"), (LENT, "257"), (run, "260"))
        return
    yield from ((COUNT, "100000000000000"), (COUNT, "x"), (COUNT, "-"), (COUNT, ""), (NUMBER, "-"), (INDEX, "-"))
    yield from ((run, str(size + more)) for more in (1, 2, 3))
    for at in (GIVEN, LENT):
        yield from ((at + 1, "256"), (at + 2, "256"), (at + 3, str(size + 1)), (at + 4, "x"))


def unsound_runs(months):
    """A run told longer afterwards, and, before and after alike, one that is no whole number of numbers.

    The bytes that make it longer are those with which the program marks what lies behind it: only LENGTH tells.
    """
    lent = pattern(20, 255, 165)
    months.read(HUGE[-1], lent, lent)
    line = months.lines[-1]
    yield from (with_word(line, LEFT, length) for length in ("21", "22"))
    yield from (with_word(with_word(line, LENT, length), LEFT, length) for length in ("21", "22", "23"))


def unsound_calls(months):
    """A refused call with each word outside the layout, a word too many or too few, nothing told, and no call."""
    for size in (20, ROOM):
        lent, before = pattern(size, 255, 255), len(months.lines)
        months.read(HUGE[-1], lent, lent)
        months.write(HUGE[-1], lent, lent)
        for line, run in zip(months.lines[before:], (LENT, GIVEN)):
            yield from (with_word(line, *slip) for slip in unsound_words(run, size))
            yield from (line + " 0", line.rsplit(" ", 1)[0], line.rsplit(" ", 5)[0] + " - - - - -", line.capitalize())


def wrong_file():
    """Wrong calls and wrong lines of totals, the right one, and a note, so that the file does not end with it."""
    months = Months(Dice(SEED))
    lines = [*wrong_calls(months), *unsound_calls(months), *unsound_runs(months)]
    end = f"end {sum(line.split(' ')[0] in KINDS for line in lines)}"
    lines += [with_word(end, 1, word) for word in (*wrong_numbers(end[4:]), "x", "")] + ["end", end + " 0"]
    head = WRONG.format(count=len(lines) + 1, seed=SEED)
    return head + "\n".join([*lines, end, "# A note behind the line of totals."]) + "\n"


def files():
    yield "readings.txt", whole_file()
    yield "wrong_readings.txt", wrong_file()


if __name__ == "__main__":
    sys.exit(stored.main(files, __doc__, sys.argv[1:]))
