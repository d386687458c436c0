"""The files of which the program must report something: one wrong byte, the last of many, each word wrong
once, and lines outside the layout.

Each is made right first; then one word of a line is changed. So the program's comparing is seen to fail
in every word that it compares.
"""

import keyak
import table
from book import Book, Dice, Scribe, Session, pattern, whole, with_word
from table import CHECKED, NO_TAG, PRODUCED

# Where the last word of OUTPUTAFTER and of TAGAFTER stands in a wrap: before them are its
# name, two runs of bytes, FORGET, two more and the three numbers of the answer.
OUTPUT_HEX = 1 + 5 + 5 + 1 + 5 + 5 + 3 + 5 - 1
TAG_HEX = OUTPUT_HEX + 5


def other_digit(word, place):
    """The word with another digit at place."""
    return word[:place] + ("1" if word[place] == "0" else "0") + word[place + 1:]


def spoilt(line, place):
    """The line with the last digit of word number place changed."""
    words = line.split(" ")
    words[place] = other_digit(words[place], len(words[place]) - 1)
    return " ".join(words)


def wrong_file(sample):
    """The sample with the last digit of the first tag that a wrap leaves changed."""
    lines = sample.split("\n")
    at = next(i for i, line in enumerate(lines) if line.startswith("wrap"))
    lines[at] = spoilt(lines[at], TAG_HEX)
    return "\n".join(lines)


LATE = """\
# For each instance a wrap of 65,535 bytes, told in full: only its last ciphertext byte is wrong.
# Made by reference/sessions.py from seed {seed}.
#
"""


def late_file(seed):
    """Two long wraps, each with the last digit of its output changed."""
    book, dice = Book(), Dice(seed)
    for instance in (keyak.LAKE, keyak.RIVER):
        session = Scribe(book, instance, dice).begin()
        session.message("wrap", dice.bytes(65535), dice.bytes(17), 0, dice.bytes(65535),
                        dice.bytes(16))
    lines = [spoilt(line, OUTPUT_HEX) if line.startswith("wrap") else line
             for line in book.told()]
    return LATE.format(seed=seed) + "\n".join(lines) + "\n"


# ---------------------------------------------------------------------------
# One wrong word in each line.
# ---------------------------------------------------------------------------

WORDS = """\
# Each call here has one wrong word and all else right, and six lines of totals have: every one must be reported.
# Made by reference/sessions.py from seed {seed}.
#
"""

# Where the words of the result begin in a line, and what they are: NUMBER WRITTEN RUNS, or DONE;
# OUTPUTAFTER and TAGAFTER; LANES, PHASE and TEXTSTART.
RESULTS = {"start": (1 + 5 + 5 + 1 + 1 + 5, "nnnbbnn"),
           "wrap": (1 + 5 + 5 + 1 + 5 + 5, "nnnbbbnn"),
           "unwrap": (1 + 5 + 5 + 1 + 5 + 5, "nnnbbbnn"),
           "permute": (1 + 1, "nbnn")}


def wrong_numbers(word):
    """Too large, too small where there is less, and too large by what a byte leaves out."""
    value = int(word)
    yield str(value + 1)
    yield str(value + 256)
    if value:
        yield str(value - 1)


def wrong_bytes(words):
    """Each of the five words changed, where other bytes come of it: which, and into what."""
    length, a, b, place, shown = words
    yield 0, str(int(length) + 1)
    if shown == "-":
        yield 0, str(int(length) - 1)
        yield 1, str((int(a) + 1) % 256)
        yield 2, str((int(b) + 1) % 256)
        yield 4, f"{(int(b) + 128) % 256:02x}"
        return
    if int(place):
        yield 3, str(int(place) - 1)
    yield 4, other_digit(shown, 0)
    yield 4, other_digit(shown, len(shown) - 1)


def wrong_words(line):
    """Every way in which one word of the line's result is made wrong: its place, and the word."""
    words = line.split(" ")
    at, kinds = RESULTS[words[0]]
    for kind in kinds:
        if kind == "n":
            for word in wrong_numbers(words[at]):
                yield at, word
        else:
            for place, word in wrong_bytes(words[at:at + 5]):
                yield at + place, word
        at += 1 if kind == "n" else 5


class Slips:
    """Makes a call again and again, each time told with another word wrong."""

    def __init__(self, scribe):
        self.scribe, self.dice, self.session = scribe, scribe.dice, scribe.fresh()

    def each(self, call, *arguments):
        """The call once for each way in which a word of its result is wrong."""
        slip, slips = 0, 1
        while slip < slips:
            call(*arguments)
            ways = list(wrong_words(self.last()))
            slips = len(ways)
            self.tell(*ways[slip])
            slip += 1

    def last(self):
        return list(self.session.lines(1))[-1]

    def tell(self, place, word):
        """The last call, told with this word in its place."""
        self.session.slips[len(self.session.steps) - 1] = (place, word)

    def start(self, key, use):
        self.session.start(self.dice.bytes(key), self.dice.bytes(20), use, 0,
                           self.dice.bytes(16))

    def done(self, kind):
        self.scribe.send(self.session, kind, 20, 10, 1)

    def refused(self, kind, output, tag):
        self.session.message(kind, self.dice.bytes(9), self.dice.bytes(5), 0,
                             self.dice.bytes(output), self.dice.bytes(tag))

    def failed(self):
        """An unwrap of a riding record of zeros, with a wrong tag."""
        self.session.put([0] * 25, table.RIDING, 0)
        self.refused("unwrap", 12, 16)

    def lane(self, j):
        """One wrong byte in lane j, told by the permutation's call that does nothing."""
        self.session.permute(0)
        place = self.scribe.instance.W // 8 * j + j % 4
        at = RESULTS["permute"][0] + 1 + 4
        shown = self.last().split(" ")[at]
        self.tell(at, other_digit(shown, 2 * place))


def slips(scribe):
    """Each kind of call, done and refused, with each word of its result wrong once."""
    one = Slips(scribe)
    one.each(one.start, 15, PRODUCED)
    one.each(one.start, 16, CHECKED)
    one.each(one.failed)
    one.each(one.start, 16, PRODUCED)
    for kind in ("wrap", "unwrap"):
        one.each(one.done, kind)
        one.each(one.refused, kind, 8, 16)
    one.each(one.session.permute, 12)
    one.each(one.session.permute, 99)
    for j in range(25):
        one.lane(j)


def words_file(seed):
    """Both instances, and the line of totals, wrong in either number in each way and then right."""
    book, dice = Book(), Dice(seed)
    for instance in (keyak.LAKE, keyak.RIVER):
        slips(Scribe(book, instance, dice))
    *lines, end = book.told()
    ends = [with_word(end, place, word) for place in (1, 2)
            for word in wrong_numbers(end.split(" ")[place])]
    return WORDS.format(seed=seed) + "\n".join([*lines, *ends, end]) + "\n"


# ---------------------------------------------------------------------------
# Lines outside the layout.
# ---------------------------------------------------------------------------

UNSOUND = """\
# One start, and then the same with one word that is outside the layout, and lines that are no call
# and outside it too: of all lines only the session's, the first start and the line of totals agree, and
# with that the file does not end.
# Made by reference/sessions.py from seed {seed}.
#
"""


def unsound_words(nonce):
    """Words outside the layout, and their places in a start.

    A reader that only cut what is too large, and took a wrong digit for 0, would read
    each of them as the right word.
    """
    a, b, place, shown, nonce_shown, forget, tag_length = 2, 3, 4, 5, 10, 12, 13
    return ((a, "256"), (b, "256"), (place, "17"), (place, "x"), (place, "-"), (shown, ""),
            (nonce_shown, nonce + "0"), (nonce_shown, nonce + "00"),
            (nonce_shown, "g" + nonce[1:]), (nonce_shown, "A" + nonce[1:]),
            (forget, "2"), (forget, "-"), (tag_length, "33"), (tag_length, "3x"))


# Lines that are no call: a first letter that none has, records with lanes of another instance, a phase
# that there is not, a number that is none, and words left over.
NO_CALLS = ("x", "Start 16", "hold 100 0 0 0 - 1 0", "hold 199 0 0 0 - 1 0", "hold 0 0 0 0 - 3 0",
            "hold 0 0 0 0 - 1 x", "hold 0 0 0 0 - 1 0 0", "hold", "end x 17", "end 1")


def unsound_file(seed):
    """A start with nothing asked of its tag buffer, right once and then with each wrong word."""
    book = Book()
    session = Session(book, keyak.LAKE)
    nonce = bytes(range(16))
    session.start(pattern(16, 255, 255), whole(nonce), NO_TAG, 1, pattern(32, 3, 5))
    opened, right, _ = book.told()
    lines = [opened, right]
    for place, word in unsound_words(nonce.hex()):
        words = right.split(" ")
        words[place] = word
        lines.append(" ".join(words))
    lines.append(right + " 0")
    end = f"end 1 {len(lines) - 1}"
    lines += [*NO_CALLS, end + " 0", end, "# A note after the line of totals."]
    return UNSOUND.format(seed=seed) + "\n".join(lines) + "\n"
