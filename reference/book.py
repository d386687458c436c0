"""A book of sessions: bytes and how the layout tells them, choices, and each call as it is made and written down.

The layout is that of docs/VECTORS.md. What sessions there are is chosen elsewhere: sessions.py has the
families that cover 01, randoms.py the random ones, wrongs.py the files that must be reported.
"""

from typing import NamedTuple

import keyak
import table
from table import CHECKED, PRODUCED


# ---------------------------------------------------------------------------
# Bytes and how the file tells them (docs/VECTORS.md).
# ---------------------------------------------------------------------------


class Given(NamedTuple):
    """Bytes, and the words that stand for them."""
    words: str
    content: bytes


# Byte x of table s is x + s, modulo 256.
SUMS = [bytes((x + s) % 256 for x in range(256)) for s in range(256)]


def expand(length, a, b):
    """Byte i is (A i + B + 29 floor(i/256)) modulo 256, row by row of 256; B throughout where A is 0."""
    if a == 0:
        return bytes([b]) * length
    row = bytes((a * i + b) % 256 for i in range(256))
    rows = (row.translate(SUMS[29 * k % 256]) for k in range(length // 256 + 1))
    return b"".join(rows)[:length]


def xor_at(content, place, mask):
    changed = bytearray(content)
    changed[place] ^= mask
    return bytes(changed)


def pattern(length, a, b):
    return Given(f"{length} {a} {b} 0 -", expand(length, a, b))


def hexed(content):
    return content.hex() or "-"


def whole(content):
    return Given(f"{len(content)} 0 0 0 {hexed(content)}", bytes(content))


def flipped(given, place, mask):
    """The same bytes with byte place xored with mask."""
    content = xor_at(given.content, place, mask)
    length, a, b, _, shown = given.words.split()
    if shown != "-":
        return whole(content)
    return Given(f"{length} {a} {b} {place} {content[place]:02x}", content)


def with_word(line, place, word):
    """The line with this word at place."""
    words = line.split(" ")
    words[place] = word
    return " ".join(words)


def seen(content, lent=None, like=None):
    """The words of what a call leaves: as it was lent, or zeros and then the bytes after them.

    like: a pattern that it may begin with; then that pattern, and the bytes past it.
    """
    content = bytes(content)
    if lent is not None and content == lent.content:
        return lent.words
    if like is not None and content.startswith(like.content):
        _, a, b, _, _ = like.words.split()
        past = content[len(like.content):]
        return f"{len(content)} {a} {b} {len(like.content) if past else 0} {hexed(past)}"
    rest = content.lstrip(b"\0")
    place = len(content) - len(rest) if rest else 0
    return f"{len(content)} 0 0 {place} {hexed(rest)}"


def record_words(instance, record):
    lanes = keyak.lanes_to_bytes(record.lanes, instance.W // 8)
    return f"{seen(lanes)} {record.phase} {record.text_start}"


# ---------------------------------------------------------------------------
# Choices.
# ---------------------------------------------------------------------------


class Dice:
    """A linear congruential generator of 64 bits; the upper half is used."""

    def __init__(self, seed):
        self.x = seed

    def below(self, n):
        self.x = (self.x * 6364136223846793005 + 1442695040888963407) % 2 ** 64
        return (self.x >> 32) * n >> 32

    def pick(self, choices):
        return choices[self.below(len(choices))]

    def shuffled(self, items):
        items = list(items)
        for i in range(len(items) - 1, 0, -1):
            j = self.below(i + 1)
            items[i], items[j] = items[j], items[i]
        return items

    def bytes(self, length):
        """Bytes by the file's rule, with random A and B."""
        return pattern(length, 1 + self.below(255), self.below(256))


# ---------------------------------------------------------------------------
# A session as it is called and written down.
# ---------------------------------------------------------------------------


def right_start_tag(instance, key, nonce, forget):
    tag = bytearray(16)
    table.start(instance, key.content, nonce.content, PRODUCED, tag, forget)
    return whole(tag)


def right_tag(instance, record, text, metadata, forget):
    """The tag that unwrapping this ciphertext asks for.

    After the last run the first 16 bytes of Piston 0's state are the tag.
    """
    motorist = table.motorist_of(instance, record)
    motorist.wrap(keyak.ByteStream(text.content), keyak.ByteStream(),
                  keyak.ByteStream(metadata.content), keyak.ByteStream(), True, forget)
    return whole(motorist.states()[0][:16])


class Session:
    def __init__(self, book, instance):
        self.book, self.instance = book, instance
        self.record = table.unstarted(instance)
        self.steps, self.history, self.slips = [], [], {}
        book.sessions.append(self)

    def note(self, words):
        self.steps.append((" ".join(str(word) for word in words), self.record))

    def answer_words(self, answer):
        return answer._replace(runs="-") if self.book.outside else answer

    def put(self, lanes, phase, text_start):
        """Replace the record; lanes None keeps those in hand."""
        kept = lanes is None
        self.record = table.Record(self.record.lanes if kept else tuple(lanes),
                                   phase, text_start)
        told = seen(b"" if kept else keyak.lanes_to_bytes(lanes, self.instance.W // 8))
        self.steps.append((f"hold {told} {phase} {text_start}", None))

    def start(self, key, nonce, use, forget, tag):
        buffer = bytearray(tag.content)
        self.record, answer = table.start(self.instance, key.content, nonce.content,
                                          use, buffer, bool(forget))
        self.note(["start", key.words, nonce.words, use, forget, tag.words,
                   *self.answer_words(answer), seen(buffer, tag)])
        self.book.remember(self, "start", answer, key=key, nonce=nonce, tag=tag,
                           use=use, forget=forget)
        return answer, bytes(buffer)

    def message(self, kind, text, metadata, forget, output, tag, like=None):
        """like: the pattern that the output is expected to begin with, which tells it shorter."""
        before = self.record
        lent, lent_tag = bytearray(output.content), bytearray(tag.content)
        call = {"wrap": table.wrap, "unwrap": table.unwrap}[kind]
        self.record, answer = call(self.instance, self.record, text.content,
                                   metadata.content, bool(forget), lent, lent_tag)
        self.note([kind, text.words, metadata.words, forget, output.words,
                   tag.words, *self.answer_words(answer), seen(lent, output, like),
                   seen(lent_tag, tag)])
        self.book.remember(self, kind, answer, text=text, metadata=metadata,
                           output=output, tag=tag, forget=forget, phase=before.phase,
                           text_start=before.text_start)
        return answer, bytes(lent[:len(text.content)]), bytes(lent_tag)

    def permute(self, rounds):
        lanes, done = table.permute(self.instance, self.record.lanes, rounds)
        self.record = self.record._replace(lanes=lanes)
        self.note(["permute", rounds, done])
        self.book.remember(self, "permute", table.Answer(0, 0, done), rounds=rounds)

    def lines(self, number):
        yield f"{self.instance.name.lower()} {number}"
        for i, (told, record) in enumerate(self.steps):
            if record is not None:
                told += " " + self.left(record)
            if i in self.slips:
                told = with_word(told, *self.slips[i])
            yield told

    def left(self, record):
        return "- - - - - - -" if self.book.outside else record_words(self.instance, record)


class Book:
    """All sessions, and for the head and the coverage what they contain."""

    def __init__(self, outside=False):
        """outside: what only this library knows, runs and records, is left untold."""
        self.outside = outside
        self.sessions, self.families, self.facts = [], [], set()
        self.answers, self.longest, self.talks = {}, {}, []

    def remember(self, session, kind, answer, **fields):
        name, number = session.instance.name, answer.number
        session.history.append((kind, number))
        self.answers[kind, number] = self.answers.get((kind, number), 0) + 1
        if "tag" in fields and fields["tag"].content == bytes(16):
            self.facts.add((name, kind, number, "tag", "zeros"))
        for field, value in fields.items():
            if isinstance(value, Given):
                fields[field] = value = len(value.content)
                self.longest[field] = max(value, self.longest.get(field, 0))
            self.facts.add((name, kind, number, field, value))
            if "text_start" in fields:
                self.facts.add((name, kind, number, fields["text_start"], field, value))
            for choice in ("use", "forget"):
                if choice in fields:
                    self.facts.add((name, kind, number, choice, fields[choice], field, value))
        if "metadata" in fields:
            self.facts.add((name, kind, number, "both", fields["text"], fields["metadata"]))

    def told(self):
        """The lines of all sessions, and the line of totals."""
        lines = [line for i, session in enumerate(self.sessions)
                 for line in session.lines(i + 1)]
        return [*lines, f"end {len(self.sessions)} {sum(self.answers.values())}"]


class Scribe:
    """Writes sessions of one instance into the book."""

    def __init__(self, book, instance, dice):
        self.book, self.instance, self.dice = book, instance, dice

    def fresh(self):
        """A session that is not started yet."""
        return Session(self.book, self.instance)

    def begin(self, use=PRODUCED, forget=0, key_length=16, nonce_length=24):
        """A session with a start that is done."""
        session = self.fresh()
        key, nonce = self.dice.bytes(key_length), self.dice.bytes(nonce_length)
        session.start(key, nonce, use, forget, self.start_tag(use, key, nonce, forget))
        return session

    def start_tag(self, use, key, nonce, forget):
        if use == CHECKED:
            return right_start_tag(self.instance, key, nonce, bool(forget))
        return self.dice.bytes(16)

    def lent(self, length):
        """An output buffer with room for length bytes and a few more."""
        return self.dice.bytes(length + self.dice.below(8))

    def send(self, session, kind, text_length, metadata_length, forget):
        """A message that is done."""
        text, metadata = self.dice.bytes(text_length), self.dice.bytes(metadata_length)
        if kind == "unwrap":
            tag = right_tag(self.instance, session.record, text, metadata, bool(forget))
        else:
            tag = self.dice.bytes(16)
        return session.message(kind, text, metadata, forget, self.lent(text_length), tag)

    def cryptogram(self, session, text_length, metadata_length, forget):
        """Ciphertext, metadata and the right tag for the record in hand."""
        text, metadata = self.dice.bytes(text_length), self.dice.bytes(metadata_length)
        tag = right_tag(self.instance, session.record, text, metadata, bool(forget))
        return text, metadata, tag
