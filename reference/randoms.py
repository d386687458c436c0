"""Random sessions: of one end alone, and of two ends that talk to each other.

The gate's fixed set (random.txt) and tests/long take theirs from here. Messages are wrapped or
unwrapped as it falls. Before a good call may stand a mistaken one, the same with one thing wrong that
is refused with 2 to 7; and a start may be refused in the middle of a session, after which nothing rides
until a good start.
"""

from typing import NamedTuple

from book import Given, flipped, right_tag, whole
from table import CHECKED, NO_TAG, PRODUCED

KINDS = ("wrap", "unwrap")


class Bounds(NamedTuple):
    """What a random session may have in it."""
    lengths: tuple      # the most bytes of a text or of metadata: one of these each time
    longest: int        # one in so many is as long as 65,535 bytes; 0: none
    wrong: int          # one in so many messages is first unwrapped with something wrong; 0: none


# The gate's are short, so that the data stays small.
GATE = Bounds(lengths=(12, 40, 40, 200), longest=0, wrong=0)
LONG = Bounds(lengths=(40, 40, 200, 400, 1500), longest=250, wrong=8)


class Message(NamedTuple):
    """What a message is called with."""
    kind: str
    text: Given
    metadata: Given
    forget: int
    output: Given
    tag: Given


class Starting(NamedTuple):
    """What a start is called with."""
    key: Given
    nonce: Given
    use: int
    forget: int
    tag: Given


def some(scribe, bounds):
    """Bytes of a random length."""
    dice = scribe.dice
    if bounds.longest and dice.below(bounds.longest) == 0:
        return dice.bytes(dice.below(65536))
    return dice.bytes(dice.below(1 + dice.pick(bounds.lengths)))


def resized(dice, tag):
    """The tag, shorter or longer than a tag is."""
    return whole((tag.content + bytes(16))[:dice.pick((0, 1, 15, 17, 32))])


def mistaken(dice, message):
    """The message with one thing wrong that is refused with 4 to 7."""
    room = len(message.text.content)
    case = dice.below(4)
    if case == 0:
        return message._replace(text=dice.bytes(65536))
    if case == 1:
        return message._replace(metadata=dice.bytes(65536))
    if case == 2 and room:
        return message._replace(output=dice.bytes(dice.pick((room - 1, dice.below(room)))))
    return message._replace(tag=resized(dice, message.tag))


def mistaken_start(dice, starting):
    """The start with one thing wrong that is refused with 2, 3 or 7."""
    case = dice.below(3)
    if case == 0:
        return starting._replace(key=dice.bytes(dice.pick((0, 15, 33, 64))))
    if case == 1:
        return starting._replace(nonce=dice.bytes(1025 + dice.below(100)))
    return starting._replace(use=dice.pick((PRODUCED, CHECKED)), tag=resized(dice, starting.tag))


def tampered(dice, message):
    """The unwrap with one thing wrong that only the tag can tell."""
    part = dice.pick(("text", "metadata", "tag", "zeros", "forget"))
    given = getattr(message, part, None)
    if part == "forget":
        return message._replace(forget=1 - message.forget)
    if part == "zeros" or not given.content:
        return message._replace(tag=whole(bytes(16)))
    place, mask = dice.below(len(given.content)), 1 << dice.below(8)
    return message._replace(**{part: flipped(given, place, mask)})


def any_message(scribe, bounds):
    """A message that nobody sent."""
    dice, text = scribe.dice, some(scribe, bounds)
    return Message(dice.pick(KINDS), text, some(scribe, bounds), dice.below(2),
                   scribe.lent(len(text.content)), dice.bytes(16))


def start(scribe, ends, bounds, again):
    """A start of all ends alike; refused ones may stand before it, and again says that one must."""
    dice = scribe.dice
    key, nonce = dice.bytes(16 + dice.below(17)), dice.bytes(dice.below(1 + dice.pick((30, 200))))
    forget, tagged = dice.below(2), dice.below(3)
    for end in ends:
        use = dice.pick((PRODUCED, CHECKED)) if tagged else NO_TAG
        starting = Starting(key, nonce, use, forget, scribe.start_tag(use, key, nonce, forget))
        if again or dice.below(6) == 0:
            end.start(*mistaken_start(dice, starting))
            end.message(*any_message(scribe, bounds))
        end.start(*starting)


def send(scribe, session, message, like=None):
    """The message, and before it up to two mistaken ones."""
    for _ in range(scribe.dice.pick((0, 0, 0, 1, 2))):
        session.message(*mistaken(scribe.dice, message))
    return session.message(*message, like=like)


def fail(scribe, ends, hearer, message, bounds):
    """The message, tampered with: the hearer fails, says so once more, and all start anew."""
    hearer.message(*tampered(scribe.dice, message))
    hearer.message(*any_message(scribe, bounds))
    start(scribe, ends, bounds, False)


def tampers(dice, bounds):
    return bounds.wrong and dice.below(bounds.wrong) == 0


def alone(scribe, bounds):
    """One end, which unwraps any bytes with the tag that is right for them."""
    dice, session = scribe.dice, scribe.fresh()
    start(scribe, [session], bounds, False)
    for turn in range(2 + dice.below(3)):
        if turn and dice.below(5) == 0:
            start(scribe, [session], bounds, True)
        message = any_message(scribe, bounds)
        if message.kind == "unwrap":
            message = message._replace(tag=right_tag(
                scribe.instance, session.record, message.text, message.metadata,
                bool(message.forget)))
            if tampers(dice, bounds):
                fail(scribe, [session], session, message, bounds)
                continue
        send(scribe, session, message)


def talk(scribe, bounds):
    """Two ends, each its own session: what one wraps the other unwraps, and either may speak next."""
    dice = scribe.dice
    ends, turns = [scribe.fresh(), scribe.fresh()], 2 + dice.below(3)
    scribe.book.talks.append(tuple(ends))
    start(scribe, ends, bounds, False)
    speakers = [dice.below(2) for _ in range(turns)]
    if sum(speakers) in (0, turns):
        speakers[-1] = 1 - speakers[-1]
    for turn, speaker in enumerate(speakers):
        if turn and dice.below(8) == 0:
            start(scribe, ends, bounds, True)
        one_message(scribe, ends, ends[speaker], ends[1 - speaker], bounds)


def one_message(scribe, ends, speaker, hearer, bounds):
    """One wraps, the other unwraps, and both hold the same record."""
    sent = any_message(scribe, bounds)._replace(kind="wrap")
    _, ciphertext, tag = send(scribe, speaker, sent)
    heard = Message("unwrap", whole(ciphertext), sent.metadata, sent.forget,
                    scribe.lent(len(ciphertext)), whole(tag))
    if tampers(scribe.dice, bounds):
        fail(scribe, ends, hearer, heard, bounds)
        return
    answer, text, _ = send(scribe, hearer, heard, like=sent.text)
    if (answer.number, text, hearer.record) != (0, sent.text.content, speaker.record):
        raise AssertionError("the two ends differ")


def write(scribe, sessions, bounds):
    """So many sessions: about a third of one end alone, the others in talks."""
    book = scribe.book
    last = len(book.sessions) + sessions
    while len(book.sessions) < last:
        talks = scribe.dice.below(2) and len(book.sessions) + 1 < last
        (talk if talks else alone)(scribe, bounds)


# ---------------------------------------------------------------------------
# What the gate's set must have in it.
# ---------------------------------------------------------------------------

# At least so many for each instance: sessions, each end of a talk one; of them alone or the first end of
# their talk; with a refusal between two accepted calls; with each refusal there; talks, all in both
# directions; of them with refusals at both ends.
SESSIONS, FIRSTS, BETWEEN, OF_EACH, TALKS, BOTH_ENDS = 145, 100, 100, 10, 45, 25

REFUSALS = (("start", 2), ("start", 3), ("start", 7),
            *((kind, number) for kind in KINDS for number in (1, 4, 5, 6, 7)))


def between(session):
    """The refusals that stand between two accepted calls of a session."""
    done = [i for i, (_, number) in enumerate(session.history) if number == 0]
    return {call for call in session.history[done[0]:done[-1]] if call[1]}


def wrapped(session):
    return ("wrap", 0) in session.history


def counts(book, name):
    """What the set has of one instance, and the least of each."""
    mine = [session for session in book.sessions if session.instance.name == name]
    talks = [ends for ends in book.talks if ends[0].instance.name == name]
    yield "sessions", len(mine), SESSIONS
    yield "not the second end of a talk", len(mine) - len(talks), FIRSTS
    yield "with refusals between accepted calls", sum(map(bool, map(between, mine))), BETWEEN
    for call in REFUSALS:
        found = sum(call in between(session) for session in mine)
        yield f"with {call[0]} refused by {call[1]} there", found, OF_EACH
    yield "talks in both directions", sum(all(map(wrapped, ends)) for ends in talks), TALKS
    yield "talks with refusals there at both ends", sum(
        all(map(between, ends)) for ends in talks), BOTH_ENDS
    wrong = sum(number == 8 for session in mine for _, number in session.history)
    yield "without wrong tags", len(mine) if wrong == 0 else 0, SESSIONS


def missing(book):
    """What the set has too little of."""
    return [(name, what, found, least) for name in ("Lake", "River")
            for what, found, least in counts(book, name) if found < least]
