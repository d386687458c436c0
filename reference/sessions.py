"""Writes the sessions of Lake and River that the library is run against.

    python3 sessions.py FOLDER           write the files
    python3 sessions.py --check FOLDER   make them again and compare; 1 if one differs

Seven files, in the layout of docs/VECTORS.md: sessions.txt with the families below,
random.txt with the random sessions of randoms.py, sample.txt, a few with every byte
in full, as vectors from elsewhere would stand; and what must be reported, made in
wrongs.py. The same bytes come out each time: all choices follow from SEED.
"""

import sys

import keyak
import randoms
import stored
import table
import wrongs
from book import (Book, Dice, Scribe, flipped, pattern, right_start_tag, right_tag, whole)
from table import CHECKED, NO_TAG, PRODUCED

SEED = 20250718

HEAD = """\
# Sessions of Keyak v2, Lake and River, with what each call must answer and leave.
# Made by reference/sessions.py from seed {seed}.
#
# The layout is described in docs/VECTORS.md. The longest of each here, in bytes:
# key {key}, nonce {nonce}, text {text}, metadata {metadata}, output {output}, tag {tag}; the longest
# line has {longest} characters.
#
"""

# ---------------------------------------------------------------------------
# What is covered.
# ---------------------------------------------------------------------------

KINDS = ("wrap", "unwrap")
KEYS = (16, 17, 31, 32)
NONCES = (0, 58, 59, 62, 63, 150, 151, 1024)
USES = (NO_TAG, PRODUCED, CHECKED)
TEXTS = {"Lake": (0, 1, 15, 16, 17, 151, 152, 153, 167, 168, 169, 1000),
         "River": (0, 1, 15, 16, 17, 51, 52, 53, 67, 68, 69, 1000)}
METADATA = {"Lake": (0, 1, 15, 16, 17, 23, 24, 25, 191, 192, 193, 1000),
            "River": (0, 1, 15, 16, 17, 27, 28, 29, 95, 96, 97, 1000)}


def starts(scribe):
    """Each nonce with each use of the tag, forgetting on and off; one message."""
    dice = scribe.dice
    for i, nonce_length in enumerate(NONCES):
        for use in USES:
            for forget in (0, 1):
                key_length = KEYS[(i + use + 2 * forget) % 4]
                session = scribe.begin(use, forget, key_length, nonce_length)
                scribe.send(session, dice.pick(KINDS), dice.below(33), dice.below(33),
                            dice.below(2))


def lengths(scribe):
    """Each text length with each metadata length, four messages to a session."""
    dice, name = scribe.dice, scribe.instance.name
    pairs = dice.shuffled((text, metadata, KINDS[(i + j) % 2])
                          for i, text in enumerate(TEXTS[name])
                          for j, metadata in enumerate(METADATA[name]))
    for k in range(0, len(pairs), 4):
        session = scribe.begin(PRODUCED if k % 8 else CHECKED, dice.below(2),
                               dice.pick(KEYS), dice.below(100))
        for text, metadata, kind in pairs[k:k + 4]:
            scribe.send(session, kind, text, metadata, dice.below(2))


def first_messages(scribe):
    """Each length right after a start without tag, wrapped and unwrapped."""
    dice, name = scribe.dice, scribe.instance.name
    for kind in KINDS:
        others = dice.shuffled(METADATA[name])
        for i, text in enumerate(TEXTS[name]):
            session = scribe.begin(NO_TAG, i % 2, dice.pick(KEYS), dice.below(200))
            scribe.send(session, kind, text, others[i], (i // 2) % 2)


def long_ones(scribe):
    """Texts and metadata of 65,535 bytes, alone and both, in each call, forgetting on and off."""
    for kind, use in zip(KINDS, (PRODUCED, NO_TAG)):
        session = scribe.begin(use)
        scribe.send(session, kind, 65535, 65535, 1)
        scribe.send(session, kind, 65535, 17, 0)
        for forget in (0, 1):
            scribe.send(session, kind, forget, 65535, forget)
        scribe.send(session, "wrap", 0, 0, 0)
    session = scribe.begin(CHECKED)
    text, metadata, tag = scribe.cryptogram(session, 65535, 65535, 0)
    session.message("unwrap", flipped(text, 65534, 1), metadata, 0, scribe.lent(65535), tag)
    after_failure(scribe, session)


def both_ends(scribe):
    """Two ends of one talk, each as its own session; one's wrap is the other's unwrap."""
    dice = scribe.dice
    for i in range(6):
        key, nonce, forget = dice.bytes(dice.pick(KEYS)), dice.bytes(dice.below(160)), i % 2
        ends = [scribe.fresh(), scribe.fresh()]
        if i % 4 == 3:
            for end in ends:
                end.start(key, nonce, NO_TAG, forget, dice.bytes(16))
        else:
            _, tag = ends[0].start(key, nonce, PRODUCED, forget, dice.bytes(16))
            ends[1].start(key, nonce, CHECKED, forget, whole(tag))
        for turn in range(3):
            speaker, hearer = ends[turn % 2], ends[1 - turn % 2]
            text, metadata = dice.bytes(dice.below(120)), dice.bytes(dice.below(60))
            forget = dice.below(2)
            _, ciphertext, tag = speaker.message("wrap", text, metadata, forget,
                                                 scribe.lent(len(text.content)),
                                                 dice.bytes(16))
            hearer.message("unwrap", whole(ciphertext), metadata, forget,
                           scribe.lent(len(ciphertext)), whole(tag))


def records_by_hand(scribe):
    """Riding records with any lanes at both text starts."""
    dice, instance = scribe.dice, scribe.instance
    for kind in KINDS:
        for text_start in table.TEXT_STARTS:
            session = scribe.fresh()
            session.put([dice.below(2 ** 32) << (instance.W - 32) | dice.below(2 ** 32)
                         for _ in range(25)], table.RIDING, text_start)
            scribe.send(session, kind, 40, 30, 0)
            scribe.send(session, kind, 200, 3, 1)
        session = scribe.fresh()
        session.put([0] * 25, table.RIDING, 0)
        scribe.send(session, kind, 20, 20, 0)


# Refusals. Each session shows its refusals and then what the record still does.


def on(scribe, session, kind, text=3, metadata=2, output=9, tag=16):
    """A call with these lengths and no care for the right tag."""
    dice = scribe.dice
    return session.message(kind, dice.bytes(text), dice.bytes(metadata), dice.below(2),
                           dice.bytes(output), dice.bytes(tag))


def after_failure(scribe, session):
    for kind in KINDS:
        on(scribe, session, kind)


def start_limits(scribe):
    """Key, nonce and tag lengths on both sides, and two wrong at once."""
    dice = scribe.dice
    for use in USES:
        for key_length, nonce_length, tag_length in (
                (15, 0, 16), (16, 0, 16), (32, 0, 16), (33, 0, 16), (0, 5, 16),
                (16, 1024, 16), (16, 1025, 16), (32, 9, 15), (32, 9, 17), (32, 9, 0),
                (15, 1025, 15), (33, 9, 17), (20, 1025, 0)):
            session = scribe.fresh()
            key, nonce = dice.bytes(key_length), dice.bytes(nonce_length)
            fits = 16 <= key_length <= 32 and nonce_length <= 1024
            forget = dice.below(2)
            tag = dice.bytes(tag_length)
            if use == CHECKED and fits and tag_length == 16:
                tag = right_start_tag(scribe.instance, key, nonce, bool(forget))
            session.start(key, nonce, use, forget, tag)
            on(scribe, session, "wrap", text=5, output=5)


def restart(scribe):
    """A start takes no note of the record before it, whatever it answers."""
    session = scribe.begin(PRODUCED)
    scribe.send(session, "wrap", 4, 4, 0)
    dice = scribe.dice
    session.start(dice.bytes(16), dice.bytes(8), NO_TAG, 0, dice.bytes(5))
    scribe.send(session, "wrap", 4, 4, 0)
    session.start(dice.bytes(15), dice.bytes(8), NO_TAG, 0, dice.bytes(5))
    after_failure(scribe, session)
    session.start(dice.bytes(16), dice.bytes(8), PRODUCED, 1, dice.bytes(16))
    scribe.send(session, "unwrap", 4, 4, 0)


def wrong_start_tags(scribe):
    """One bit of the start tag, or the forgetting choice, wrong."""
    dice = scribe.dice
    for case in ((0, 1), (7, 16), (15, 128), "other choice"):
        session = scribe.fresh()
        key, nonce, forget = dice.bytes(16), dice.bytes(12), dice.below(2)
        tag = right_start_tag(scribe.instance, key, nonce, bool(forget))
        if case == "other choice":
            forget = 1 - forget
        else:
            tag = flipped(tag, *case)
        session.start(key, nonce, CHECKED, forget, tag)
        after_failure(scribe, session)


def not_riding(scribe):
    """Refusal 1: unstarted, failed, and text starts other than 0 and 16."""
    for kind in KINDS:
        session = scribe.fresh()
        on(scribe, session, kind)
        on(scribe, session, kind, text=0, metadata=0, output=0)
        on(scribe, session, kind, text=65536, metadata=65536, output=2, tag=15)
        session = scribe.fresh()
        session.put([0] * 25, table.FAILED, 0)
        on(scribe, session, kind)
        on(scribe, session, kind, text=20, output=3, tag=17)
        session = scribe.begin(PRODUCED)
        for text_start in (8, 1, 15, 17, 32, 168):
            session.put(None, table.RIDING, text_start)
            on(scribe, session, kind)
        on(scribe, session, kind, text=65536)
        for phase in (table.UNSTARTED, table.FAILED):
            for text_start in (8, 0, 16):
                session.put(None, phase, text_start)
                on(scribe, session, kind)
        session.put(None, table.RIDING, 16)
        scribe.send(session, kind, 5, 5, 0)


def message_limits(scribe):
    """Refusals 4 to 7 alone and together; the session goes on after them."""
    refused = ((65536, 0, 65536, 16), (65536, 65536, 3, 15), (65536, 7, 65535, 16),
               (2, 65536, 2, 16), (9, 65536, 3, 17),
               (1, 0, 0, 16), (168, 4, 167, 16), (168, 4, 100, 15), (65535, 0, 65534, 16),
               (3, 3, 3, 15), (3, 3, 3, 17), (0, 0, 0, 0), (0, 0, 0, 15))
    for kind in KINDS:
        for use in USES:
            session = scribe.begin(use, use % 2)
            for text, metadata, output, tag in refused[use::3]:
                on(scribe, session, kind, text, metadata, output, tag)
            scribe.send(session, kind, 20, 20, 0)


def exact_outputs(scribe):
    """An output of just the text's length, and far longer ones."""
    dice = scribe.dice
    for kind in KINDS:
        session = scribe.begin(PRODUCED)
        for text, output in ((16, 16), (0, 0), (0, 7), (168, 168), (10, 300), (1000, 1000)):
            given, metadata = dice.bytes(text), dice.bytes(3)
            tag = (right_tag(scribe.instance, session.record, given, metadata, False)
                   if kind == "unwrap" else dice.bytes(16))
            session.message(kind, given, metadata, 0, dice.bytes(output), tag)


def wrong_tags(scribe):
    """Refusal 8 of unwrap: one bit of ciphertext, tag or metadata, or a wrong choice."""
    dice = scribe.dice
    cases = (("text", 0, 0, 1), ("text", 0, 9, 128), ("text", 300, 299, 4),
             ("metadata", 0, 0, 1), ("metadata", 40, 39, 64), ("metadata", 400, 250, 8),
             ("tag", 0, 0, 1), ("tag", 0, 15, 128), ("tag", 200, 8, 2))
    for i, (part, length, place, mask) in enumerate(cases):
        session = scribe.begin(USES[i % 3], dice.below(2))
        if i % 2:
            scribe.send(session, "wrap", 30, 5, 0)
        forget = dice.below(2)
        text, metadata, tag = scribe.cryptogram(
            session, length if part == "text" and length else 10,
            length if part == "metadata" and length else 10, forget)
        parts = {"text": text, "metadata": metadata, "tag": tag}
        parts[part] = flipped(parts[part], place, mask)
        session.message("unwrap", parts["text"], parts["metadata"], forget,
                        dice.bytes(len(text.content) + i), parts["tag"])
        after_failure(scribe, session)
    other_wrongs(scribe)


def known_tags(scribe):
    """A tag that anybody knows: of zeros, of ones, and the one before; at a start too."""
    dice = scribe.dice
    for tag in (pattern(16, 0, 0), pattern(16, 0, 255)):
        for forget in (0, 1):
            session = scribe.fresh()
            session.start(dice.bytes(16), dice.bytes(12), CHECKED, forget, tag)
            after_failure(scribe, session)
            session = scribe.begin(USES[forget])
            scribe.send(session, "wrap", 3, 3, 0)
            text, metadata, _ = scribe.cryptogram(session, 20 * forget, 9, forget)
            session.message("unwrap", text, metadata, forget, scribe.lent(20), tag)
            after_failure(scribe, session)
    session = scribe.begin(PRODUCED)
    _, _, before = scribe.send(session, "wrap", 30, 4, 0)
    text, metadata, _ = scribe.cryptogram(session, 30, 4, 0)
    session.message("unwrap", text, metadata, 0, scribe.lent(30), whole(before))
    after_failure(scribe, session)


def other_wrongs(scribe):
    """Refusal 8 for nothing in the message, moved lengths and the other choice."""
    dice = scribe.dice
    session = scribe.begin(PRODUCED)
    text, metadata, tag = scribe.cryptogram(session, 0, 0, 0)
    session.message("unwrap", text, metadata, 0, dice.bytes(12), flipped(tag, 3, 32))
    after_failure(scribe, session)
    for forget in (0, 1):
        session = scribe.begin(PRODUCED)
        text, metadata, tag = scribe.cryptogram(session, 20, 20, forget)
        session.message("unwrap", text, metadata, 1 - forget, dice.bytes(33), tag)
        after_failure(scribe, session)
    for text_by, metadata_by in ((-1, 0), (0, -1), (1, -1)):
        session = scribe.begin(NO_TAG)
        a, b = 1 + dice.below(255), dice.below(256)
        text, metadata = pattern(20, a, b), pattern(20, b, a)
        tag = right_tag(scribe.instance, session.record, text, metadata, False)
        session.message("unwrap", pattern(20 + text_by, a, b), pattern(20 + metadata_by, b, a),
                        0, dice.bytes(70), tag)
        after_failure(scribe, session)


def length_before_tag(scribe):
    """A wrong tag of a wrong length is refused by its length, and the session lives."""
    for tag_length in (0, 15, 17):
        session = scribe.begin(PRODUCED)
        on(scribe, session, "unwrap", text=30, output=30, tag=tag_length)
        on(scribe, session, "unwrap", text=30, output=29, tag=tag_length)
        scribe.send(session, "unwrap", 30, 3, 0)


def permutations(scribe):
    """The permutation call with each count of rounds, and counts it refuses."""
    session = scribe.fresh()
    most = 12 + 2 * keyak.exponent_of(scribe.instance.b)
    session.put([scribe.dice.below(2 ** 32) for _ in range(25)], table.RIDING, 16)
    for rounds in [0, *range(1, most + 1), most + 1, most + 2, 200]:
        session.permute(rounds)
    session.permute(most)
    session = scribe.fresh()
    session.permute(most)
    session = scribe.fresh()
    session.permute(12)


FAMILIES = (starts, lengths, first_messages, long_ones, both_ends, records_by_hand,
            start_limits, restart, wrong_start_tags, not_riding, message_limits,
            exact_outputs, wrong_tags, known_tags, length_before_tag, permutations)


def required(name):
    """The facts that the book must hold for one instance."""
    for use in USES:
        for forget in (0, 1):
            yield name, "start", 0, "use", use, "forget", forget
        for key in KEYS:
            yield name, "start", 0, "use", use, "key", key
        for nonce in NONCES:
            yield name, "start", 0, "use", use, "nonce", nonce
        for key in (15, 33):
            yield name, "start", 2, "use", use, "key", key
        yield name, "start", 3, "use", use, "nonce", 1025
    for tag in (15, 17):
        yield name, "start", 0, "use", NO_TAG, "tag", tag
        yield name, "start", 7, "use", PRODUCED, "tag", tag
        yield name, "start", 7, "use", CHECKED, "tag", tag
    yield name, "start", 8, "use", CHECKED, "tag", 16
    yield name, "start", 8, "tag", "zeros"
    yield name, "unwrap", 8, "tag", "zeros"
    for kind in KINDS:
        for text_start in table.TEXT_STARTS:
            for text in TEXTS[name]:
                yield name, kind, 0, text_start, "text", text
            for metadata in METADATA[name]:
                yield name, kind, 0, text_start, "metadata", metadata
            for forget in (0, 1):
                yield name, kind, 0, text_start, "forget", forget
        for forget in (0, 1):
            yield name, kind, 0, "forget", forget, "text", 65535
            yield name, kind, 0, "forget", forget, "metadata", 65535
        yield name, kind, 0, "both", 65535, 65535
        yield name, kind, 1, "phase", table.UNSTARTED
        yield name, kind, 1, "phase", table.FAILED
        yield name, kind, 1, 8, "phase", table.RIDING
        yield name, kind, 4, "text", 65536
        yield name, kind, 5, "metadata", 65536
        yield name, kind, 6, "output", 0
        for tag in (15, 17):
            yield name, kind, 7, "tag", tag
    yield name, "unwrap", 8, "text", 65535
    yield name, "unwrap", 8, "text", 0


def write_book():
    book, dice = Book(), Dice(SEED)
    for family in FAMILIES:
        counts = []
        for instance in (keyak.LAKE, keyak.RIVER):
            before = len(book.sessions)
            family(Scribe(book, instance, dice))
            counts.append(len(book.sessions) - before)
        book.families.append((family, counts))
    missing = [fact for name in TEXTS for fact in required(name) if fact not in book.facts]
    if missing:
        raise AssertionError(f"not covered: {missing}")
    return book


def count_notes(book):
    """The counts for the head of the file."""
    yield f"# Sessions: {len(book.sessions)}. By kind, Lake and River:"
    for family, (lake, river) in book.families:
        yield f"#   {lake} {river} {family.__name__}: {family.__doc__}"
    yield "# Calls by kind and answer:"
    for kind in ("start", "wrap", "unwrap", "permute"):
        told = ", ".join(f"{number}: {count}" for (which, number), count
                         in sorted(book.answers.items()) if which == kind)
        yield f"#   {kind} {told}"
    yield "#"


def whole_file():
    book = write_book()
    lines = book.told()
    head = HEAD.format(seed=SEED, longest=max(map(len, lines)), **book.longest)
    return head + "\n".join([*count_notes(book), *lines]) + "\n"


RANDOM = """\
# Random sessions of Keyak v2, Lake and River, with what each call must answer and leave.
# Made by reference/sessions.py from seed {seed}; the layout is described in docs/VECTORS.md.
# Of each instance, Lake and River:
"""


def random_book():
    """So many of each instance that the least counts of randoms.py are there."""
    book, dice = Book(), Dice(SEED)
    for instance in (keyak.LAKE, keyak.RIVER):
        randoms.write(Scribe(book, instance, dice), 151, randoms.GATE)
    few = randoms.missing(book)
    if few:
        raise AssertionError(f"too few: {few}")
    return book


def random_file():
    book = random_book()
    lake, river = (list(randoms.counts(book, name)) for name in ("Lake", "River"))
    notes = [f"#   {one[1]} {other[1]} {one[0]}" for one, other in zip(lake, river)]
    return RANDOM.format(seed=SEED) + "\n".join([*notes, "#", *book.told()]) + "\n"


SAMPLE = """\
# Sessions of Keyak v2 as vectors from elsewhere would stand in the layout of docs/VECTORS.md:
# every byte in full, and runs and records, which no published vector has, left untold.
# Made by reference/sessions.py from seed {seed}.
#
"""


def sample_file():
    """For each instance a talk of two ends, each as its own session."""
    book, dice = Book(outside=True), Dice(SEED)
    for instance in (keyak.LAKE, keyak.RIVER):
        scribe = Scribe(book, instance, dice)
        key, nonce = whole(dice.bytes(16).content), whole(dice.bytes(58).content)
        one, other = scribe.fresh(), scribe.fresh()
        _, tag = one.start(key, nonce, PRODUCED, 0, pattern(16, 0, 0))
        other.start(key, nonce, CHECKED, 0, whole(tag))
        for length, forget in ((24, 0), (200, 1)):
            text, metadata = whole(dice.bytes(length).content), whole(dice.bytes(30).content)
            _, sealed, tag = one.message("wrap", text, metadata, forget,
                                         pattern(length, 0, 0), pattern(16, 0, 0))
            other.message("unwrap", whole(sealed), metadata, forget,
                          pattern(length, 0, 0), whole(tag))
    return SAMPLE.format(seed=SEED) + "\n".join(book.told()) + "\n"


def files():
    sample = sample_file()
    yield "sessions.txt", whole_file()
    yield "random.txt", random_file()
    yield "sample.txt", sample
    yield "wrong.txt", wrongs.wrong_file(sample)
    yield "late.txt", wrongs.late_file(SEED)
    yield "words.txt", wrongs.words_file(SEED)
    yield "unsound.txt", wrongs.unsound_file(SEED)


if __name__ == "__main__":
    sys.exit(stored.main(files, __doc__, sys.argv[1:]))
