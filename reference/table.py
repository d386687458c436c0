"""The host's side of Keyak: session records, lent buffers and refusals.

Start, wrap, unwrap and the permutation call with the limits, the table of
numbers and the buffer rules of paper 01. A lent buffer is a bytearray. Each
call answers the record after it and (number, written, runs); what it leaves
in the buffers is what 01 says, byte for byte. The cipher is keyak.py's.
"""

from typing import NamedTuple

from keyak import ByteStream, bytes_to_lanes, exponent_of, keccak_p_lanes, lanes_to_bytes

# Phases of a record.
UNSTARTED, RIDING, FAILED = 0, 1, 2

# Uses of the start tag.
NO_TAG, PRODUCED, CHECKED = 0, 1, 2

KEY_LEAST, KEY_MOST = 16, 32
NONCE_MOST = 1024
TEXT_MOST = 65535
METADATA_MOST = 65535
TAG_BYTES = 16
TEXT_STARTS = (0, 16)

# Numbers of the table that these calls give.
DONE = 0
NOT_RIDING = 1
KEY_LENGTH = 2
NONCE_LENGTH = 3
TEXT_LENGTH = 4
METADATA_LENGTH = 5
OUTPUT_SHORT = 6
TAG_LENGTH = 7
TAG_DIFFERS = 8


class Record(NamedTuple):
    """A session as a value: lanes as numbers of W bits, lane (x, y) at 5y+x."""
    lanes: tuple
    phase: int
    text_start: int


class Answer(NamedTuple):
    number: int
    written: int
    runs: int


def zero_lanes(instance):
    return (0,) * (25 * instance.Pi)


def unstarted(instance):
    return Record(zero_lanes(instance), UNSTARTED, 0)


def failed(instance):
    return Record(zero_lanes(instance), FAILED, 0)


def refusal(number):
    """Every refusal reports 0 written and 0 runs."""
    return Answer(number, 0, 0)


def first_refusal(cases):
    """The number of the first case, in the order in which they are looked at, that applies, else 0."""
    return next((number for number, applies in cases if applies), DONE)


def state_bytes(instance, record):
    """The states of the Pistons in a record, one string for each."""
    whole = lanes_to_bytes(record.lanes, instance.W // 8)
    size = instance.b // 8
    return [whole[i * size:(i + 1) * size] for i in range(instance.Pi)]


def record_of(instance, motorist):
    """The riding record that holds what a Motorist holds between calls."""
    lanes = bytes_to_lanes(b"".join(motorist.states()), instance.W // 8)
    return Record(tuple(lanes), RIDING, motorist.text_start())


def motorist_of(instance, record):
    motorist = instance.motorist()
    motorist.resume(state_bytes(instance, record), record.text_start)
    return motorist


def rides(record):
    """Started and not failed; another text start counts as not started."""
    return record.phase == RIDING and record.text_start in TEXT_STARTS


def start(instance, key, nonce, use, tag, forget):
    """A new session. tag is looked at only if use asks for a tag."""
    number = first_refusal([
        (KEY_LENGTH, not KEY_LEAST <= len(key) <= KEY_MOST),
        (NONCE_LENGTH, len(nonce) > NONCE_MOST),
        (TAG_LENGTH, use != NO_TAG and len(tag) != TAG_BYTES),
    ])
    if number != DONE:
        return unstarted(instance), refusal(number)
    motorist = instance.motorist()
    T = ByteStream(tag if use == CHECKED else b"")
    right = motorist.start_engine(instance.suv(key, nonce), use != NO_TAG, T,
                                  use == CHECKED, forget)
    if not right:
        return failed(instance), refusal(TAG_DIFFERS)
    if use == PRODUCED:
        tag[:] = T.content()
    return record_of(instance, motorist), Answer(DONE, 0, motorist.runs())


def message_refusal(record, text, metadata, output, tag):
    """The refusals 1 to 7 of wrap and unwrap."""
    return first_refusal([
        (NOT_RIDING, not rides(record)),
        (TEXT_LENGTH, len(text) > TEXT_MOST),
        (METADATA_LENGTH, len(metadata) > METADATA_MOST),
        (OUTPUT_SHORT, len(output) < len(text)),
        (TAG_LENGTH, len(tag) != TAG_BYTES),
    ])


def wrap(instance, record, text, metadata, forget, output, tag):
    """Ciphertext to the front of output, the tag to tag."""
    number = message_refusal(record, text, metadata, output, tag)
    if number != DONE:
        return record, refusal(number)
    motorist = motorist_of(instance, record)
    O, T = ByteStream(), ByteStream()
    motorist.wrap(ByteStream(text), O, ByteStream(metadata), T, False, forget)
    output[:len(text)] = O.content()
    tag[:] = T.content()
    return record_of(instance, motorist), Answer(DONE, len(text), motorist.runs())


def unwrap(instance, record, text, metadata, forget, output, tag):
    """Plaintext of the ciphertext text to the front of output, if tag is right."""
    number = message_refusal(record, text, metadata, output, tag)
    if number != DONE:
        return record, refusal(number)
    motorist = motorist_of(instance, record)
    O = ByteStream()
    right = motorist.wrap(ByteStream(text), O, ByteStream(metadata), ByteStream(tag),
                          True, forget)
    if not right:
        output[:len(text)] = bytes(len(text))
        return failed(instance), refusal(TAG_DIFFERS)
    output[:len(text)] = O.content()
    return record_of(instance, motorist), Answer(DONE, len(text), motorist.runs())


def permute(instance, lanes, rounds):
    """The permutation call: 25 lanes and the rounds done, 0 for a count it refuses."""
    l = exponent_of(instance.b)
    if not 1 <= rounds <= 12 + 2 * l:
        return tuple(lanes), 0
    return tuple(keccak_p_lanes(lanes, l, rounds)), rounds
