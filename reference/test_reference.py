"""Tests of the reference program: python3 -m unittest test_reference

Known answers for the permutation, the plans of paper 01, the figures of
document 003, round trips, the table of refusals, and the data files read back
by the rules of docs/VECTORS.md.
"""

import hashlib
import io
import os
import random
import tempfile
import unittest
from contextlib import redirect_stdout
from unittest import mock

import book
import dip
import dips
import keyak
import randoms
import sessions
import stored
import table
import wrongs
from keyak import ByteStream, LAKE, LUNAR, OCEAN, RIVER, SEA
from table import CHECKED, NO_TAG, PRODUCED, Answer, Record

ALL = (RIVER, LAKE, SEA, OCEAN, LUNAR)
ONE_PISTON = (LAKE, RIVER)


def some_bytes(dice, length):
    return bytes(dice.randrange(256) for _ in range(length))


def started(instance, nonce_length=24, tag=True, forget=False, key=bytes(range(16))):
    """A Motorist after a start that produces a tag, or none."""
    motorist = instance.motorist()
    SUV = instance.suv(key, bytes(i % 251 for i in range(nonce_length)))
    if not motorist.start_engine(SUV, tag, ByteStream(), False, forget):
        raise AssertionError("a start that checks nothing failed")
    return motorist


def from_here(motorist):
    """Forget the log, keep the states: what follows is logged alone."""
    motorist.resume(motorist.states(), motorist.text_start())
    return motorist


def wrapped(motorist, text, metadata, forget=False):
    O, T = ByteStream(), ByteStream()
    motorist.wrap(ByteStream(text), O, ByteStream(metadata), T, False, forget)
    return O.content(), T.content()


def unwrapped(motorist, text, metadata, tag, forget=False):
    """Plaintext and whether the tag was right."""
    O = ByteStream()
    right = motorist.wrap(ByteStream(text), O, ByteStream(metadata), ByteStream(tag),
                          True, forget)
    return O.content(), right


def sponge(nr, rate, suffix, message, length):
    """A plain sponge over KECCAK-p[1600, nr]; length at most rate."""
    f, state = keyak.keccak_p(1600, nr), bytearray(200)
    padded = bytearray(message + bytes([suffix]))
    padded += bytes(-len(padded) % rate)
    padded[-1] ^= 0x80
    for k in range(0, len(padded), rate):
        for i in range(rate):
            state[i] ^= padded[k + i]
        state = f(state)
    return bytes(state[:length])


class Permutation(unittest.TestCase):
    def test_sha3_256(self):
        for length in (0, 1, 135, 136, 137, 272, 1000):
            message = some_bytes(random.Random(length), length)
            self.assertEqual(sponge(24, 136, 0x06, message, 32),
                             hashlib.sha3_256(message).digest())

    def test_shake128(self):
        for length in (0, 1, 167, 168, 169, 336, 1000):
            message = some_bytes(random.Random(length), length)
            self.assertEqual(sponge(24, 168, 0x1F, message, 168),
                             hashlib.shake_128(message).digest(168))

    def test_sha3_256_from_bit_formulas(self):
        state = bytearray(200)
        state[0], state[135] = 0x06, 0x80
        bits = keyak.keccak_p_bits(keyak.bytes_to_bits(state), 6, 24)
        self.assertEqual(keyak.bits_to_bytes(bits)[:32], hashlib.sha3_256(b"").digest())

    def test_turboshake128_of_nothing(self):
        self.assertEqual(sponge(12, 168, 0x1F, b"", 32).hex().upper(),
                         "1E415F1C5983AFF2169217277D17BB53"
                         "8CD945A397DDEC541F1CE41AF2C1B74C")

    def test_keccak_f_1600_of_zero(self):
        lanes = keyak.keccak_p_lanes([0] * 25, 6, 24)
        self.assertEqual((lanes[0], lanes[24]), (0xF1258F7940E1DDE7, 0xEAF1FF7B5CECA249))

    def test_keccak_f_800_of_zero(self):
        lanes = keyak.keccak_p_lanes([0] * 25, 5, 22)
        self.assertEqual(lanes[:4], [0xE531D45D, 0xF404C6FB, 0x23A0BF99, 0xF1F8452F])
        self.assertEqual(lanes[24], 0x11EFE996)

    def test_keccak_f_200_of_zero(self):
        lanes = keyak.keccak_p_lanes([0] * 25, 3, 18)
        self.assertEqual(bytes(lanes).hex(),
                         "3c2826841cb35c171eaae9b811134ceaa3852c69d2c5abafea")

    def test_round_constants(self):
        self.assertEqual([keyak.round_constant(i, 6) for i in (0, 1, 2, 12, 23)],
                         [1, 0x8082, 0x800000000000808A, 0x8000808B, 0x8000000080008008])
        self.assertEqual([keyak.rc(t) for t in range(8)], [1, 0, 0, 0, 0, 0, 0, 0])
        self.assertEqual(keyak.rc(8), 1)

    def test_register_has_period_255(self):
        ones = [keyak.rc(t) for t in range(255)]
        self.assertEqual(sum(ones), 128)

    def test_rho_offsets(self):
        rows = [[keyak.rho_offset(x, y) % 64 for x in range(5)] for y in range(5)]
        self.assertEqual(rows, [[0, 1, 62, 28, 27], [36, 44, 6, 55, 20], [3, 10, 43, 25, 39],
                                [41, 45, 15, 21, 8], [18, 2, 61, 56, 14]])

    def compare_lanes_with_bits(self, l, rounds, seed=0):
        w = 2 ** l
        dice = random.Random(10000 * seed + 100 * l + rounds)
        lanes = [dice.getrandbits(w) for _ in range(25)]
        bits = [lane >> z & 1 for lane in lanes for z in range(w)]
        out = keyak.keccak_p_bits(bits, l, rounds)
        packed = [sum(out[w * k + z] << z for z in range(w)) for k in range(25)]
        self.assertEqual(keyak.keccak_p_lanes(lanes, l, rounds), packed, (l, rounds))

    def test_lanes_equal_bits_at_every_round_count(self):
        for l in (4, 5, 6):
            for rounds in range(12 + 2 * l + 1):
                self.compare_lanes_with_bits(l, rounds)

    def test_lanes_equal_bits_at_small_widths(self):
        for l in (0, 1, 2, 3):
            self.compare_lanes_with_bits(l, 12)
            self.compare_lanes_with_bits(l, 12 + 2 * l)

    def test_lanes_equal_bits_on_more_states(self):
        for l in (4, 5, 6):
            for seed in range(1, 6):
                self.compare_lanes_with_bits(l, 12, seed)

    def test_bytes_and_bits_and_lanes(self):
        state = some_bytes(random.Random(5), 200)
        bits = keyak.bytes_to_bits(state)
        lanes = keyak.bytes_to_lanes(state, 8)
        self.assertEqual(keyak.bits_to_bytes(bits), state)
        self.assertEqual(keyak.lanes_to_bytes(lanes, 8), state)
        self.assertEqual([lanes[k] >> z & 1 for k in range(25) for z in range(64)], bits)


class Parameters(unittest.TestCase):
    def test_rates_and_key_pack(self):
        for instance in ALL:
            motorist = instance.motorist()
            expected = (68, 96, 36) if instance is RIVER else (168, 192, 40)
            self.assertEqual((motorist.Rs, motorist.Ra, instance.lk), expected)
            self.assertEqual(motorist.chain, 256)
            self.assertEqual(instance.W, 32 if instance is RIVER else 64)

    def test_rules_beside_the_named_instances(self):
        self.assertEqual([keyak.key_pack_length(c, 64) for c in (247, 248, 256)], [32, 40, 40])
        self.assertEqual([keyak.squeezing_rate(1600, 64, c) for c in (0, 32, 33, 512)],
                         [192, 192, 192, 136])
        self.assertEqual([keyak.chaining_bits(c, 64) for c in (256, 257)], [256, 320])
        self.assertEqual([keyak.alignment(b) for b in (100, 200, 400, 800)], [8, 8, 16, 32])

    def test_numbers_of_pistons(self):
        self.assertEqual([len(i.motorist().engine.pistons) for i in ALL], [1, 1, 2, 4, 8])

    def test_refused_parameters(self):
        f = keyak.keccak_p(1600, 12)
        for pistons, W, c, tau in ((0, 64, 256, 128), (256, 64, 256, 128), (1, 12, 256, 128),
                                   (1, 64, 1024, 128), (1, 64, 256, 100), (1, 64, 256, 320)):
            with self.assertRaises(ValueError):
                keyak.Motorist(f, 1600, pistons, W, c, tau)

    def test_key_pack_example(self):
        self.assertEqual(keyak.keypack(bytes.fromhex("0123456789ABCDEF"), 18),
                         bytes.fromhex("120123456789ABCDEF01") + bytes(8))

    def test_key_pack_lengths(self):
        for instance in ALL:
            for length in range(0, instance.lk - 1):
                pack = keyak.keypack(b"\xAA" * length, instance.lk)
                self.assertEqual(len(pack), instance.lk)
                self.assertEqual(pack, bytes([instance.lk]) + b"\xAA" * length + b"\x01"
                                 + bytes(instance.lk - length - 2))
            with self.assertRaises(ValueError):
                keyak.keypack(b"\xAA" * (instance.lk - 1), instance.lk)


class OnePiston(unittest.TestCase):
    """Algorithm 1 by itself, with an f that does nothing."""

    def setUp(self):
        self.piston = keyak.Piston(lambda s: s, 800, 68, 96)

    def block(self):
        self.piston.spark()
        return self.piston.blocks[-1]

    def test_inject_ends_both_offsets(self):
        self.piston.load(bytes(100), 16)
        self.piston.inject(ByteStream(b"m"))
        self.assertEqual((self.piston.omega_C, self.piston.omega_I), (0, 0))

    def test_crypt_starts_behind_the_tag(self):
        self.piston.get_tag(ByteStream(), 16)
        self.piston.crypt(ByteStream(b"xy"), ByteStream(), False)
        self.piston.inject(ByteStream(b"m"))
        block = self.block()
        self.assertEqual(block[:18], bytes(16) + b"xy")
        self.assertEqual(block[18:96], bytes(50) + b"m" + bytes(27))
        self.assertEqual(block[96:], bytes([0, 18, 68, 69]))

    def test_spark_sets_no_eom(self):
        self.assertEqual(self.block(), bytes(100))

    def test_get_tag_sets_eom(self):
        for length, eom in ((0, 255), (16, 16), (68, 68)):
            T = ByteStream()
            self.piston.get_tag(T, length)
            self.assertEqual(self.piston.blocks[-1], bytes(96) + bytes([eom, 0, 0, 0]))
            self.assertEqual((len(T.content()), self.piston.omega_C), (length, length))
        with self.assertRaises(ValueError):
            self.piston.get_tag(ByteStream(), 69)

    def test_both_directions_leave_one_state(self):
        state, text, O, P = bytes(range(100, 200)), b"forty", ByteStream(), ByteStream()
        other = keyak.Piston(lambda s: s, 800, 68, 96)
        for piston in (self.piston, other):
            piston.load(state, 16)
        self.piston.crypt(ByteStream(text), O, False)
        self.assertEqual(O.content(), bytes(x ^ y for x, y in zip(text, state[16:])))
        other.crypt(ByteStream(O.content()), P, True)
        self.assertEqual(P.content(), text)
        self.assertEqual(self.piston.s, other.s)


def start_plan(instance, nonce_length, tag, forget=False):
    return started(instance, nonce_length, tag, forget).offsets()


def message_plan(instance, text_length, metadata_length, forget=False, tag=True):
    motorist = from_here(started(instance, tag=tag))
    wrapped(motorist, bytes(text_length), bytes(metadata_length), forget)
    return motorist.offsets()


class Plans(unittest.TestCase):
    """The plans worked by hand, as (crypt end, inject start, inject end, EOM)."""

    def test_b1(self):
        self.assertEqual(start_plan(LAKE, 150, True), [(0, 0, 192, 16)])

    def test_b2(self):
        self.assertEqual(start_plan(LAKE, 151, True), [(0, 0, 192, 0), (0, 0, 1, 16)])

    def test_b3(self):
        self.assertEqual(start_plan(LAKE, 0, False), [(0, 0, 42, 255)])

    def test_b4(self):
        self.assertEqual(start_plan(LAKE, 0, False, True), [(0, 0, 42, 32), (0, 0, 32, 255)])

    def test_b5(self):
        self.assertEqual(message_plan(LAKE, 0, 0), [(0, 0, 0, 16)])

    def test_b6(self):
        self.assertEqual(message_plan(LAKE, 152, 24), [(168, 168, 192, 16)])

    def test_b7(self):
        self.assertEqual(message_plan(LAKE, 153, 0), [(168, 168, 168, 0), (1, 168, 168, 16)])

    def test_b8(self):
        self.assertEqual(message_plan(LAKE, 152, 25), [(168, 168, 192, 0), (0, 0, 1, 16)])

    def test_b9(self):
        self.assertEqual(message_plan(LAKE, 0, 192), [(0, 0, 192, 16)])

    def test_b10(self):
        self.assertEqual(message_plan(LAKE, 200, 30, True),
                         [(168, 168, 192, 0), (48, 168, 174, 32), (0, 0, 32, 16)])

    def test_b11(self):
        self.assertEqual(message_plan(LAKE, 168, 0, tag=False), [(168, 168, 168, 16)])

    def test_b12(self):
        self.assertEqual(start_plan(RIVER, 58, True), [(0, 0, 96, 16)])

    def test_b13(self):
        self.assertEqual(message_plan(RIVER, 53, 29), [(68, 68, 96, 0), (1, 68, 69, 16)])


def ceiling(n, d):
    return (n + d - 1) // d


class RunCounts(unittest.TestCase):
    def count(self, instance, text_length, metadata_length):
        """Blocks of one message after a tag. They do not depend on f: f does nothing."""
        motorist = keyak.Motorist(lambda s: s, instance.b, 1, instance.W, 256, 128)
        motorist.resume([bytes(instance.b // 8)], 16)
        wrapped(motorist, bytes(text_length), bytes(metadata_length))
        return motorist.runs()

    def test_formula(self):
        for instance, Rs, Ra in ((LAKE, 168, 192), (RIVER, 68, 96)):
            for p in sorted({0, 1, 2, *range(Rs - 18, Rs + 2), *range(2 * Rs - 18, 2 * Rs + 2),
                             700}):
                for a in sorted({0, 1, *range(Ra - Rs - 2, Ra - Rs + 3), *range(Ra - 2, Ra + 3),
                                 *range(2 * Ra - Rs - 2, 2 * Ra - Rs + 3), 700}):
                    u = ceiling(p + 16, Rs) if p else 0
                    v = ceiling(max(0, a - (Ra - Rs) * u), Ra)
                    self.assertEqual(self.count(instance, p, a), max(1, u + v), (p, a))

    def test_formula_at_the_limits(self):
        self.assertEqual(self.count(LAKE, 65535, 0), 391)
        self.assertEqual(self.count(LAKE, 0, 65535), 342)
        self.assertEqual(self.count(LAKE, 65535, 65535), 391 + ceiling(65535 - 24 * 391, 192))


class BlockRule:
    """Paper 01's own wording of the blocks for one Piston, written a second time."""

    def __init__(self, instance):
        motorist = instance.motorist()
        self.instance, self.Rs, self.Ra = instance, motorist.Rs, motorist.Ra
        self.state, self.text_start, self.blocks = bytes(instance.b // 8), 0, []

    def add(self, start, text, metadata, eom):
        """One block; answers the ciphertext of its text."""
        block = bytearray(len(self.state))
        inject = self.Rs if text else 0
        block[start:start + len(text)] = text
        block[inject:inject + len(metadata)] = metadata
        block[self.Ra:self.Ra + 4] = bytes([eom, start + len(text) if text else 0, inject,
                                            inject + len(metadata)])
        mixed = bytes(x ^ y for x, y in zip(self.state, block))
        self.blocks.append(bytes(block))
        self.state = bytes(self.instance.f(mixed))
        return mixed[start:start + len(text)]

    def group(self, parts, forget, eom):
        ciphertext = b""
        for i, (start, text, metadata) in enumerate(parts):
            last = 32 if forget else eom
            ciphertext += self.add(start, text, metadata, last if i == len(parts) - 1 else 0)
        if forget:
            self.add(0, b"", self.state[:32], eom)
        self.text_start = 16 if eom == 16 else 0
        return ciphertext

    def start(self, key, nonce, tag, forget):
        pack = bytes([self.instance.lk]) + key + b"\x01"
        pack += bytes(self.instance.lk - len(pack))
        whole = pack + nonce + b"\x01\x00"
        parts = [(0, b"", whole[k:k + self.Ra]) for k in range(0, len(whole), self.Ra)]
        self.group(parts, forget, 16 if tag else 255)
        return self.state[:16]

    def message(self, text, metadata, forget):
        parts, start = [], self.text_start
        while text:
            n, m = self.Rs - start, self.Ra - self.Rs
            parts.append((start, text[:n], metadata[:m]))
            text, metadata, start = text[n:], metadata[m:], 0
        while metadata:
            parts.append((0, b"", metadata[:self.Ra]))
            metadata = metadata[self.Ra:]
        ciphertext = self.group(parts or [(0, b"", b"")], forget, 16)
        return ciphertext, self.state[:16]


class StreamsAndBlocks(unittest.TestCase):
    """003's streams and 01's blocks give the same, byte for byte."""

    def one_session(self, instance, dice):
        key, nonce = some_bytes(dice, dice.randrange(16, 33)), some_bytes(dice, dice.randrange(250))
        tag, forget = dice.random() < 0.5, dice.random() < 0.5
        rule, motorist = BlockRule(instance), instance.motorist()
        T = ByteStream()
        motorist.start_engine(instance.suv(key, nonce), tag, T, False, forget)
        first = rule.start(key, nonce, tag, forget)
        self.assertEqual(T.content(), first if tag else b"")
        for _ in range(4):
            text, metadata = (some_bytes(dice, dice.choice((0, dice.randrange(500))))
                              for _ in range(2))
            forget = dice.random() < 0.5
            self.assertEqual(wrapped(motorist, text, metadata, forget),
                             rule.message(text, metadata, forget))
        self.assertEqual(motorist.logs(), [rule.blocks])
        self.assertEqual(motorist.states(), [rule.state])
        self.assertEqual(motorist.text_start(), rule.text_start)

    def test_random_sessions(self):
        for instance in ONE_PISTON:
            for seed in range(20):
                self.one_session(instance, random.Random(seed))

    def test_log_is_what_was_added(self):
        """Adding the logged blocks to the zero state and applying f gives the state."""
        for instance in ALL:
            motorist = started(instance, 200, True, True)
            wrapped(motorist, bytes(range(250)) * 9, b"metadata" * 90)
            for piston, blocks in enumerate(motorist.logs()):
                state = bytes(instance.b // 8)
                for block in blocks:
                    state = instance.f(bytes(x ^ y for x, y in zip(state, block)))
                self.assertEqual(bytes(state), motorist.states()[piston])


class Figures(unittest.TestCase):
    """The figures of 003, for Lake's width."""

    def test_figure_5(self):
        motorist = started(LAKE, 100)
        block = motorist.logs()[0][0]
        self.assertEqual(block[140:142], b"\x01\x00")
        self.assertEqual(block[142:192], bytes(50))
        self.assertEqual(motorist.offsets(), [(0, 0, 142, 16)])

    def test_figure_6(self):
        for instance in (SEA, OCEAN, LUNAR):
            motorist = started(instance, 100)
            for i in range(instance.Pi):
                block = motorist.logs()[i][0]
                self.assertEqual(block[0], 40)
                self.assertEqual(block[140:142], bytes([instance.Pi, i]))
                self.assertEqual(block[142:192], bytes(50))
                self.assertEqual(motorist.offsets(i), [(0, 0, 142, 16 if i == 0 else 255)])

    def test_figure_6_without_tag(self):
        motorist = started(OCEAN, 100, tag=False)
        for i in range(4):
            self.assertEqual(motorist.offsets(i), [(0, 0, 142, 255)])
        self.assertEqual(motorist.text_start(), 0)

    def test_figure_7(self):
        motorist = from_here(started(LAKE))
        wrapped(motorist, bytes(152 + 168 + 20), b"a" * (3 * 24 + 192 + 9))
        self.assertEqual(motorist.offsets(), [(168, 168, 192, 0), (168, 168, 192, 0),
                                              (20, 168, 192, 0), (0, 0, 192, 0), (0, 0, 9, 16)])

    def test_figure_8(self):
        motorist = from_here(started(LAKE))
        text = bytes(i % 256 for i in range(152 + 168 + 168 + 30))
        wrapped(motorist, text, b"a" * 40)
        self.assertEqual(motorist.offsets(), [(168, 168, 192, 0), (168, 168, 184, 0),
                                              (168, 168, 168, 0), (30, 168, 168, 16)])
        blocks = motorist.logs()[0]
        self.assertEqual(blocks[0][:168], bytes(16) + text[:152])
        self.assertEqual(blocks[1][:192], text[152:320] + b"a" * 16 + bytes(8))

    def test_figure_9(self):
        motorist = from_here(started(LAKE))
        wrapped(motorist, b"", b"a" * 192 + b"b" * 10)
        self.assertEqual(motorist.offsets(), [(0, 0, 192, 0), (0, 0, 10, 16)])
        self.assertEqual(motorist.logs()[0][0][:192], b"a" * 192)

    def test_figure_10(self):
        motorist = started(LAKE, 20, tag=False)
        for text in (b"p" * 168, b"q" * 152, b"r" * 7):
            wrapped(motorist, text, b"a" * 24)
        self.assertEqual(motorist.offsets(), [(0, 0, 62, 255), (168, 168, 192, 16),
                                              (168, 168, 192, 16), (23, 168, 192, 16)])
        blocks = motorist.logs()[0]
        self.assertEqual(blocks[1][:168], b"p" * 168)
        self.assertEqual(blocks[2][:168], bytes(16) + b"q" * 152)

    def test_figure_11(self):
        Rs, Ra, dice = 168, 192, random.Random(11)
        P = [some_bytes(dice, n) for n in (Rs - 16, Rs, Rs, Rs, Rs, 70)]
        A = [some_bytes(dice, n) for n in (24, 24, 24, 24, 24, 24, 13)]
        motorist = from_here(started(OCEAN))
        wrapped(motorist, b"".join(P), b"".join(A))
        self.assertEqual([motorist.offsets(i) for i in range(4)], [
            [(Rs, Rs, Ra, 0), (Rs, Rs, Ra, 32), (0, 0, 128, 16)],
            [(Rs, Rs, Ra, 0), (70, Rs, Ra, 32), (0, 0, 128, 255)],
            [(Rs, Rs, Ra, 0), (0, Rs, Rs + 13, 32), (0, 0, 128, 255)],
            [(Rs, Rs, Ra, 0), (0, Rs, Rs, 32), (0, 0, 128, 255)]])
        self.figure_11_contents(motorist, P, A)

    def figure_11_contents(self, motorist, P, A):
        logs = motorist.logs()
        first = [bytes(16) + P[0], P[1], P[2], P[3]]
        second = [P[4], P[5] + bytes(98), bytes(168), bytes(168)]
        metadata = A[4:6] + [A[6] + bytes(11), bytes(24)]
        for i in range(4):
            self.assertEqual(logs[i][0][:192], first[i] + A[i])
            self.assertEqual(logs[i][1][:192], second[i] + metadata[i])
            self.assertEqual(logs[i][2][:192], logs[0][2][:192])
        self.figure_11_knot(logs)

    def figure_11_knot(self, logs):
        """The 128 bytes are the four chaining values, found from the logs alone."""
        chain = b""
        start = started(OCEAN)
        for i in range(4):
            state = start.states()[i]
            for block in logs[i][:2]:
                state = OCEAN.f(bytes(x ^ y for x, y in zip(state, block)))
            chain += bytes(state[:32])
        self.assertEqual(logs[0][2][:192], chain + bytes(64))

    def test_short_text_on_several_pistons(self):
        """Text for Piston 0 only: the others have crypt end 0 and inject start Rs."""
        motorist = from_here(started(SEA))
        wrapped(motorist, b"xyz", b"")
        self.assertEqual(motorist.offsets(0), [(19, 168, 168, 32), (0, 0, 64, 16)])
        self.assertEqual(motorist.offsets(1), [(0, 168, 168, 32), (0, 0, 64, 255)])

    def test_knot_longer_than_a_block(self):
        """Eight chaining values are 256 bytes: two blocks."""
        motorist = from_here(started(LUNAR))
        wrapped(motorist, b"", b"")
        self.assertEqual(motorist.offsets(0), [(0, 0, 0, 32), (0, 0, 192, 0), (0, 0, 64, 16)])
        self.assertEqual(motorist.offsets(7), [(0, 0, 0, 32), (0, 0, 192, 0), (0, 0, 64, 255)])

    def test_start_forgetting_is_a_choice_for_all(self):
        for instance in ALL:
            plain, knotted = started(instance, 10), started(instance, 10, forget=True)
            self.assertEqual(plain.runs(), 1)
            self.assertEqual(knotted.runs(), 3 if instance is LUNAR else 2)

    def test_message_forgetting_is_no_choice_for_several(self):
        for instance in ALL:
            a, b = started(instance), started(instance)
            same = wrapped(a, b"text", b"", False) == wrapped(b, b"text", b"", True)
            self.assertEqual(same, instance.Pi > 1)


class RoundTrips(unittest.TestCase):
    def start_pair(self, instance, dice):
        key, nonce = some_bytes(dice, 16), some_bytes(dice, dice.randrange(300))
        ends, forget, T = (instance.motorist(), instance.motorist()), dice.random() < 0.5, ByteStream()
        ends[0].start_engine(instance.suv(key, nonce), True, T, False, forget)
        self.assertTrue(ends[1].start_engine(instance.suv(key, nonce), True, T, True, forget))
        return ends

    def one_session(self, instance, dice):
        ends = self.start_pair(instance, dice)
        for turn in range(4):
            speaker, hearer = dice.sample(ends, 2)
            text = some_bytes(dice, dice.choice((0, 1, dice.randrange(600 * instance.Pi))))
            metadata = some_bytes(dice, dice.choice((0, 1, dice.randrange(300 * instance.Pi))))
            forget = dice.random() < 0.5
            ciphertext, tag = wrapped(speaker, text, metadata, forget)
            self.assertEqual(len(ciphertext), len(text))
            self.assertEqual(len(tag), 16)
            self.assertEqual(unwrapped(hearer, ciphertext, metadata, tag, forget), (text, True))
            self.assertEqual(speaker.states(), hearer.states())
            self.assertEqual(speaker.logs(), hearer.logs())
        self.wrong_end(ends, dice)

    def wrong_end(self, ends, dice):
        ciphertext, tag = wrapped(ends[0], b"text", b"metadata")
        bad = bytes([ciphertext[0] ^ 1]) + ciphertext[1:]
        self.assertEqual(unwrapped(ends[1], bad, b"metadata", tag), (b"", False))
        with self.assertRaises(keyak.PhaseError):
            wrapped(ends[1], b"", b"")

    def test_random_sessions(self):
        for instance in ALL:
            for seed in range(4):
                self.one_session(instance, random.Random(seed))

    def test_resumed_sessions_go_on_alike(self):
        for instance in ALL:
            dice = random.Random(instance.Pi)
            going, resumed = started(instance), started(instance)
            for _ in range(4):
                fresh = instance.motorist()
                fresh.resume(resumed.states(), resumed.text_start())
                text, metadata = some_bytes(dice, 333), some_bytes(dice, 222)
                self.assertEqual(wrapped(going, text, metadata), wrapped(fresh, text, metadata))
                resumed = fresh
            self.assertEqual(going.states(), resumed.states())

    def test_start_only_once(self):
        for instance in ALL:
            with self.assertRaises(keyak.PhaseError):
                started(instance).start_engine(instance.suv(bytes(16), b""), True,
                                               ByteStream(), False, False)

    def test_instances_differ(self):
        tags = {wrapped(started(instance), b"same", b"same")[1] for instance in ALL}
        self.assertEqual(len(tags), 5)

    def test_tag_bytes_are_no_key_stream(self):
        motorist = started(LAKE)
        state = motorist.states()[0]
        ciphertext, _ = wrapped(motorist, bytes(152), b"")
        self.assertEqual(ciphertext, state[16:168])


class Table(unittest.TestCase):
    """Refusals, and what they leave."""

    key, nonce = bytes(range(16)), b"nonce"

    def begin(self, instance, use=PRODUCED, forget=False):
        tag = bytearray(16)
        if use == CHECKED:
            table.start(instance, self.key, self.nonce, PRODUCED, tag, forget)
        record, answer = table.start(instance, self.key, self.nonce, use, tag, forget)
        self.assertEqual(answer, Answer(0, 0, 2 if forget else 1))
        return record

    def refused_start(self, instance, number, key, nonce, use, tag):
        lent = bytearray(tag)
        record, answer = table.start(instance, key, nonce, use, lent, False)
        self.assertEqual(answer, Answer(number, 0, 0))
        self.assertEqual(lent, tag)
        self.assertEqual(record, Record((0,) * 25, 0, 0))

    def test_start_refusals(self):
        good = bytes(16)
        for instance in ONE_PISTON:
            for use in (NO_TAG, PRODUCED, CHECKED):
                for length in (0, 15, 33):
                    self.refused_start(instance, 2, bytes(length), bytes(1025), use, good[:9])
                self.refused_start(instance, 3, good, bytes(1025), use, good[:9])
            for use in (PRODUCED, CHECKED):
                for length in (0, 15, 17):
                    self.refused_start(instance, 7, good, bytes(1024), use, bytes(length))

    def test_start_limits_that_are_done(self):
        for instance in ONE_PISTON:
            for key, nonce in ((16, 0), (32, 1024)):
                tag = bytearray(b"t" * 16)
                record, answer = table.start(instance, bytes(key), bytes(nonce), PRODUCED, tag,
                                             False)
                self.assertEqual((answer.number, answer.written), (0, 0))
                self.assertEqual((record.phase, record.text_start), (1, 16))
                lane = instance.W // 8
                self.assertEqual(tag, keyak.lanes_to_bytes(record.lanes, lane)[:16])

    def test_start_without_tag_leaves_the_tag_buffer(self):
        for instance in ONE_PISTON:
            for length in (0, 15, 16, 17):
                lent = bytearray(b"t" * length)
                record, answer = table.start(instance, self.key, b"", NO_TAG, lent, False)
                self.assertEqual(answer, Answer(0, 0, 1))
                self.assertEqual(lent, b"t" * length)
                self.assertEqual((record.phase, record.text_start), (1, 0))

    def test_produced_and_checked_starts_are_one_session(self):
        for instance in ONE_PISTON:
            self.assertEqual(self.begin(instance, PRODUCED), self.begin(instance, CHECKED))
            self.assertNotEqual(self.begin(instance, PRODUCED).lanes,
                                self.begin(instance, NO_TAG).lanes)

    def test_wrong_start_tag(self):
        for instance in ONE_PISTON:
            tag = bytearray(16)
            table.start(instance, self.key, self.nonce, PRODUCED, tag, False)
            for place in range(16):
                wrong = bytearray(tag)
                wrong[place] ^= 1 << place % 8
                kept = bytes(wrong)
                record, answer = table.start(instance, self.key, self.nonce, CHECKED, wrong, False)
                self.assertEqual(answer, Answer(8, 0, 0))
                self.assertEqual(record, Record((0,) * 25, 2, 0))
                self.assertEqual(wrong, kept)

    def refused(self, instance, record, number, text, metadata, output, tag):
        """Both calls refuse, and leave record and buffers as they were."""
        for call in (table.wrap, table.unwrap):
            lent, lent_tag = bytearray(b"o" * output), bytearray(b"t" * tag)
            after, answer = call(instance, record, bytes(text), bytes(metadata), False, lent,
                                 lent_tag)
            self.assertEqual(answer, Answer(number, 0, 0))
            self.assertEqual(after, record)
            self.assertEqual((lent, lent_tag), (b"o" * output, b"t" * tag))

    def test_message_refusals_in_order(self):
        for instance in ONE_PISTON:
            record = self.begin(instance)
            self.refused(instance, record, 4, 65536, 65536, 3, 3)
            self.refused(instance, record, 4, 65536, 0, 65536, 16)
            self.refused(instance, record, 5, 65535, 65536, 3, 3)
            self.refused(instance, record, 5, 0, 65536, 0, 16)
            self.refused(instance, record, 6, 65535, 65535, 65534, 3)
            self.refused(instance, record, 6, 1, 0, 0, 16)
            for tag in (0, 15, 17):
                self.refused(instance, record, 7, 5, 0, 5, tag)

    def test_not_riding(self):
        for instance in ONE_PISTON:
            record = self.begin(instance)
            for phase, text_start in ((0, 0), (2, 0), (0, 16), (2, 16), (1, 8), (1, 1), (1, 15),
                                      (1, 17), (0, 8), (2, 8)):
                given = record._replace(phase=phase, text_start=text_start)
                self.refused(instance, given, 1, 65536, 65536, 3, 3)
                self.refused(instance, given, 1, 0, 0, 0, 16)
            self.refused(instance, table.unstarted(instance), 1, 1, 1, 1, 16)
            self.refused(instance, table.failed(instance), 1, 1, 1, 1, 16)

    def test_done_writes_the_front_only(self):
        for instance in ONE_PISTON:
            for use in (NO_TAG, PRODUCED):
                record = self.begin(instance, use)
                text = bytes(range(200))
                lent, tag = bytearray(b"o" * 230), bytearray(16)
                sent, answer = table.wrap(instance, record, text, b"meta", True, lent, tag)
                self.assertEqual((answer.number, answer.written), (0, 200))
                self.assertEqual((len(lent), lent[200:]), (230, b"o" * 30))
                self.unwrapped_again(instance, record, sent, answer, text, lent, tag)

    def unwrapped_again(self, instance, record, sent, answer, text, lent, tag):
        back, kept = bytearray(b"b" * 201), bytes(tag)
        got, reply = table.unwrap(instance, record, bytes(lent[:200]), b"meta", True, back, tag)
        self.assertEqual(reply, answer)
        self.assertEqual(got, sent)
        self.assertEqual((got.phase, got.text_start), (1, 16))
        self.assertEqual(back, text + b"b")
        self.assertEqual(tag, kept)

    def test_wrong_tag(self):
        for instance in ONE_PISTON:
            record = self.begin(instance)
            output, tag = bytearray(200), bytearray(16)
            table.wrap(instance, record, b"p" * 200, b"m" * 30, False, output, tag)
            for part in ("text", "metadata", "tag", "forget"):
                self.wrong_message(instance, record, part, bytes(output), bytes(tag))

    def wrong_message(self, instance, record, part, text, tag):
        given = {"text": text, "metadata": b"m" * 30, "tag": tag}
        if part != "forget":
            given[part] = book.xor_at(given[part], len(given[part]) - 1, 128)
        lent, lent_tag = bytearray(b"o" * 207), bytearray(given["tag"])
        after, answer = table.unwrap(instance, record, given["text"], given["metadata"],
                                     part == "forget", lent, lent_tag)
        self.assertEqual(answer, Answer(8, 0, 0))
        self.assertEqual(after, Record((0,) * 25, 2, 0))
        self.assertEqual(lent, bytes(200) + b"o" * 7)
        self.assertEqual(lent_tag, given["tag"])

    def test_permutation_call(self):
        for instance, most in ((LAKE, 24), (RIVER, 22)):
            lanes = tuple(range(25))
            for rounds in (0, most + 1, 255):
                self.assertEqual(table.permute(instance, lanes, rounds), (lanes, 0))
            for rounds in (1, 12, most):
                after, done = table.permute(instance, lanes, rounds)
                self.assertEqual(done, rounds)
                self.assertNotEqual(after, lanes)

    def test_records_of_several_pistons(self):
        for instance in (SEA, OCEAN, LUNAR):
            record = self.begin_several(instance)
            output, tag, back = bytearray(900), bytearray(16), bytearray(900)
            sent, one = table.wrap(instance, record, b"p" * 900, b"m" * 99, False, output, tag)
            got, two = table.unwrap(instance, record, output, b"m" * 99, False, back, tag)
            self.assertEqual((one, sent, back), (two, got, b"p" * 900))
            self.assertEqual(len(sent.lanes), 25 * instance.Pi)

    def begin_several(self, instance):
        record, answer = table.start(instance, self.key, self.nonce, NO_TAG, bytearray(), False)
        self.assertEqual(answer, Answer(0, 0, 1))
        return record


class Readings(unittest.TestCase):
    """The dip's readings by hand: bytes, limits, refusals in order, the index, and what is left."""

    MONTH = [2000000, -2000000, -2147483648, -1, 66051]
    BYTES = bytes.fromhex("80841e00 807be1ff 00000080 ffffffff 03020100")

    def both(self, number, index, count, run, content):
        """Both calls answer this; what is refused leaves all as it was, what is done changes the front alone."""
        into, out = [9] * len(run), bytearray(b"o" * len(content))
        for answer in (dip.read(count, content, into), dip.write(count, run, out)):
            self.assertEqual(answer, (number, index))
        done = number == 0
        self.assertEqual(into, run[:count] + [9] * (len(run) - count) if done else [9] * len(run))
        self.assertEqual(out, content if done else b"o" * len(content))

    def test_month_by_hand(self):
        self.both(0, 0, 5, self.MONTH, self.BYTES)
        self.both(0, 0, 5, self.MONTH + [7, 2000001], self.BYTES)
        self.both(0, 0, 0, [], b"")
        self.both(0, 0, 0, [2000001], b"")
        self.both(0, 0, 31, [-2147483648] * 31, bytes.fromhex("00000080") * 31)

    def test_limits(self):
        for number, content in ((2000001, "81841e00"), (-2000001, "7f7be1ff"), (2147483647, "ffffff7f"),
                                (-2147483647, "01000080")):
            for place in range(5):
                run = self.MONTH[:place] + [number] + self.MONTH[place + 1:]
                changed = self.BYTES[:4 * place] + bytes.fromhex(content) + self.BYTES[4 * place + 4:]
                self.both(16, place, 5, run, changed)
                self.both(0, 0, place, run, changed[:4 * place])

    def test_first_of_several(self):
        out = bytes.fromhex("ffffff7f")
        self.both(16, 0, 31, [2147483647] * 31, out * 31)
        for first in range(31):
            for last in range(first, 31):
                run = [-2147483648] * 31
                run[first] = run[last] = 2147483647
                content = b"".join(out if number > 0 else b"\0\0\0\x80" for number in run)
                self.both(16, first, 31, run, content)

    def test_refusals_in_order(self):
        out = bytes.fromhex("81841e00")
        for number, count, room, size in (
                (6, 33, 32, 131), (6, 32, 31, 128), (6, 2, 1, 8), (6, 2, 1, 7), (6, 99999999999999, 31, 124),
                (13, 32, 32, 127), (13, 32, 32, 128), (13, 40, 41, 160), (15, 31, 31, 123), (15, 31, 32, 125),
                (15, 2, 2, 4), (15, 2, 3, 12), (15, 0, 0, 1), (15, 0, 1, 4)):
            self.both(number, 0, count, [2000001] * room, (out * 41)[:size])


# ---------------------------------------------------------------------------
# The data file, read back by the rules in its head.
# ---------------------------------------------------------------------------


class Line:
    """The words of one line, taken one after the other; untold: a result may be a dash."""

    def __init__(self, text, untold=False):
        self.words, self.untold = text.split(" "), untold

    def take(self):
        return self.words.pop(0)

    def number(self):
        return int(self.take())

    def hex(self):
        word = self.take()
        return b"" if word == "-" else bytes.fromhex(word)

    def given(self):
        length, a, b, place = (self.number() for _ in range(4))
        row = 29 if a else 0
        content = bytearray((a * i + b + row * (i // 256)) % 256 for i in range(length))
        shown = self.hex()
        content[place:place + len(shown)] = shown
        if len(content) != length:
            raise AssertionError("length")
        return bytes(content)

    def counts(self, number):
        """Whether a number is this one, or left untold."""
        if self.untold and self.words[0] == "-":
            return self.take() == "-"
        return self.number() == number

    def agrees(self, content):
        """Whether five words are these bytes, all of them, or left untold."""
        if self.untold and self.words[0] == "-":
            return [self.take() for _ in range(5)] == ["-"] * 5
        return self.given() == bytes(content)


class Replay:
    """Makes each call of the file and compares all it says."""

    def __init__(self, case, untold=False):
        self.case, self.record, self.instance, self.untold = case, None, None, untold

    def step(self, line):
        kind = line.take()
        {"hold": self.hold, "start": self.start, "permute": self.permute,
         "wrap": lambda line: self.message(table.wrap, line),
         "unwrap": lambda line: self.message(table.unwrap, line)}[kind](line)
        self.case.assertEqual(line.words, [])

    def hold(self, line):
        state = line.given()
        lanes = tuple(keyak.bytes_to_lanes(state, self.instance.W // 8)) or self.record.lanes
        self.record = Record(lanes, line.number(), line.number())

    def start(self, line):
        key, nonce, use, forget = line.given(), line.given(), line.number(), line.number()
        tag = bytearray(line.given())
        self.record, answer = table.start(self.instance, key, nonce, use, tag, bool(forget))
        self.answered(line, answer)
        self.case.assertTrue(line.agrees(tag))
        self.left(line)

    def message(self, call, line):
        text, metadata, forget = line.given(), line.given(), line.number()
        output, tag = bytearray(line.given()), bytearray(line.given())
        self.record, answer = call(self.instance, self.record, text, metadata, bool(forget),
                                   output, tag)
        self.answered(line, answer)
        self.case.assertTrue(line.agrees(output))
        self.case.assertTrue(line.agrees(tag))
        self.left(line)

    def permute(self, line):
        lanes, done = table.permute(self.instance, self.record.lanes, line.number())
        self.record = self.record._replace(lanes=lanes)
        self.case.assertTrue(line.counts(done))
        self.left(line)

    def answered(self, line, answer):
        for number in answer:
            self.case.assertTrue(line.counts(number))

    def left(self, line):
        lanes = keyak.lanes_to_bytes(self.record.lanes, self.instance.W // 8)
        self.case.assertTrue(line.agrees(lanes))
        self.case.assertTrue(line.counts(self.record.phase))
        self.case.assertTrue(line.counts(self.record.text_start))

    def whole_file(self, text):
        """The sessions, each with its number; the calls counted."""
        lines = iter(row for row in text.split("\n")[:-1] if not row.startswith("#"))
        sessions_seen = calls = 0
        for row in lines:
            line = Line(row, self.untold)
            kind = line.words[0]
            if kind == "end":
                line.take()
                self.case.assertEqual((line.number(), line.number()), (sessions_seen, calls))
                self.case.assertEqual(list(lines), [])
                return sessions_seen
            if kind in ("lake", "river"):
                line.take()
                sessions_seen += 1
                self.case.assertEqual(line.number(), sessions_seen)
                self.instance = {"lake": LAKE, "river": RIVER}[kind]
                self.record = table.unstarted(self.instance)
            else:
                self.step(line)
                calls += kind != "hold"
        self.case.fail("no end line")


class DataFile(unittest.TestCase):
    @classmethod
    def setUpClass(cls):
        cls.text, cls.random = sessions.whole_file(), sessions.random_file()

    def run_main(self, content):
        """sessions.py --check on a folder whose sessions.txt has this content."""
        with tempfile.TemporaryDirectory() as folder, \
                mock.patch.object(sessions, "whole_file", return_value=self.text), \
                mock.patch.object(sessions, "random_file", return_value=self.random), \
                mock.patch.object(wrongs, "late_file", return_value="late"):
            with redirect_stdout(io.StringIO()):
                stored.write(sessions.files(), folder)
                with open(os.path.join(folder, "sessions.txt"), "w", encoding="ascii",
                          newline="") as file:
                    file.write(content)
                return stored.main(sessions.files, "", ["--check", folder])

    def test_replay(self):
        self.assertGreaterEqual(Replay(self).whole_file(self.text), 400)

    def test_replay_random(self):
        self.assertGreaterEqual(Replay(self).whole_file(self.random), 290)

    def test_sample_and_wrong_byte(self):
        sample = sessions.sample_file()
        self.assertEqual(Replay(self, untold=True).whole_file(sample), 4)
        wrong = wrongs.wrong_file(sample)
        self.assertEqual(sum(a != b for a, b in zip(sample, wrong)), 1)
        with self.assertRaises(AssertionError):
            Replay(self, untold=True).whole_file(wrong)

    def test_late_byte(self):
        late = wrongs.late_file(sessions.SEED)
        with mock.patch.object(wrongs, "spoilt", side_effect=lambda line, place: line):
            right = wrongs.late_file(sessions.SEED)
        self.assertEqual(Replay(self).whole_file(right), 2)
        self.assertEqual(sum(a != b for a, b in zip(right, late)), 2)
        with self.assertRaises(AssertionError):
            Replay(self).whole_file(late)

    def test_unsound_lines(self):
        head, right, *unsound, end, note = wrongs.unsound_file(sessions.SEED).split("\n")[5:-1]
        self.assertTrue(note.startswith("#"))
        calls = sum(line.startswith("start") for line in unsound)
        self.assertEqual(end, f"end 1 {1 + calls}")
        self.assertEqual(Replay(self).whole_file(f"{head}\n{right}\nend 1 1\n"), 1)
        self.assertEqual(len({right, end, *unsound}), 2 + len(unsound))

    def test_size_and_letters(self):
        for text in (self.text, self.random):
            self.assertLess(len(text), 2000000)
            self.assertTrue(text.isascii())
            self.assertEqual(text, text.rstrip("\n") + "\n")
            self.assertNotIn("  ", "".join(row for row in text.split("\n")
                                           if not row.startswith("#")))

    def test_check_accepts_the_same(self):
        self.assertEqual(self.run_main(self.text), 0)

    def test_check_refuses_a_shorter_file(self):
        self.assertEqual(self.run_main(self.text[:-1]), 1)

    def test_check_refuses_one_digit(self):
        place = self.text.index("river 200\n") - 6
        other = "1" if self.text[place] == "0" else "0"
        changed = self.text[:place] + other + self.text[place + 1:]
        self.assertEqual(self.run_main(changed), 1)

    def test_missing_coverage_is_noticed(self):
        left_out = (sessions.long_ones, sessions.start_limits)
        kept = [family for family in sessions.FAMILIES if family not in left_out]
        with mock.patch.object(sessions, "FAMILIES", kept):
            with self.assertRaises(AssertionError) as caught:
                sessions.write_book()
        self.assertIn("('Lake', 'start', 2, 'use', 0, 'key', 33)", str(caught.exception))
        self.assertIn("('River', 'wrap', 0, 'forget', 1, 'text', 65535)", str(caught.exception))
        self.assertIn("('Lake', 'unwrap', 0, 'both', 65535, 65535)", str(caught.exception))
        self.assertNotIn("1000", str(caught.exception))

    def test_missing_tag_of_zeros_is_noticed(self):
        found = sessions.Book()
        with mock.patch.object(sessions, "FAMILIES", [sessions.known_tags]), \
                mock.patch.object(sessions, "Book", return_value=found):
            with self.assertRaises(AssertionError):
                sessions.write_book()
        for name in ("Lake", "River"):
            for kind in ("start", "unwrap"):
                fact = (name, kind, 8, "tag", "zeros")
                self.assertIn(fact, found.facts)
                self.assertIn(fact, set(sessions.required(name)))

    def test_too_few_random_sessions_are_noticed(self):
        with mock.patch.object(randoms, "SESSIONS", 152), mock.patch.object(randoms, "FIRSTS", 104):
            with self.assertRaises(AssertionError) as caught:
                sessions.random_book()
        self.assertIn("('River', 'sessions', 151, 152)", str(caught.exception))
        self.assertIn("('Lake', 'not the second end of a talk', 103, 104)",
                      str(caught.exception))

    def test_words_of_what_is_left(self):
        lent = book.pattern(300, 7, 9)
        self.assertEqual(book.seen(lent.content, lent), "300 7 9 0 -")
        self.assertEqual(book.seen(bytes(200)), "200 0 0 0 -")
        self.assertEqual(book.seen(b""), "0 0 0 0 -")
        self.assertEqual(book.seen(b"\x05\x00\xff", lent), "3 0 0 0 0500ff")
        cleared = bytes(290) + lent.content[290:]
        told = book.seen(cleared, lent)
        self.assertEqual(told, "300 0 0 290 " + lent.content[290:].hex())
        self.assertTrue(Line(told).agrees(cleared))
        self.assertFalse(Line(told).agrees(lent.content))
        like = book.pattern(290, 3, 4)
        told = book.seen(like.content + b"\x01\x02", lent, like)
        self.assertEqual(told, "292 3 4 290 0102")
        self.assertTrue(Line(told).agrees(like.content + b"\x01\x02"))

    def test_patterns(self):
        for a, b in ((0, 7), (1, 0), (255, 255), (92, 13)):
            for length in (0, 1, 256, 257, 700):
                self.assertEqual(book.expand(length, a, b),
                                 Line(f"{length} {a} {b} 0 -").given())


class WrongWords(unittest.TestCase):
    """words.txt: right but for one word a line, and each word of a result wrong somewhere."""

    @classmethod
    def setUpClass(cls):
        cls.wrong = wrongs.words_file(sessions.SEED).split("\n")[:-1]
        with mock.patch.object(wrongs.Slips, "tell", lambda self, place, word: None):
            cls.right = wrongs.words_file(sessions.SEED).split("\n")[:-1]

    def test_one_word_a_line(self):
        self.assertEqual(len(self.wrong), len(self.right))
        for wrong, right in zip(self.wrong, self.right):
            pairs = list(zip(wrong.split(" "), right.split(" "), strict=True))
            calls = right.split(" ")[0] in wrongs.RESULTS
            self.assertEqual(sum(a != b for a, b in pairs), int(calls))

    def test_right_but_for_that(self):
        *lines, end = self.right
        lines = [line for line in lines if not line.startswith("end")]
        self.assertEqual(Replay(self).whole_file("\n".join([*lines, end]) + "\n"), 2)

    def test_each_word_is_wrong_somewhere(self):
        found, name = set(), None
        for wrong, right in zip(self.wrong, self.right):
            words = right.split(" ")
            name = words[0] if words[0] in ("lake", "river") else name
            found |= {(name, words[0], i) for i, word in enumerate(wrong.split(" "))
                      if word != words[i]}
        for name in ("lake", "river"):
            for kind, (at, told) in wrongs.RESULTS.items():
                size = told.count("n") + 5 * told.count("b")
                places = {place for who, which, place in found if (who, which) == (name, kind)}
                # A, B and PLACE are wrong only where a pattern, or zeros, stand before the bytes.
                seldom = {at + i for i in range(size) if i not in self.always(told)}
                self.assertLessEqual(set(range(at, at + size)) - seldom, places)
        self.assertEqual({place for who, which, place in found if which == "end"}, set())

    def test_each_number_is_wrong_in_each_way(self):
        found, above, name = {}, set(), None
        for wrong, right in zip(self.wrong, self.right):
            kind, *words = right.split(" ")
            name = kind if kind in ("lake", "river") else name
            for i in self.numbers(kind):
                there, told = int(words[i - 1]), int(wrong.split(" ")[i])
                above |= {(name, kind, i)} if there else set()
                found.setdefault((name, kind, i), set()).add(told - there)
        self.assertEqual(len(found), 2 * (5 + 5 + 5 + 3))
        # A start writes no output: only its WRITTEN is always 0, and never too small.
        written = wrongs.RESULTS["start"][0] + 1
        self.assertEqual(set(found) - above,
                         {(name, "start", written) for name in ("lake", "river")})
        for word, ways in found.items():
            self.assertEqual(ways, {0, 1, 256, -1} if word in above else {0, 1, 256})

    def numbers(self, kind):
        """Where the numbers of a result stand in a line of this kind."""
        at, told = wrongs.RESULTS.get(kind, (0, ""))
        for one in told:
            if one == "n":
                yield at
            at += 1 if one == "n" else 5

    def always(self, told):
        """The words of a result that are wrong in some line: numbers, LENGTH and HEX."""
        at = 0
        for kind in told:
            yield from (at,) if kind == "n" else (at, at + 4)
            at += 1 if kind == "n" else 5

    def test_ends(self):
        *wrong, right = ([int(word) for word in line.split(" ")[1:]] for line in self.wrong
                         if line.startswith("end"))
        self.assertEqual([[a - b for a, b in zip(one, right, strict=True)] for one in wrong],
                         [[1, 0], [256, 0], [-1, 0], [0, 1], [0, 256], [0, -1]])


class ReadingsFile(unittest.TestCase):
    """readings.txt and wrong_readings.txt, read back."""

    @classmethod
    def setUpClass(cls):
        cls.text, cls.wrong = (made.split("\n")[:-1] for _, made in dips.files())

    def agrees(self, row):
        """Whether the call of a line answers and leaves what the line tells."""
        line = Line(row)
        kind, count = line.take(), line.number()
        given, lent = line.given(), line.given()
        if kind == "read":
            left = dip.numbers_of(lent)
            answer = dip.read(count, given, left)
            left = dip.bytes_of(left)
        else:
            left = bytearray(lent)
            answer = dip.write(count, dip.numbers_of(given), left)
        told = line.number(), line.number()
        return told == answer and line.given() == left and line.words == []

    def test_replay(self):
        *calls, end = (row for row in self.text if not row.startswith("#"))
        self.assertEqual(end, f"end {len(calls)}")
        self.assertGreaterEqual(len(calls), 2000)
        self.assertTrue(all(map(self.agrees, calls)))
        self.assertLess(sum(map(len, self.text)), 300000)

    def test_no_wrong_call_agrees(self):
        with mock.patch.object(dips, "wrong_results", lambda line: [(0, line.split(" ")[0])]), \
                mock.patch.object(dips, "wrong_places", lambda line: []):
            right = list(dips.wrong_calls(dips.Months(book.Dice(dips.SEED))))
        wrong = list(dips.wrong_calls(dips.Months(book.Dice(dips.SEED))))
        self.assertTrue(all(map(self.agrees, right)))
        self.assertFalse(any(map(self.agrees, wrong)))
        for row in wrong:
            self.assertTrue(any(sum(a != b for a, b in zip(row.split(" "), other.split(" "))) == 1
                                for other in right))
        self.assertLessEqual(set(wrong), set(self.wrong))

    def test_wrong_indices(self):
        """Too large and too small by one, 0 for another, and another than 0 beside each other number."""
        told = {tuple(row.split(" ")[dips.NUMBER:dips.LEFT]) for row in self.wrong}
        for one in ("16 4", "16 6", "16 0", "16 29", "16 31", "16 1", "0 1", "6 1", "13 1", "15 1"):
            self.assertIn(tuple(one.split(" ")), told)

    def test_wrong_file_tells_its_differences(self):
        lines = [row for row in self.wrong if not row.startswith("#")]
        calls = [row for row in lines if row.split(" ")[0] in dips.KINDS]
        self.assertEqual(lines[-1], f"end {len(calls)}")
        self.assertIn(f"must report {len(lines)} differences", self.wrong[1])

    def test_missing_coverage_is_noticed(self):
        kept = [family for family in dips.FAMILIES if family is not dips.one_bad]
        with mock.patch.object(dips, "FAMILIES", kept), tempfile.TemporaryDirectory() as folder:
            with self.assertRaises(AssertionError) as caught:
                stored.main(dips.files, "", [folder])
            self.assertEqual(os.listdir(folder), [])
        self.assertIn("('write', 16, 28, 30)", str(caught.exception))


if __name__ == "__main__":
    unittest.main()
