"""Keyak v2 in plain Python, a second program to compare the proved library with.

The permutation KECCAK-p, the layers Piston, Engine and Motorist as byte
streams, and the key pack, each after document 003 (Keyak v2, document 2.2).
Written to be read beside 003: names and order of lines are those of its
Algorithms 1 to 3. Not meant for secrets; nothing here runs in constant time.
"""

from collections import deque

# ---------------------------------------------------------------------------
# KECCAK-p[b, nr], section 2.1, bit by bit.
#
# A state is a list of b = 25 * 2^l bits; bit w(5y+x)+z of it is a[x, y, z].
# ---------------------------------------------------------------------------


def at(x, y, z, w):
    """Place of a[x, y, z] in the state: x and y modulo 5, z modulo w."""
    return w * (5 * (y % 5) + x % 5) + z % w


def every_place(w):
    """All (x, y, z) in the order in which the state lists its bits."""
    return ((x, y, z) for y in range(5) for x in range(5) for z in range(w))


def column(a, x, z, w):
    """Sum over y' of a[x, y', z], in GF(2)."""
    return (a[at(x, 0, z, w)] ^ a[at(x, 1, z, w)] ^ a[at(x, 2, z, w)]
            ^ a[at(x, 3, z, w)] ^ a[at(x, 4, z, w)])


def theta(a, w):
    return [a[at(x, y, z, w)] ^ column(a, x - 1, z, w) ^ column(a, x + 1, z - 1, w)
            for x, y, z in every_place(w)]


def times_matrix(x, y):
    """The matrix (0 1; 2 3) times the column (x, y), modulo 5."""
    return y % 5, (2 * x + 3 * y) % 5


def rho_offset(x, y):
    """(t+1)(t+2)/2 for the t with matrix^t (1, 0) = (x, y); 0 for x = y = 0."""
    if (x, y) == (0, 0):
        return 0
    t, place = 0, (1, 0)
    while place != (x, y):
        t, place = t + 1, times_matrix(*place)
    return (t + 1) * (t + 2) // 2


def rho(a, w):
    offset = {(x, y): rho_offset(x, y) for x in range(5) for y in range(5)}
    return [a[at(x, y, z - offset[x, y], w)] for x, y, z in every_place(w)]


def pi(a, w):
    came_from = {times_matrix(x, y): (x, y) for x in range(5) for y in range(5)}
    return [a[at(*came_from[x, y], z, w)] for x, y, z in every_place(w)]


def chi(a, w):
    return [a[at(x, y, z, w)] ^ ((a[at(x + 1, y, z, w)] ^ 1) & a[at(x + 2, y, z, w)])
            for x, y, z in every_place(w)]


def rc(t):
    """(x^t mod x^8+x^6+x^5+x^4+1) mod x; the register has period 255."""
    power = 1
    for _ in range(t % 255):
        power <<= 1
        if power & 0b100000000:
            power ^= 0b101110001
    return power & 1


def round_constant(i_r, l):
    """Lane (0, 0) of RC[i_r] as a number: bit 2^j - 1 is rc[j + 7 i_r]."""
    return sum(rc(j + 7 * i_r) << (2 ** j - 1) for j in range(l + 1))


def iota(a, w, i_r, l):
    lane = round_constant(i_r, l)
    return [bit ^ (lane >> z & 1 if (x, y) == (0, 0) else 0)
            for bit, (x, y, z) in zip(a, every_place(w))]


def round_indexes(l, nr):
    """The last nr rounds of KECCAK-f: 12+2l-nr to 12+2l-1."""
    return range(12 + 2 * l - nr, 12 + 2 * l)


def keccak_p_bits(a, l, nr):
    """KECCAK-p[25 * 2^l, nr] on a list of bits, straight from the formulas."""
    w = 2 ** l
    for i_r in round_indexes(l, nr):
        a = iota(chi(pi(rho(theta(a, w), w), w), w), w, i_r, l)
    return a


# ---------------------------------------------------------------------------
# The same by lanes. test_reference.py compares it with the bit formulas.
# ---------------------------------------------------------------------------


def lane_moves(l):
    """Rho and pi together: (to, from, column, left shift) for each lane."""
    w = 2 ** l
    moves = []
    for x in range(5):
        for y in range(5):
            to_x, to_y = times_matrix(x, y)
            moves.append((5 * to_y + to_x, 5 * y + x, x, rho_offset(x, y) % w))
    return moves


MOVES = {l: lane_moves(l) for l in range(7)}
CONSTANTS = {l: [round_constant(i_r, l) for i_r in range(255)] for l in range(7)}


def keccak_p_lanes(lanes, l, nr):
    """KECCAK-p[25 * 2^l, nr] on 25 lanes, lane (x, y) at 5y+x."""
    w, a, b = 2 ** l, list(lanes), [0] * 25
    mask = (1 << w) - 1
    for i_r in round_indexes(l, nr):
        c = [a[x] ^ a[x + 5] ^ a[x + 10] ^ a[x + 15] ^ a[x + 20] for x in range(5)]
        d = [c[x - 1] ^ ((c[x - 4] << 1 | c[x - 4] >> (w - 1)) & mask) for x in range(5)]
        for to, source, x, shift in MOVES[l]:
            lane = a[source] ^ d[x]
            b[to] = (lane << shift | lane >> (w - shift)) & mask
        for y in (0, 5, 10, 15, 20):
            b0, b1, b2, b3, b4 = b[y:y + 5]
            a[y:y + 5] = (b0 ^ (~b1 & b2), b1 ^ (~b2 & b3), b2 ^ (~b3 & b4),
                          b3 ^ (~b4 & b0), b4 ^ (~b0 & b1))
        a[0] ^= CONSTANTS[l][i_r % 255]
    return a


# ---------------------------------------------------------------------------
# States as bits, bytes and lanes. Bytes are little-endian in a lane.
# ---------------------------------------------------------------------------


def bytes_to_bits(state):
    return [byte >> i & 1 for byte in state for i in range(8)]


def bits_to_bytes(bits):
    return bytes(sum(bit << i for i, bit in enumerate(bits[k:k + 8]))
                 for k in range(0, len(bits), 8))


def bytes_to_lanes(state, lane_bytes):
    return [int.from_bytes(state[k:k + lane_bytes], "little")
            for k in range(0, len(state), lane_bytes)]


def lanes_to_bytes(lanes, lane_bytes):
    return b"".join(lane.to_bytes(lane_bytes, "little") for lane in lanes)


def exponent_of(b):
    """The l with b = 25 * 2^l, for widths of whole bytes in each lane."""
    for l in range(3, 7):
        if b == 25 * 2 ** l:
            return l
    raise ValueError("no KECCAK-p of whole bytes has this width")


def keccak_p(b, nr):
    """KECCAK-p[b, nr] as a function on b/8 bytes."""
    l = exponent_of(b)

    def f(state):
        lanes = bytes_to_lanes(state, 2 ** l // 8)
        return bytearray(lanes_to_bytes(keccak_p_lanes(lanes, l, nr), 2 ** l // 8))

    return f


# ---------------------------------------------------------------------------
# Byte streams, section 1.3.
# ---------------------------------------------------------------------------


class ByteStream:
    def __init__(self, content=b""):
        self._queue = deque(content)

    def pull_byte(self):
        return self._queue.popleft()

    def push_byte(self, z):
        self._queue.append(z)

    def has_more(self):
        return len(self._queue) > 0

    def same_as(self, other):
        return self._queue == other._queue

    def clear(self):
        self._queue.clear()

    def content(self):
        """What stands in the stream now; takes nothing out."""
        return bytes(self._queue)


def enc8(x):
    """A number from 0 to 255 as the byte of that value."""
    if not 0 <= x <= 255:
        raise ValueError("enc8 takes 0 to 255")
    return x


# ---------------------------------------------------------------------------
# Algorithm 1.
# ---------------------------------------------------------------------------


class Piston:
    """PISTON[f, Rs, Ra], with a log of the blocks added between runs of f."""

    def __init__(self, f, b, Rs, Ra):
        if not Rs <= Ra <= (b - 32) // 8 < 248:
            raise ValueError("rates against Algorithm 1")
        self.f, self.Rs, self.Ra = f, Rs, Ra
        self.EOM, self.crypt_end = Ra, Ra + 1
        self.inject_start, self.inject_end = Ra + 2, Ra + 3
        self.load(bytes(b // 8), 0)

    def load(self, state, omega_C):
        """Take up a state as it stands right after a run of f."""
        self.s = bytearray(state)
        self.omega_C, self.omega_I = omega_C, 0
        self.before = bytes(state)
        self.blocks = []

    def crypt(self, I, O, decrypt_flag):
        while I.has_more() and self.omega_C < self.Rs:
            x = I.pull_byte()
            O.push_byte(self.s[self.omega_C] ^ x)
            if decrypt_flag:
                self.s[self.omega_C] = x
            else:
                self.s[self.omega_C] ^= x
            self.omega_C += 1
        self.s[self.crypt_end] ^= enc8(self.omega_C)
        self.omega_C, self.omega_I = 0, self.Rs

    def inject(self, X):
        self.s[self.inject_start] ^= enc8(self.omega_I)
        while X.has_more() and self.omega_I < self.Ra:
            self.s[self.omega_I] ^= X.pull_byte()
            self.omega_I += 1
        self.s[self.inject_end] ^= enc8(self.omega_I)
        self.omega_C, self.omega_I = 0, 0

    def spark(self):
        self.blocks.append(bytes(x ^ y for x, y in zip(self.s, self.before)))
        self.s = bytearray(self.f(self.s))
        self.before = bytes(self.s)

    def get_tag(self, T, length):
        if length > self.Rs:
            raise ValueError("a tag is at most Rs bytes")
        if length == 0:
            self.s[self.EOM] ^= enc8(255)
        else:
            self.s[self.EOM] ^= enc8(length)
        self.spark()
        for i in range(length):
            T.push_byte(self.s[i])
        self.omega_C = length


# ---------------------------------------------------------------------------
# Algorithm 2.
# ---------------------------------------------------------------------------


class Engine:
    """ENGINE[Pistons]. It holds nothing of its own beside the Pistons."""

    def __init__(self, pistons):
        if not 1 <= len(pistons) <= 255:
            raise ValueError("1 to 255 Pistons")
        self.pistons = pistons

    def wrap(self, I, O, A, decrypt_flag):
        if I.has_more():
            for piston in self.pistons:
                piston.crypt(I, O, decrypt_flag)
        for piston in self.pistons:
            piston.inject(A)
        if I.has_more() or A.has_more():
            for piston in self.pistons:
                piston.spark()

    def get_tags(self, T, lengths):
        for piston, length in zip(self.pistons, lengths, strict=True):
            piston.get_tag(T, length)

    def inject_collective(self, X, diversify_flag):
        count = len(self.pistons)
        Y = [ByteStream() for _ in range(count)]
        while X.has_more():
            x = X.pull_byte()
            for stream in Y:
                stream.push_byte(x)
        if diversify_flag:
            for stream in Y:
                stream.push_byte(enc8(count))
            for i, stream in enumerate(Y):
                stream.push_byte(enc8(i))
        while Y[0].has_more():
            for piston, stream in zip(self.pistons, Y):
                piston.inject(stream)
            if Y[0].has_more():
                for piston in self.pistons:
                    piston.spark()


# ---------------------------------------------------------------------------
# Algorithm 3 and the quantities it derives. Widths, capacity and alignment
# are counted in bits, rates and lengths in bytes.
# ---------------------------------------------------------------------------


def ceiling(n, d):
    return -(-n // d)


def alignment(b):
    return max(b // 25, 8)


def squeezing_rate(b, W, c):
    return W // 8 * ((b - max(c, 32)) // W)


def absorbing_rate(b, W):
    return W // 8 * ((b - 32) // W)


def chaining_bits(c, W):
    return W * ceiling(c, W)


READY, RIDING, FAILED = "ready", "riding", "failed"


class PhaseError(Exception):
    """A call that Algorithm 3 answers with an error for the phase."""


class Motorist:
    """MOTORIST[f, Pi, W, c, tau], f a permutation of b bits."""

    def __init__(self, f, b, pistons, W, c, tau):
        if W <= 0 or W % 8 or ceiling(c, W) > (b - max(c, 32)) // W:
            raise ValueError("alignment or capacity against Algorithm 3")
        if tau % W or tau > chaining_bits(c, W):
            raise ValueError("tag length against Algorithm 3")
        self.Pi, self.tau = pistons, tau
        self.Rs, self.Ra = squeezing_rate(b, W, c), absorbing_rate(b, W)
        self.chain = chaining_bits(c, W)
        self.engine = Engine([Piston(f, b, self.Rs, self.Ra) for _ in range(pistons)])
        self.phase = READY

    def start_engine(self, SUV, tag_flag, T, decrypt_flag, forget_flag):
        if self.phase != READY:
            raise PhaseError("start_engine wants ready")
        self.engine.inject_collective(SUV, True)
        if forget_flag:
            self.make_knot()
        res = self.handle_tag(tag_flag, T, decrypt_flag)
        if res:
            self.phase = RIDING
        return res

    def wrap(self, I, O, A, T, decrypt_flag, forget_flag):
        if self.phase != RIDING:
            raise PhaseError("wrap wants riding")
        while True:
            self.engine.wrap(I, O, A, decrypt_flag)
            if not I.has_more() and not A.has_more():
                break
        if self.Pi > 1 or forget_flag:
            self.make_knot()
        res = self.handle_tag(True, T, decrypt_flag)
        if not res:
            O.clear()
        return res

    def make_knot(self):
        T1 = ByteStream()
        self.engine.get_tags(T1, [self.chain // 8] * self.Pi)
        self.engine.inject_collective(T1, False)

    def handle_tag(self, tag_flag, T, decrypt_flag):
        T1 = ByteStream()
        if not tag_flag:
            self.engine.get_tags(T1, [0] * self.Pi)
        else:
            self.engine.get_tags(T1, [self.tau // 8] + [0] * (self.Pi - 1))
            if not decrypt_flag:
                while T1.has_more():
                    T.push_byte(T1.pull_byte())
            elif not T1.same_as(T):
                self.phase = FAILED
                return False
        return True

    # Between two calls a session is no more than the states and the place of
    # Piston 0's next key stream byte; the other Pistons' place is then 0.

    def states(self):
        return [bytes(piston.s) for piston in self.engine.pistons]

    def text_start(self):
        return self.engine.pistons[0].omega_C

    def resume(self, states, text_start):
        """Go on riding from states() and text_start() of an earlier call."""
        for i, (piston, state) in enumerate(zip(self.engine.pistons, states, strict=True)):
            piston.load(state, text_start if i == 0 else 0)
        self.phase = RIDING

    def logs(self):
        """For each Piston the blocks it has fed to f, oldest first."""
        return [piston.blocks for piston in self.engine.pistons]

    def runs(self):
        """Runs of f of each Piston; all have the same number."""
        counts = {len(blocks) for blocks in self.logs()}
        if len(counts) != 1:
            raise AssertionError("the Pistons do not run together")
        return counts.pop()

    def offsets(self, piston=0):
        """The logged blocks as (crypt end, inject start, inject end, EOM)."""
        Ra = self.Ra
        return [(block[Ra + 1], block[Ra + 2], block[Ra + 3], block[Ra])
                for block in self.logs()[piston]]


# ---------------------------------------------------------------------------
# Keyak, sections 2.2 to 2.4.
# ---------------------------------------------------------------------------


def pad10(r, length):
    """Simple padding of whole bytes: bits 1 0^q, q = (-length - 1) mod r."""
    q = (-length - 1) % r
    return b"\x01" + bytes((q - 7) // 8)


def keypack(K, l):
    if not (l < 256 and 8 * len(K) <= 8 * (l - 1) - 1):
        raise ValueError("key or key pack too long")
    return bytes([enc8(l)]) + bytes(K) + pad10(8 * l - 8, 8 * len(K))


def key_pack_length(c, W):
    return W // 8 * ceiling(c + 9, W)


class Keyak:
    """KEYAK[b, nr, Pi, c, tau]: makes Motorists and SUVs of one instance."""

    def __init__(self, name, b, pistons, nr=12, c=256, tau=128):
        self.name, self.b, self.nr, self.Pi, self.c, self.tau = name, b, nr, pistons, c, tau
        self.W = alignment(b)
        self.lk = key_pack_length(c, self.W)
        self.f = keccak_p(b, nr)

    def motorist(self):
        return Motorist(self.f, self.b, self.Pi, self.W, self.c, self.tau)

    def suv(self, K, N):
        return ByteStream(keypack(K, self.lk) + bytes(N))


RIVER = Keyak("River", 800, 1)
LAKE = Keyak("Lake", 1600, 1)
SEA = Keyak("Sea", 1600, 2)
OCEAN = Keyak("Ocean", 1600, 4)
LUNAR = Keyak("Lunar", 1600, 8)
