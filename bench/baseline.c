/* The baseline's permutations in C, our own: KECCAK-p[1600] and KECCAK-p[800], a round unrolled over 25 locals. */
#include <stddef.h>
#include <stdint.h>
#include "baseline.h"

static const uint64_t RC[24] = {
    0x0000000000000001, 0x0000000000008082, 0x800000000000808A, 0x8000000080008000, 0x000000000000808B, 0x0000000080000001,
    0x8000000080008081, 0x8000000000008009, 0x000000000000008A, 0x0000000000000088, 0x0000000080008009, 0x000000008000000A,
    0x000000008000808B, 0x800000000000008B, 0x8000000000008089, 0x8000000000008003, 0x8000000000008002, 0x8000000000000080,
    0x000000000000800A, 0x800000008000000A, 0x8000000080008081, 0x8000000000008080, 0x0000000080000001, 0x8000000080008008,
};

/* One round from the lanes A to the lanes E; the offsets of rho are taken modulo the width. */
#define ROL(x, k) ((LANE)(((x) << ((k) % W)) | ((x) >> ((W - (k) % W) % W))))
#define ROUND(A, E, r) do { \
    LANE c0 = A##00 ^ A##01 ^ A##02 ^ A##03 ^ A##04; \
    LANE c1 = A##10 ^ A##11 ^ A##12 ^ A##13 ^ A##14; \
    LANE c2 = A##20 ^ A##21 ^ A##22 ^ A##23 ^ A##24; \
    LANE c3 = A##30 ^ A##31 ^ A##32 ^ A##33 ^ A##34; \
    LANE c4 = A##40 ^ A##41 ^ A##42 ^ A##43 ^ A##44; \
    LANE d0 = c4 ^ ROL(c1, 1), d1 = c0 ^ ROL(c2, 1), d2 = c1 ^ ROL(c3, 1), d3 = c2 ^ ROL(c4, 1), d4 = c3 ^ ROL(c0, 1); \
    LANE b0, b1, b2, b3, b4; \
    b0 = A##00 ^ d0; b1 = ROL(A##11 ^ d1, 300); b2 = ROL(A##22 ^ d2, 171); b3 = ROL(A##33 ^ d3, 21); b4 = ROL(A##44 ^ d4, 78); \
    E##00 = b0 ^ (~b1 & b2) ^ (LANE)RC[r]; E##10 = b1 ^ (~b2 & b3); E##20 = b2 ^ (~b3 & b4); E##30 = b3 ^ (~b4 & b0); E##40 = b4 ^ (~b0 & b1); \
    b0 = ROL(A##30 ^ d3, 28); b1 = ROL(A##41 ^ d4, 276); b2 = ROL(A##02 ^ d0, 3); b3 = ROL(A##13 ^ d1, 45); b4 = ROL(A##24 ^ d2, 253); \
    E##01 = b0 ^ (~b1 & b2); E##11 = b1 ^ (~b2 & b3); E##21 = b2 ^ (~b3 & b4); E##31 = b3 ^ (~b4 & b0); E##41 = b4 ^ (~b0 & b1); \
    b0 = ROL(A##10 ^ d1, 1); b1 = ROL(A##21 ^ d2, 6); b2 = ROL(A##32 ^ d3, 153); b3 = ROL(A##43 ^ d4, 136); b4 = ROL(A##04 ^ d0, 210); \
    E##02 = b0 ^ (~b1 & b2); E##12 = b1 ^ (~b2 & b3); E##22 = b2 ^ (~b3 & b4); E##32 = b3 ^ (~b4 & b0); E##42 = b4 ^ (~b0 & b1); \
    b0 = ROL(A##40 ^ d4, 91); b1 = ROL(A##01 ^ d0, 36); b2 = ROL(A##12 ^ d1, 10); b3 = ROL(A##23 ^ d2, 15); b4 = ROL(A##34 ^ d3, 120); \
    E##03 = b0 ^ (~b1 & b2); E##13 = b1 ^ (~b2 & b3); E##23 = b2 ^ (~b3 & b4); E##33 = b3 ^ (~b4 & b0); E##43 = b4 ^ (~b0 & b1); \
    b0 = ROL(A##20 ^ d2, 190); b1 = ROL(A##31 ^ d3, 55); b2 = ROL(A##42 ^ d4, 231); b3 = ROL(A##03 ^ d0, 105); b4 = ROL(A##14 ^ d1, 66); \
    E##04 = b0 ^ (~b1 & b2); E##14 = b1 ^ (~b2 & b3); E##24 = b2 ^ (~b3 & b4); E##34 = b3 ^ (~b4 & b0); E##44 = b4 ^ (~b0 & b1); \
  } while (0)

#define EACH(F) F(0, 00) F(1, 10) F(2, 20) F(3, 30) F(4, 40) F(5, 01) F(6, 11) F(7, 21) F(8, 31) F(9, 41) F(10, 02) F(11, 12) F(12, 22) \
  F(13, 32) F(14, 42) F(15, 03) F(16, 13) F(17, 23) F(18, 33) F(19, 43) F(20, 04) F(21, 14) F(22, 24) F(23, 34) F(24, 44)
#define LOAD(i, xy) LANE a##xy = s[i], e##xy;
#define STORE(i, xy) s[i] = a##xy;

#define W 64
#define LANE uint64_t
void baseline64(uint64_t s[25], int rounds)
{
    EACH(LOAD)
    for (int r = 24 - rounds; r < 24; r += 2) {
        ROUND(a, e, r);
        ROUND(e, a, r + 1);
    }
    EACH(STORE)
}
#undef W
#undef LANE

#define W 32
#define LANE uint32_t
void baseline32(uint32_t s[25], int rounds)
{
    EACH(LOAD)
    for (int r = 22 - rounds; r < 22; r += 2) {
        ROUND(a, e, r);
        ROUND(e, a, r + 1);
    }
    EACH(STORE)
}
