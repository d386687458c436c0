/* The baseline's Keyak v2 with one Piston, our own, a lane at a time: Lake, or River where RIVER is defined. It trusts its
   caller with lengths (key 16 to 32 bytes, nonce up to 128, tag 16) and with a little-endian machine. */
#include <string.h>
#include "baseline.h"

#ifdef RIVER
typedef uint32_t lane;
enum { RS = 68, RA = 96, PACK = 36 };
#define PERMUTE baseline32
#define CALL(name) base_river_##name
#else
typedef uint64_t lane;
enum { RS = 168, RA = 192, PACK = 40 };
#define PERMUTE baseline64
#define CALL(name) base_lake_##name
#endif
enum { L = sizeof(lane), TAG = 16 };

/* n bytes xored in from lane s on. */
static void xor_in(lane *s, const uint8_t *in, size_t n)
{
    lane x;
    for (; n >= L; n -= L, in += L, s++) { memcpy(&x, in, L); *s ^= x; }
    if (n == 0) return;
    x = 0;
    memcpy(&x, in, n);
    *s ^= x;
}

/* n bytes of text from lane s on, out what is under the key stream; the plaintext goes into the state. */
static inline void crypt(lane *s, const uint8_t *in, uint8_t *out, size_t n, int decrypt)
{
    lane x, y;
    for (; n >= L; n -= L, in += L, out += L, s++) {
        memcpy(&x, in, L);
        y = x ^ *s;
        memcpy(out, &y, L);
        *s = decrypt ? x : y;
    }
    if (n == 0) return;
    x = 0;
    memcpy(&x, in, n);
    y = x ^ *s;
    memcpy(out, &y, n);
    xor_in(s, decrypt ? out : in, n);
}

/* All the blocks of a group that ends with a tag; answers how many. */
static inline size_t group(lane s[25], size_t at, const uint8_t *text, size_t t, const uint8_t *meta, size_t m, uint8_t *out, int decrypt)
{
    for (size_t runs = 1;; runs++) {
        size_t k = t < RS - at ? t : RS - at, from = t ? RS : 0, q = m < RA - from ? m : RA - from;
        uint32_t eom = k == t && q == m ? TAG : 0;
        crypt(s + at / L, text, out, k, decrypt);
        xor_in(s + from / L, meta, q);
        s[RA / L] ^= (lane)(eom | (uint32_t)(k ? at + k : 0) << 8 | (uint32_t)from << 16 | (uint32_t)(from + q) << 24);
        PERMUTE(s, 12);
        if (eom) return runs;
        text += k; out += k; t -= k;
        meta += q; m -= q;
        at = 0;
    }
}

static void start(lane s[25], const uint8_t *key, size_t keys, const uint8_t *nonce, size_t nonces)
{
    uint8_t injected[PACK + 128 + 2] = {PACK};
    memcpy(injected + 1, key, keys);
    injected[keys + 1] = 1;
    memcpy(injected + PACK, nonce, nonces);
    injected[PACK + nonces] = 1;
    memset(s, 0, 25 * L);
    group(s, 0, NULL, 0, injected, PACK + nonces + 2, NULL, 0);
}

WRAP(CALL(wrap))
{
    lane first[25], s[25];
    size_t runs = 0;
    (void)outs;
    start(first, key, keys, nonce, nonces);
    for (size_t i = 0; i < times; i++) {
        memcpy(s, first, sizeof s);
        runs = group(s, TAG, text, texts, meta, metas, out, 0);
        memcpy(tag, s, tags);
    }
    return runs;
}

UNWRAP(CALL(unwrap))
{
    lane first[25], s[25];
    size_t runs = 0;
    (void)outs;
    start(first, key, keys, nonce, nonces);
    for (size_t i = 0; i < times; i++) {
        memcpy(s, first, sizeof s);
        runs = group(s, TAG, text, texts, meta, metas, out, 1);
        if (memcmp(s, tag, tags) != 0) return 0;
    }
    return runs;
}
