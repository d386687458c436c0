/* The baseline's Keyak a call at a time, with start tags and forgetting, its tags compared by memcmp: what bench/timing holds ours against, so
   that its reader sees what it finds where a comparison leaves early. Lake, or River where RIVER is defined. */
#include "keyak.c"
#include "timing.h"

/* the EOMs of a group that ends with a chaining value, and of one that ends with nothing */
enum { CHAIN = 32, NOTHING = 255 };

/* The baseline's group, with any EOM at its end. */
static void blocks(lane s[25], size_t at, const uint8_t *text, size_t t, const uint8_t *meta, size_t m, uint8_t *out, int decrypt, uint32_t eom)
{
    for (bool over = false; !over; at = 0) {
        size_t k = t < RS - at ? t : RS - at, from = t ? RS : 0, q = m < RA - from ? m : RA - from;
        over = k == t && q == m;
        crypt(s + at / L, text, out, k, decrypt);
        xor_in(s + from / L, meta, q);
        s[RA / L] ^= (lane)((over ? eom : 0) | (uint32_t)(k ? at + k : 0) << 8 | (uint32_t)from << 16 | (uint32_t)(from + q) << 24);
        PERMUTE(s, 12);
        text += k; out += k; t -= k;
        meta += q; m -= q;
    }
}

/* The blocks, and where the session forgets a knot after them. */
static void ride(lane s[25], size_t at, const uint8_t *text, size_t t, const uint8_t *meta, size_t m, uint8_t *out, int decrypt, bool forget, uint32_t eom)
{
    uint8_t value[CHAIN];
    blocks(s, at, text, t, meta, m, out, decrypt, forget ? CHAIN : eom);
    if (!forget) return;
    memcpy(value, s, CHAIN);
    blocks(s, 0, NULL, 0, value, CHAIN, NULL, 0, eom);
}

/* Whether the tag is right; if not, text and session are gone. */
static uint8_t judged(lane s[25], const uint8_t *tag, size_t tags, uint8_t *out, size_t n)
{
    if (memcmp(s, tag, tags) == 0) return DONE;
    memset(out, 0, n);
    memset(s, 0, 25 * L);
    return TAG_DIFFERS;
}

START_ONCE(CALL(start_once))
{
    uint8_t injected[PACK + 1024 + 2] = {PACK};
    lane *s = lanes;
    memcpy(injected + 1, key, keys);
    injected[keys + 1] = 1;
    memcpy(injected + PACK, nonce, nonces);
    injected[PACK + nonces] = 1;
    memset(s, 0, 25 * L);
    ride(s, 0, NULL, 0, injected, PACK + nonces + 2, NULL, 0, forget, choice == NO_TAG ? NOTHING : TAG);
    if (choice == PRODUCED) memcpy(tag, s, tags);
    return choice == CHECKED ? judged(s, tag, tags, NULL, 0) : DONE;
}

WRAP_ONCE(CALL(wrap_once))
{
    (void)outs;
    ride(lanes, at, text, texts, meta, metas, out, 0, forget, TAG);
    memcpy(tag, lanes, tags);
    return DONE;
}

UNWRAP_ONCE(CALL(unwrap_once))
{
    (void)outs;
    ride(lanes, at, text, texts, meta, metas, out, 1, forget, TAG);
    return judged(lanes, tag, tags, out, texts);
}
