/* The baseline: two permutations in place on 25 lanes (baseline.c), and Keyak v2 with one Piston over each (keyak.c). */
#include <stddef.h>
#include <stdint.h>

/* The last rounds of KECCAK-f[1600] and KECCAK-f[800], an even number of them. */
void baseline64(uint64_t s[25], int rounds);
void baseline32(uint32_t s[25], int rounds);

/* A session of a key and a nonce with a start tag, and one message wrapped or unwrapped on it `times` times over; answers the
   permutation runs of one, 0 where the tag is wrong. The order of parameters is that of the proved functions in crates/bench. */
#define WRAP(name) size_t name(size_t times, const uint8_t *key, size_t keys, const uint8_t *nonce, size_t nonces, \
    const uint8_t *text, size_t texts, const uint8_t *meta, size_t metas, uint8_t *out, size_t outs, uint8_t *tag, size_t tags)
#define UNWRAP(name) size_t name(size_t times, const uint8_t *key, size_t keys, const uint8_t *nonce, size_t nonces, \
    const uint8_t *text, size_t texts, const uint8_t *meta, size_t metas, const uint8_t *tag, size_t tags, uint8_t *out, size_t outs)
WRAP(base_lake_wrap);
UNWRAP(base_lake_unwrap);
WRAP(base_river_wrap);
UNWRAP(base_river_unwrap);
