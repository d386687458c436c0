/* Whether time can depend on a secret. Run under valgrind's memcheck, `harness SIDE INSTANCE KIND` makes the calls of one kind with key, text and
   session state marked undefined; memcheck reports each branch and each address that depends on them. Of an unwrap the ciphertext is marked too.
   Public are lengths, nonce, metadata, choices, the tag that comes and, after a call, the tag that it gave out and its answer.
   SIDE is ours; told, which is ours with the answer whether a tag is right made public where it arises; or memcmp, the C version.
   Prints the calls, and the fewest and the most reports in one of them. Serves bench/timing; timing.h has the calls. */
#include <limits.h>
#include <stdio.h>
#include <stdlib.h>
#include <string.h>
#include <valgrind/memcheck.h>
#include "timing.h"

enum { LONGEST = 65535, LANES = 25, MESSAGES = 2 };

struct side { START_ONCE((*start)); WRAP_ONCE((*wrap)); UNWRAP_ONCE((*unwrap)); };

static const struct instance { const char *name; size_t bytes; struct side ours, memcmp; } instances[] = {
    {"lake", LANES * 8, {lake_start_once, lake_wrap_once, lake_unwrap_once}, {base_lake_start_once, base_lake_wrap_once, base_lake_unwrap_once}},
    {"river", LANES * 4, {river_start_once, river_wrap_once, river_unwrap_once}, {base_river_start_once, base_river_wrap_once, base_river_unwrap_once}},
};

/* A call, the start tag's use where it is a start, and the byte of the tag that is made wrong. */
enum { RIGHT = -1, FIRST = 0, LAST = TAG_BYTES - 1 };
static const struct kind { const char *name; enum { START, WRAP, UNWRAP } call; uint8_t choice; int wrong; } kinds[] = {
    {"start", START, NO_TAG, RIGHT}, {"start-produced", START, PRODUCED, RIGHT}, {"start-right", START, CHECKED, RIGHT},
    {"start-wrong-first", START, CHECKED, FIRST}, {"start-wrong-last", START, CHECKED, LAST}, {"wrap", WRAP, NO_TAG, RIGHT},
    {"unwrap-right", UNWRAP, NO_TAG, RIGHT}, {"unwrap-wrong-first", UNWRAP, NO_TAG, FIRST}, {"unwrap-wrong-last", UNWRAP, NO_TAG, LAST},
};

/* Both sides of the edges of a block: with Lake text ends at 152, after a tag, and 168, with River at 52 and 68. */
static const size_t texts[] = {0, 1, 16, 31, 52, 53, 68, 69, 148, 152, 153, 168, 169, 192, 1000, LONGEST};
static const size_t metas[] = {0, 24, 200}, keys[] = {16, 32}, nonces[] = {0, 16, 150, 151, 1024};
#define EACH(i, list) for (size_t i = 0; i < sizeof list / sizeof *list; i++)

static const struct side *side, *other;   /* the one that is measured, and the one that it is held against */
static const struct kind *kind;
static size_t bytes;                      /* of the instance's lanes */
static uint8_t key[32], nonce[1024], text[LONGEST], meta[200], sealed[LONGEST], out[LONGEST], zeros[LONGEST];

static void secret(void *p, size_t n) { (void)VALGRIND_MAKE_MEM_UNDEFINED(p, n); }
static void public(void *p, size_t n) { (void)VALGRIND_MAKE_MEM_DEFINED(p, n); }

static void expect(bool yes)
{
    if (yes) return;
    printf("%s: a wrong answer, or ours and the C version differ\n", kind->name);
    exit(2);
}

/* ---- the answer whether a tag is right, told: valgrind calls this in place of the functions that compare tags */
static bool told;

#define TELL(function) \
uint64_t I_WRAP_SONAME_FNNAME_ZZ(NONE, function)(uint64_t lanes, uint64_t tag) \
{ \
    uint64_t right; \
    OrigFn compare; \
    VALGRIND_GET_ORIG_FN(compare); \
    CALL_FN_W_WW(right, compare, lanes, tag); \
    if (told) public(&right, sizeof right); \
    return right; \
}
TELL(keyakZcZctagsZcZctagZuisZa) /* keyak::tags::tag_is, at every type of lanes */

/* ---- reports are made, and counted, between these two alone */
static unsigned calls, fewest = UINT_MAX, most, before;

static void look(void)
{
    VALGRIND_ENABLE_ERROR_REPORTING;
    before = VALGRIND_COUNT_ERRORS;
}

static void looked(volatile uint8_t *answer)
{
    unsigned found = VALGRIND_COUNT_ERRORS - before;
    VALGRIND_DISABLE_ERROR_REPORTING;
    public((void *)answer, 1);
    expect(*answer == (kind->wrong == RIGHT ? DONE : TAG_DIFFERS));
    calls++;
    if (found < fewest) fewest = found;
    if (found > most) most = found;
}

static void spoil(uint8_t *tag)
{
    if (kind->wrong != RIGHT) tag[kind->wrong] ^= 1;
}

/* ---- one call of each, measured; what it leaves must be what the other side leaves */
static void start(size_t k, size_t n, bool forget)
{
    uint64_t lanes[LANES], same[LANES];
    uint8_t tag[TAG_BYTES] = {0}, given[TAG_BYTES] = {0};
    other->start(key, k, nonce, n, forget, kind->choice == NO_TAG ? NO_TAG : PRODUCED, given, TAG_BYTES, same);
    if (kind->choice == CHECKED) memcpy(tag, given, TAG_BYTES);
    spoil(tag);
    secret(key, k);
    look();
    volatile uint8_t answer = side->start(key, k, nonce, n, forget, kind->choice, tag, TAG_BYTES, lanes);
    looked(&answer);
    public(key, k);
    public(tag, TAG_BYTES);
    public(lanes, bytes);
    spoil(tag);
    expect(memcmp(lanes, kind->wrong == RIGHT ? (void *)same : zeros, bytes) == 0 && memcmp(tag, given, TAG_BYTES) == 0);
}

static void wrap(uint64_t lanes[LANES], size_t at, size_t n, size_t m, bool forget, const uint64_t after[LANES], const uint8_t given[TAG_BYTES])
{
    uint8_t tag[TAG_BYTES];
    secret(lanes, bytes);
    secret(text, n);
    look();
    volatile uint8_t answer = side->wrap(lanes, at, text, n, meta, m, forget, out, n, tag, TAG_BYTES);
    looked(&answer);
    public(lanes, bytes);
    public(text, n);
    public(out, n);
    public(tag, TAG_BYTES);
    expect(memcmp(out, sealed, n) == 0 && memcmp(tag, given, TAG_BYTES) == 0 && memcmp(lanes, after, bytes) == 0);
}

static void unwrap(uint64_t lanes[LANES], size_t at, size_t n, size_t m, bool forget, const uint64_t after[LANES], uint8_t tag[TAG_BYTES])
{
    spoil(tag);
    secret(lanes, bytes);
    secret(sealed, n);
    look();
    volatile uint8_t answer = side->unwrap(lanes, at, sealed, n, meta, m, tag, TAG_BYTES, forget, out, n);
    looked(&answer);
    public(lanes, bytes);
    public(sealed, n);
    public(out, n);
    bool right = kind->wrong == RIGHT;
    expect(memcmp(out, right ? text : zeros, n) == 0 && memcmp(lanes, right ? (void *)after : zeros, bytes) == 0);
}

/* Messages in a row on a session without or with a start tag: the first text starts at 0 or at 16, the others at 16. */
static void row(uint8_t choice, size_t n, size_t m, bool forget)
{
    uint64_t lanes[LANES], after[LANES];
    uint8_t tag[TAG_BYTES];
    size_t at = choice == NO_TAG ? 0 : TAG_BYTES;
    other->start(key, keys[0], nonce, 16, forget, choice, tag, TAG_BYTES, after);
    for (int i = 0; i < MESSAGES; i++, at = TAG_BYTES) {
        memcpy(lanes, after, bytes);
        other->wrap(after, at, text, n, meta, m, forget, sealed, n, tag, TAG_BYTES);
        (kind->call == WRAP ? wrap(lanes, at, n, m, forget, after, tag) : unwrap(lanes, at, n, m, forget, after, tag));
    }
}

static void all(bool forget)
{
    if (kind->call == START) {
        EACH(k, keys) EACH(n, nonces) start(keys[k], nonces[n], forget);
        return;
    }
    for (uint8_t choice = NO_TAG; choice <= PRODUCED; choice++)
        EACH(n, texts) EACH(m, metas) row(choice, texts[n], metas[m], forget);
}

int main(int argc, char **argv)
{
    VALGRIND_DISABLE_ERROR_REPORTING;
    if (argc != 4) return 2;
    told = strcmp(argv[1], "told") == 0;
    bool ours = told || strcmp(argv[1], "ours") == 0;
    EACH(i, instances) if (strcmp(argv[2], instances[i].name) == 0) {
        bytes = instances[i].bytes;
        side = ours ? &instances[i].ours : &instances[i].memcmp;
        other = ours ? &instances[i].memcmp : &instances[i].ours;
    }
    EACH(i, kinds) if (strcmp(argv[3], kinds[i].name) == 0) kind = &kinds[i];
    if (!side || !kind || !RUNNING_ON_VALGRIND) return 2;
    EACH(i, key) key[i] = (uint8_t)(i + 1);
    EACH(i, nonce) nonce[i] = (uint8_t)(3 * i + 1);
    EACH(i, meta) meta[i] = (uint8_t)(5 * i + 1);
    EACH(i, text) text[i] = (uint8_t)(7 * i + i / 256);
    all(false);
    all(true);
    printf("%u %u %u\n", calls, fewest, most);
    VALGRIND_ENABLE_ERROR_REPORTING;
    return 0;
}
