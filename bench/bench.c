/* Times ours against the baseline in one run: the permutation at both widths, then Lake and River, wrap and unwrap, beside
   OpenSSL's SHAKE128 where that is installed. Times are processor time, the best of several tries taken in turn. */
#include <dlfcn.h>
#include <stdio.h>
#include <stdlib.h>
#include <string.h>
#include <time.h>
#include "baseline.h"

/* ours, proved: crates/bench */
uint64_t repeat64(size_t times, uint64_t seed);
uint32_t repeat32(size_t times, uint32_t seed);
typedef WRAP(wrapping);
typedef UNWRAP(unwrapping);
wrapping lake_wrap, river_wrap;
unwrapping lake_unwrap, river_unwrap;

enum { TIMES = 100000, BYTES = 2000000, TRIES = 51, LONGEST = 65535, META = 24, TAG = 16 };

static double now(void)
{
    struct timespec t;
    clock_gettime(CLOCK_PROCESS_CPUTIME_ID, &t);
    return t.tv_sec + t.tv_nsec / 1e9;
}

#define TRY(best, statement) do { \
    double from = now(); \
    statement; \
    double took = now() - from; \
    if (took < best) best = took; \
  } while (0)

static void same(const char *name, int yes)
{
    if (yes) return;
    printf("%s: ours and the baseline differ\n", name);
    exit(1);
}

/* ---- the permutation: both must come to the same lane */

static uint64_t base64(uint64_t seed)
{
    uint64_t s[25];
    for (int i = 0; i < 25; i++) s[i] = seed;
    for (size_t i = 0; i < TIMES; i++) baseline64(s, 24);
    return s[0];
}

static uint32_t base32(uint32_t seed)
{
    uint32_t s[25];
    for (int i = 0; i < 25; i++) s[i] = seed;
    for (size_t i = 0; i < TIMES; i++) baseline32(s, 22);
    return s[0];
}

#define PERMUTATION(name, ours, base) do { \
    double a = 1e9, b = 1e9; \
    for (int k = 0; k < TRIES; k++) { \
        uint64_t x, y; \
        TRY(a, x = ours); \
        TRY(b, y = base); \
        same(name, x == y); \
    } \
    printf("%-14s  ours %8.0f  baseline %8.0f  permutations per second, ratio %.2f\n", name, TIMES / a, TIMES / b, b / a); \
  } while (0)

/* ---- SHAKE128, found when this runs, so that no header is needed */

static void *(*new_context)(void);
static const void *(*shake128)(void);
static int (*begin)(void *, const void *, void *), (*update)(void *, const void *, size_t), (*finish)(void *, uint8_t *, size_t);

static int find_shake(void)
{
    void *crypto = dlopen("libcrypto.so.3", RTLD_NOW);
    if (!crypto) crypto = dlopen("libcrypto.so", RTLD_NOW);
    if (!crypto) return 0;
    *(void **)&new_context = dlsym(crypto, "EVP_MD_CTX_new");
    *(void **)&shake128 = dlsym(crypto, "EVP_shake128");
    *(void **)&begin = dlsym(crypto, "EVP_DigestInit_ex");
    *(void **)&update = dlsym(crypto, "EVP_DigestUpdate");
    *(void **)&finish = dlsym(crypto, "EVP_DigestFinalXOF");
    return new_context && shake128 && begin && update && finish;
}

static void shake(size_t times, const uint8_t *text, size_t n, uint8_t tag[TAG])
{
    static void *context;
    if (!context) context = new_context();
    for (size_t i = 0; i < times; i++) {
        begin(context, shake128(), NULL);
        update(context, text, n);
        finish(context, tag, TAG);
    }
}

/* ---- an instance at a length of text: both must give the same ciphertext, tag and runs, and take each other's back */

static void instance(const char *name, size_t n, wrapping *wrap, unwrapping *unwrap, wrapping *base_wrap, unwrapping *base_unwrap, int shaken)
{
    static const uint8_t key[16] = {1, 2, 3}, nonce[16] = {4, 5, 6};
    static uint8_t text[LONGEST], meta[META], sealed[LONGEST], opened[LONGEST], other[LONGEST], tag[TAG], other_tag[TAG];
    size_t times = BYTES / (n + META);
    double w = 1e9, bw = 1e9, u = 1e9, bu = 1e9, s = 1e9;
    for (size_t i = 0; i < n; i++) text[i] = (uint8_t)(7 * i + i / 256);
    for (int k = 0; k < TRIES; k++) {
        size_t x, y;
        TRY(w, x = wrap(times, key, 16, nonce, 16, text, n, meta, META, sealed, n, tag, TAG));
        TRY(bw, y = base_wrap(times, key, 16, nonce, 16, text, n, meta, META, other, n, other_tag, TAG));
        same(name, x == y && memcmp(sealed, other, n) == 0 && memcmp(tag, other_tag, TAG) == 0);
        TRY(u, x = unwrap(times, key, 16, nonce, 16, other, n, meta, META, other_tag, TAG, opened, n));
        same(name, x == y && memcmp(opened, text, n) == 0);
        TRY(bu, x = base_unwrap(times, key, 16, nonce, 16, sealed, n, meta, META, tag, TAG, opened, n));
        same(name, x == y && memcmp(opened, text, n) == 0);
        if (shaken) TRY(s, shake(times, text, n, tag));
    }
    double mb = times * n / 1e6;
    printf("%-5s %6zu  wrap    ours %5.0f  baseline %5.0f  ratio %.2f", name, n, mb / w, mb / bw, bw / w);
    if (shaken) printf("  SHAKE128 %5.0f  ratio %.2f", mb / s, s / w);
    printf("\n%-5s %6zu  unwrap  ours %5.0f  baseline %5.0f  ratio %.2f  of wrap %.2f\n", name, n, mb / u, mb / bu, bu / u, w / u);
}

int main(void)
{
    static const size_t lengths[] = {LONGEST, 1024, 148};
    PERMUTATION("KECCAK-f[1600]", repeat64(TIMES, 7), base64(7));
    PERMUTATION("KECCAK-f[800]", repeat32(TIMES, 7), base32(7));
    int shaken = find_shake();
    printf("\nMB of text per second, by bytes of text, with %d of metadata%s\n", META, shaken ? "" : "; OpenSSL's SHAKE128 is not installed here");
    for (int i = 0; i < 3; i++) instance("Lake", lengths[i], lake_wrap, lake_unwrap, base_lake_wrap, base_lake_unwrap, shaken);
    for (int i = 0; i < 3; i++) instance("River", lengths[i], river_wrap, river_unwrap, base_river_wrap, base_river_unwrap, shaken);
    return 0;
}
