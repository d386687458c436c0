/* One call on a session whose lanes the caller lends, 25 of 64 bits (Lake) or of 32 (River): ours, proved (crates/timing), and the same in C
   with memcmp (memcmp.c). Each answers the client's number, 0 done or 8 tag differs, and leaves the next session's lanes. */
#include <stdbool.h>
#include <stddef.h>
#include <stdint.h>

enum { NO_TAG, PRODUCED, CHECKED, TAG_BYTES = 16, DONE = 0, TAG_DIFFERS = 8 };

#define START_ONCE(name) uint8_t name(const uint8_t *key, size_t keys, const uint8_t *nonce, size_t nonces, bool forget, uint8_t choice, \
    uint8_t *tag, size_t tags, void *lanes)
#define WRAP_ONCE(name) uint8_t name(void *lanes, size_t at, const uint8_t *text, size_t texts, const uint8_t *meta, size_t metas, bool forget, \
    uint8_t *out, size_t outs, uint8_t *tag, size_t tags)
#define UNWRAP_ONCE(name) uint8_t name(void *lanes, size_t at, const uint8_t *text, size_t texts, const uint8_t *meta, size_t metas, \
    const uint8_t *tag, size_t tags, bool forget, uint8_t *out, size_t outs)

START_ONCE(lake_start_once);
START_ONCE(river_start_once);
WRAP_ONCE(lake_wrap_once);
WRAP_ONCE(river_wrap_once);
UNWRAP_ONCE(lake_unwrap_once);
UNWRAP_ONCE(river_unwrap_once);

START_ONCE(base_lake_start_once);
START_ONCE(base_river_start_once);
WRAP_ONCE(base_lake_wrap_once);
WRAP_ONCE(base_river_wrap_once);
UNWRAP_ONCE(base_lake_unwrap_once);
UNWRAP_ONCE(base_river_unwrap_once);
