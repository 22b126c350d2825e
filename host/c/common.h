/* What the hosts in C share: checks that are counted, buffers of exactly their length, records, random numbers.
 *
 * Each buffer of a call is a heap block of exactly its length, so that the address sanitizer sees a byte too many
 * on this side, and valgrind one inside the library. The functions are inline, since no host uses all of them. */
#ifndef HOST_COMMON_H
#define HOST_COMMON_H

#include "mapcache.h"

#include <stdio.h>
#include <stdlib.h>
#include <string.h>

static unsigned long checks, failures;

static inline void check(int holds, const char *what, const char *file, int line)
{
    checks++;
    if (!holds) {
        failures++;
        fprintf(stderr, "%s:%d: not so: %s\n", file, line, what);
    }
}
#define CHECK(x) check((x) ? 1 : 0, #x, __FILE__, __LINE__)

/* ---- buffers */

struct buffer {
    uint8_t *bytes;
    size_t len;
};

/* A block of exactly len bytes, all of them `fill`. No pointer may be NULL, so a block of 0 bytes is one of 1 byte. */
static inline struct buffer block(size_t len, uint8_t fill)
{
    struct buffer b = {malloc(len ? len : 1), len};
    if (b.bytes == NULL) {
        fprintf(stderr, "no memory for %zu bytes\n", len);
        exit(2);
    }
    memset(b.bytes, fill, len ? len : 1);
    return b;
}

static inline struct buffer copy(struct buffer from)
{
    struct buffer b = block(from.len, 0);
    memcpy(b.bytes, from.bytes, from.len);
    return b;
}

static inline int same(struct buffer a, struct buffer b)
{
    return a.len == b.len && memcmp(a.bytes, b.bytes, a.len) == 0;
}

static inline uint64_t number_at(const uint8_t *p)
{
    uint64_t n = 0;
    for (int i = 7; i >= 0; i--)
        n = n << 8 | p[i];
    return n;
}

/* ---- records */

struct record {
    char mark[3];
    int fields;
    uint64_t a, b;
};

static const struct record no_more = {"", 0, 0, 0};

static inline size_t write_record(uint8_t *out, struct record r)
{
    uint64_t field[2] = {r.a, r.b};
    size_t n = 0;
    out[n++] = (uint8_t)r.mark[0];
    out[n++] = (uint8_t)r.mark[1];
    for (int f = 0; f < r.fields; f++)
        for (int i = 0; i < 8; i++)
            out[n++] = (uint8_t)(field[f] >> 8 * i);
    return n;
}

static inline struct buffer written(const struct record *records)
{
    size_t n = 0, count = 0;
    while (records[count].mark[0])
        n += 2 + 8 * (size_t)records[count++].fields;
    struct buffer b = block(n, 0);
    n = 0;
    for (size_t i = 0; i < count; i++)
        n += write_record(b.bytes + n, records[i]);
    return b;
}

#define GT(k) {"GT", 1, k, 0}
#define PK(k) {"PK", 1, k, 0}
#define RM(k) {"RM", 1, k, 0}
#define IN(k, v) {"IN", 2, k, v}
#define EV {"EV", 0, 0, 0}
#define CL {"CL", 0, 0, 0}
#define MI {"MI", 0, 0, 0}
#define OK {"OK", 0, 0, 0}
#define HI(v) {"HI", 1, v, 0}
#define RE(v) {"RE", 1, v, 0}
#define NW(n) {"NW", 1, n, 0}
#define GO(v) {"GO", 1, v, 0}
#define EX(k, v) {"EX", 2, k, v}
#define ES(k, v) {"ES", 2, k, v}
#define EM(k, v) {"EM", 2, k, v}

#define RECORDS(...) (const struct record[]){__VA_ARGS__, no_more}

/* ---- stores and random requests */

static inline struct buffer created(uint64_t capacity, double small_ratio, double ghost_ratio, size_t len)
{
    struct buffer store = block(len, 0xA5);
    CHECK(mapcache_create(capacity, small_ratio, ghost_ratio, store.bytes, store.len) == 0);
    return store;
}

#define KEYS 48

static inline uint64_t draw(uint64_t *seed, uint64_t below)
{
    *seed ^= *seed << 13, *seed ^= *seed >> 7, *seed ^= *seed << 17;
    return *seed % below;
}

static inline struct record random_request(uint64_t *seed)
{
    uint64_t k = draw(seed, KEYS), v = draw(seed, 1000);
    const struct record some[] = {GT(k), PK(k), RM(k), IN(k, v), IN(k, v), IN(k, v), GT(k), EV};
    const struct record clear = CL;
    return draw(seed, 100) == 0 ? clear : some[draw(seed, sizeof some / sizeof *some)];
}

#endif
