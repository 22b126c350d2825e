/* A host in C: the worked traces, the recorded steps with every refusal of a creation and of a run on both sides of its limit, and random calls with
 * a ledger. Requests in pieces are in feed.c.
 *
 * usage: test STEPS [random calls [file]]: STEPS is what tools/make_calls.py writes; the file gets the store as trace D
 * leaves it, for tools that read stores. */
#include "common.h"

#include <math.h>
#include <xmmintrin.h>

/* ---- calls */

/* Runs a call, and checks what holds of every call: *detail is written, and a refusal changes nothing. */
static int64_t run(struct buffer store, struct buffer requests, struct buffer replies, uint64_t *detail)
{
    struct buffer store_before = copy(store), requests_before = copy(requests), replies_before = copy(replies);
    *detail = 0xDDDDDDDDDDDDDDDD;
    int64_t answer = mapcache_run(store.bytes, store.len, requests.bytes, requests.len, replies.bytes, replies.len, detail);
    CHECK(*detail != 0xDDDDDDDDDDDDDDDD);
    CHECK(same(requests, requests_before));
    if (answer < 0) {
        CHECK(same(store, store_before) && same(replies, replies_before));
    } else {
        size_t n = (size_t)answer;
        CHECK(*detail == 0 && n <= replies.len);
        CHECK(memcmp(replies.bytes + n, replies_before.bytes + n, replies.len - n) == 0);
    }
    free(store_before.bytes);
    free(requests_before.bytes);
    free(replies_before.bytes);
    return answer;
}

/* The requests in one call give exactly these replies. */
static void gives(struct buffer store, const struct record *asked, const struct record *told, int line)
{
    struct buffer requests = written(asked), expected = written(told), replies = block(4096, 0xEE);
    uint64_t detail;
    int64_t n = run(store, requests, replies, &detail);
    int as_expected = n == (int64_t)expected.len && memcmp(replies.bytes, expected.bytes, expected.len) == 0;
    check(as_expected, "the replies are those expected", __FILE__, line);
    free(requests.bytes);
    free(expected.bytes);
    free(replies.bytes);
}
#define GIVES(store, asked, told) gives(store, asked, told, __LINE__)

/* ---- the worked traces */

static void trace_a(void)
{
    struct buffer s = created(1, 0.1, 0.9, MAPCACHE_STORE_BYTES);
    GIVES(s, RECORDS(IN(7, 70), IN(8, 80), IN(7, 71)), RECORDS(NW(0), ES(7, 70), NW(1), ES(8, 80), NW(1)));
    GIVES(s, RECORDS(PK(7), PK(8), RM(8), RM(7), EV), RECORDS(HI(71), MI, MI, GO(71), MI));
    free(s.bytes);
}

/* Traces B, C, D and E go on with one store. Where a file is named it gets the store after D. */
static void traces_b_to_e(const char *file)
{
    struct buffer s = created(2, 0.1, 0.9, MAPCACHE_STORE_BYTES);
    GIVES(s, RECORDS(IN(1, 10), GT(1), IN(2, 20), IN(3, 30)), RECORDS(NW(0), HI(10), NW(0), ES(2, 20), NW(2)));
    GIVES(s, RECORDS(IN(2, 21)), RECORDS(ES(3, 30), NW(1)));
    GIVES(s, RECORDS(GT(1), GT(1), GT(1), GT(1), GT(2), IN(4, 40)),
          RECORDS(HI(10), HI(10), HI(10), HI(10), HI(21), EM(2, 21), NW(4)));
    if (file != NULL) {
        FILE *out = fopen(file, "wb");
        CHECK(out != NULL && fwrite(s.bytes, 1, s.len, out) == s.len && fclose(out) == 0);
    }
    GIVES(s, RECORDS(EV), RECORDS(ES(4, 40), EX(1, 10)));
    GIVES(s, RECORDS(EV), RECORDS(MI));
    free(s.bytes);
}

static void traces_f_to_h(void)
{
    struct buffer s = created(1, 0.1, 0.9, MAPCACHE_STORE_BYTES);
    GIVES(s, RECORDS(IN(7, 70), EV), RECORDS(NW(0), ES(7, 70), MI));
    free(s.bytes);
    s = created(2, 1.0, 0.9, MAPCACHE_STORE_BYTES);
    GIVES(s, RECORDS(IN(1, 10), IN(2, 20), IN(3, 30)), RECORDS(NW(0), NW(0), ES(1, 10), NW(1)));
    free(s.bytes);
    s = created(1, 0.1, 0.0, MAPCACHE_STORE_BYTES);
    GIVES(s, RECORDS(IN(7, 70), IN(8, 80), IN(7, 71)), RECORDS(NW(0), ES(7, 70), NW(1), ES(8, 80), NW(1)));
    /* with no ghosts 7 came back to Small, so it leaves from there */
    GIVES(s, RECORDS(IN(9, 90)), RECORDS(ES(7, 71), NW(1)));
    free(s.bytes);
}

static void clear_and_largest(void)
{
    const uint64_t most = UINT64_MAX;
    struct buffer s = created(3, 0.1, 0.9, MAPCACHE_STORE_BYTES);
    GIVES(s, RECORDS(IN(0, 0), IN(most, most), GT(0), PK(most), IN(0, most)), RECORDS(NW(0), NW(0), HI(0), HI(most), RE(0)));
    GIVES(s, RECORDS(CL, GT(0), EV), RECORDS(OK, MI, MI));
    free(s.bytes);
}

/* ---- recorded steps: what tools/make_calls.py has from docs/RULES.md, whichever refusals those are */

enum { FILL, LAY, CREATE, RUN };
#define STEP_BYTES 32
#define REFUSALS 256

/* Six numbers of 4 bytes and one of 8, then as many bytes given and wanted as they say. */
struct step {
    uint32_t kind, store_len, room, number;
    struct buffer given, wanted;
    uint64_t detail;
};

static uint32_t word_at(const uint8_t *p)
{
    return p[0] | (uint32_t)p[1] << 8 | (uint32_t)p[2] << 16 | (uint32_t)p[3] << 24;
}

static double ratio_at(const uint8_t *p)
{
    uint64_t bits = number_at(p);
    double ratio;
    memcpy(&ratio, &bits, sizeof ratio);
    return ratio;
}

static struct buffer file_read(const char *path)
{
    FILE *in = fopen(path, "rb");
    long len = in != NULL && fseek(in, 0, SEEK_END) == 0 ? ftell(in) : -1;
    if (len < 0) {
        fprintf(stderr, "test.c: %s cannot be read\n", path);
        exit(2);
    }
    struct buffer all = block((size_t)len, 0);
    rewind(in);
    CHECK(fread(all.bytes, 1, all.len, in) == all.len);
    fclose(in);
    return all;
}

/* The step at this place; one that is cut ends the test. */
static struct step step_at(struct buffer all, size_t at)
{
    const size_t left = all.len - at;
    struct step s = {0, 0, 0, 0, {all.bytes, 0}, {all.bytes, 0}, 0};
    if (left >= STEP_BYTES) {
        const uint8_t *p = all.bytes + at;
        s.kind = word_at(p), s.store_len = word_at(p + 4), s.room = word_at(p + 8), s.number = word_at(p + 12);
        s.given.len = word_at(p + 16), s.wanted.len = word_at(p + 20), s.detail = number_at(p + 24);
        s.given.bytes = all.bytes + at + STEP_BYTES;
        s.wanted.bytes = s.given.bytes + s.given.len;
    }
    if (left < STEP_BYTES || left - STEP_BYTES < s.given.len + s.wanted.len) {
        fprintf(stderr, "test.c: the step at byte %zu is cut short\n", at);
        exit(2);
    }
    return s;
}

/* Creation in the memory's first bytes, which are lent as a block of their own. */
static void step_create(struct step s, struct buffer memory)
{
    struct buffer front = {memory.bytes, s.store_len}, store = copy(front);
    const uint8_t *settings = s.given.bytes + 2;
    int64_t answer = mapcache_create(number_at(settings), ratio_at(settings + 8), ratio_at(settings + 16), store.bytes, store.len);
    CHECK(answer == -(int64_t)s.number);
    if (answer != 0)
        CHECK(same(store, front));
    memcpy(front.bytes, store.bytes, store.len);
    free(store.bytes);
}

static void step_run(struct step s, struct buffer memory)
{
    struct buffer front = {memory.bytes, s.store_len}, store = copy(front);
    struct buffer requests = copy(s.given), replies = block(s.room, 0xEE);
    uint64_t detail;
    int64_t answer = run(store, requests, replies, &detail);
    if (s.number == 0)
        CHECK(answer == (int64_t)s.wanted.len && memcmp(replies.bytes, s.wanted.bytes, s.wanted.len) == 0);
    else
        CHECK(answer == -(int64_t)s.number && detail == s.detail);
    memcpy(front.bytes, store.bytes, store.len);
    free(store.bytes), free(requests.bytes), free(replies.bytes);
}

static void recorded_steps(const char *path)
{
    struct buffer all = file_read(path), memory = block(MAPCACHE_STORE_BYTES + 100, 0);
    unsigned long steps = 0, refused[REFUSALS] = {0};
    for (size_t at = 0; at < all.len; steps++) {
        struct step s = step_at(all, at);
        at += STEP_BYTES + s.given.len + s.wanted.len;
        CHECK(s.kind <= RUN && s.number < REFUSALS && s.store_len <= memory.len);
        if (s.kind == FILL)
            memset(memory.bytes, (int)s.number, memory.len);
        else if (s.kind == LAY)
            memcpy(memory.bytes + s.room, s.given.bytes, s.given.len);
        else if (s.kind == CREATE)
            step_create(s, memory);
        else
            step_run(s, memory);
        refused[s.kind >= CREATE ? s.number : 0]++;
    }
    unsigned last = REFUSALS - 1;
    while (last > 0 && refused[last] == 0)
        last--;
    CHECK(last > 0);
    for (unsigned number = 1; number <= last; number++)
        CHECK(refused[number] > 0);
    printf("c host: %lu recorded steps, refusals 1 to %u among them\n", steps, last);
    free(all.bytes), free(memory.bytes);
}

static void surplus_is_untouched(void)
{
    struct buffer s = created(1024, 1.0, 1.0, MAPCACHE_STORE_BYTES + 100);
    for (uint64_t k = 0; k < 3000; k++) {
        struct buffer requests = written(RECORDS(IN(k, k)));
        uint8_t replies[28];
        uint64_t detail;
        int64_t n = mapcache_run(s.bytes, s.len, requests.bytes, requests.len, replies, sizeof replies, &detail);
        CHECK(n == (k < 1024 ? 10 : 28));
        free(requests.bytes);
    }
    for (size_t i = MAPCACHE_STORE_BYTES; i < s.len; i++)
        CHECK(s.bytes[i] == 0xA5);
    free(s.bytes);
}

/* A creation compares its ratios, and calculates with none that it refuses: a host may have invalid operations trapped, and 0.0 times an infinity, or one
 * taken from itself, is such an operation. The processor keeps in bit 0 whether there was one. The proof knows of no such bit. */
static void refused_ratios_only_compared(void)
{
    static const double ratios[] = {INFINITY, -INFINITY, NAN, -1.0};
    struct buffer s = block(MAPCACHE_STORE_BYTES, 0xA5);
    unsigned int invalid = 0;
    for (size_t i = 0; i < sizeof ratios / sizeof *ratios; i++) {
        _mm_setcsr(_mm_getcsr() & ~0x3Fu);
        int refused = mapcache_create(10, ratios[i], 0.9, s.bytes, s.len) == -MAPCACHE_SMALL_RATIO_BAD &&
                      mapcache_create(10, 0.1, ratios[i], s.bytes, s.len) == -MAPCACHE_GHOST_RATIO_BAD;
        invalid |= !refused || (_mm_getcsr() & 1) != 0;
    }
    CHECK(!invalid);
    free(s.bytes);
}

/* ---- random calls: every pair that went in is resident or was handed out */

#define CALL 12

struct ledger {
    int resident[KEYS];
    uint64_t value[KEYS];
    unsigned long left;
};

static void pair_leaves(struct ledger *l, uint64_t k, uint64_t v)
{
    CHECK(k < KEYS && l->resident[k] && l->value[k] == v);
    if (k < KEYS)
        l->resident[k] = 0;
    l->left++;
}

/* Books the replies to one request, and answers how many bytes they take. */
static size_t book(struct ledger *l, struct record asked, const uint8_t *told)
{
    size_t at = 0;
    uint64_t k = asked.a;
    if (memcmp(told, "ES", 2) == 0 || memcmp(told, "EM", 2) == 0) {
        CHECK(asked.mark[0] == 'I' || asked.mark[0] == 'E');
        pair_leaves(l, number_at(told + 2), number_at(told + 10));
        at = 18;
    }
    if (memcmp(told + at, "EX", 2) == 0) {
        pair_leaves(l, number_at(told + at + 2), number_at(told + at + 10));
        return at + 18;
    }
    if (memcmp(told + at, "OK", 2) == 0) {
        memset(l->resident, 0, sizeof l->resident);
        return at + 2;
    }
    if (memcmp(told + at, "MI", 2) == 0) {
        CHECK(asked.mark[0] == 'E' || !l->resident[k]);
        return at + 2;
    }
    uint64_t n = number_at(told + at + 2);
    if (memcmp(told + at, "NW", 2) == 0)
        CHECK(!l->resident[k] && (n > 0) == (at > 0));
    else
        CHECK(l->resident[k] && l->value[k] == n); /* HI, RE, GO: the value that the key had */
    if (asked.mark[0] == 'R')
        l->resident[k] = 0;
    if (asked.mark[0] == 'I')
        l->resident[k] = 1, l->value[k] = asked.b;
    return at + 10;
}

static void random_calls(unsigned long calls)
{
    uint64_t seed = 88172645463325252;
    unsigned long left = 0;
    struct buffer store = {NULL, 0};
    struct ledger ledger;
    memset(&ledger, 0, sizeof ledger);
    for (unsigned long call = 0; call < calls; call++) {
        if (call % 64 == 0) {
            free(store.bytes);
            uint64_t capacity = 1 + draw(&seed, 20), small_tenths = draw(&seed, 11), ghost_tenths = draw(&seed, 21);
            store = created(capacity, (double)small_tenths / 10, (double)ghost_tenths / 10, MAPCACHE_STORE_BYTES);
            left += ledger.left;
            memset(&ledger, 0, sizeof ledger);
        }
        struct record asked[CALL + 1];
        size_t count = draw(&seed, CALL + 1);
        for (size_t i = 0; i < count; i++)
            asked[i] = random_request(&seed);
        asked[count] = no_more;
        struct buffer requests = written(asked), replies = block(36 * CALL, 0xEE);
        uint64_t detail;
        int64_t n = run(store, requests, replies, &detail);
        size_t at = 0;
        for (size_t i = 0; i < count; i++)
            at += book(&ledger, asked[i], replies.bytes + at);
        CHECK(n == (int64_t)at);
        free(requests.bytes);
        free(replies.bytes);
    }
    free(store.bytes);
    left += ledger.left;
    CHECK(left > 0 || calls == 0);
    printf("c host: %lu random calls, %lu pairs pushed out or handed back, each one named\n", calls, left);
}

int main(int argc, char **argv)
{
    if (argc < 2) {
        fprintf(stderr, "usage: test STEPS [random calls [file]]\n");
        return 2;
    }
    unsigned long calls = argc > 2 ? strtoul(argv[2], NULL, 10) : 20000;
    CHECK(mapcache_store_bytes() == MAPCACHE_STORE_BYTES);
    trace_a();
    traces_b_to_e(argc > 3 ? argv[3] : NULL);
    traces_f_to_h();
    clear_and_largest();
    recorded_steps(argv[1]);
    surplus_is_untouched();
    refused_ratios_only_compared();
    random_calls(calls);
    printf("c host: %lu checks, %lu failed\n", checks, failures);
    return failures != 0 || checks == 0;
}
