/* A host in C whose requests come in pieces: worked streams, every refusal of a feed and of a finish on both sides of its
 * limit and in its order, every way in which a carry can be bad, and streams that are cut at random. The answers by hand are
 * from the header.
 *
 * usage: feed [random streams] */
#include "common.h"

#define ROOM 1000
#define SURPLUS 5
#define LAST UINT64_MAX
#define POISON 0xDDDDDDDDDDDDDDDD
#define NONE (const struct record[]){no_more}

/* A stream: the store that it changes and its carry, which is lent with some surplus behind it. */
struct stream {
    struct buffer store, carry;
};

struct fed {
    int64_t answer;
    uint64_t detail;
};

static struct buffer bytes(const void *from, size_t len)
{
    struct buffer b = block(len, 0);
    memcpy(b.bytes, from, len);
    return b;
}

/* As much of the records as stands from one offset up to another. */
static struct buffer part(const struct record *records, size_t from, size_t to)
{
    struct buffer all = written(records), some = bytes(all.bytes + from, to - from);
    free(all.bytes);
    return some;
}

static struct buffer joined(struct buffer a, struct buffer b)
{
    struct buffer both = block(a.len + b.len, 0);
    memcpy(both.bytes, a.bytes, a.len);
    memcpy(both.bytes + a.len, b.bytes, b.len);
    free(a.bytes), free(b.bytes);
    return both;
}

/* The 32 bytes that the header gives for a carry. */
static struct buffer carry_of(uint64_t offset, const void *kept, size_t count, int stopped)
{
    struct buffer b = block(MAPCACHE_CARRY_BYTES, 0);
    for (int i = 0; i < 8; i++)
        b.bytes[i] = (uint8_t)(offset >> 8 * i);
    b.bytes[8] = (uint8_t)count, b.bytes[9] = (uint8_t)stopped;
    memcpy(b.bytes + 10, kept, count);
    return b;
}
#define GOING(offset, kept) carry_of(offset, kept, sizeof kept - 1, 0)
#define STOPPED(offset) carry_of(offset, "", 0, 1)

static struct stream stream_of(uint64_t capacity, struct buffer carry)
{
    struct stream s = {created(capacity, 0.1, 0.9, MAPCACHE_STORE_BYTES), joined(carry, block(SURPLUS, 0xC5))};
    return s;
}

static void end(struct stream s)
{
    free(s.store.bytes), free(s.carry.bytes);
}

/* ---- calls */

/* Feeds a piece, and checks what holds of every feed: both numbers are written, what is refused changes nothing, nothing is
 * written behind the replies and behind the carry. */
static struct fed feed(struct stream s, struct buffer piece, struct buffer replies, uint64_t *replied)
{
    struct buffer store = copy(s.store), carry = copy(s.carry), given = copy(piece), room = copy(replies);
    struct fed f = {0, POISON};
    *replied = POISON;
    f.answer = mapcache_feed(s.store.bytes, s.store.len, s.carry.bytes, s.carry.len, piece.bytes, piece.len, replies.bytes,
                             replies.len, replied, &f.detail);
    CHECK(*replied != POISON && f.detail != POISON && *replied <= replies.len);
    CHECK(same(piece, given));
    int stops = f.answer == -MAPCACHE_RECORD_BAD && !carry.bytes[9];
    if (f.answer >= 0)
        CHECK(f.detail == 0 && *replied == (uint64_t)f.answer);
    else if (stops)
        CHECK(s.carry.bytes[9] == 1 && number_at(s.carry.bytes) == f.detail);
    else
        CHECK(*replied == 0 && same(s.store, store) && same(s.carry, carry) && same(replies, room));
    if (*replied <= replies.len)
        CHECK(memcmp(replies.bytes + *replied, room.bytes + *replied, replies.len - *replied) == 0);
    for (size_t at = MAPCACHE_CARRY_BYTES; at < carry.len; at++)
        CHECK(s.carry.bytes[at] == carry.bytes[at]);
    free(store.bytes), free(carry.bytes), free(given.bytes), free(room.bytes);
    return f;
}

/* This piece gives exactly this answer, these replies and this carry. Piece and carry are the function's own. */
static void feeds(struct stream s, struct buffer piece, size_t room, struct fed wanted, const struct record *told,
                  struct buffer carry, int line)
{
    struct buffer replies = block(room, 0xEE), expected = written(told);
    uint64_t replied;
    struct fed f = feed(s, piece, replies, &replied);
    check(f.answer == wanted.answer && f.detail == wanted.detail, "answer and detail are those expected", __FILE__, line);
    check(replied == expected.len && memcmp(replies.bytes, expected.bytes, expected.len) == 0,
          "the replies are those expected", __FILE__, line);
    check(memcmp(s.carry.bytes, carry.bytes, carry.len) == 0, "the carry is the one expected", __FILE__, line);
    free(piece.bytes), free(replies.bytes), free(expected.bytes), free(carry.bytes);
}
#define FEEDS(s, piece, room, answer, detail, told, carry) \
    feeds(s, piece, room, (struct fed){answer, detail}, told, carry, __LINE__)

/* A feed that is refused, which changes nothing. */
static void refuses(struct stream s, struct buffer piece, size_t room, int number, uint64_t detail, int line)
{
    struct buffer carry = copy(s.carry);
    feeds(s, piece, room, (struct fed){-number, detail}, NONE, carry, line);
}
#define REFUSES(s, piece, room, number, detail) refuses(s, piece, room, number, detail, __LINE__)

static void finishes(struct stream s, int64_t answer, uint64_t detail, int line)
{
    struct buffer carry = copy(s.carry);
    uint64_t said = POISON;
    int64_t ended = mapcache_finish(s.carry.bytes, s.carry.len, &said);
    check(ended == answer && said == detail, "the finish is the one expected", __FILE__, line);
    CHECK(same(s.carry, carry));
    free(carry.bytes);
}
#define FINISHES(s, answer, detail) finishes(s, answer, detail, __LINE__)

/* ---- worked streams */

static void an_insert_in_two_pieces(void)
{
    struct stream s = stream_of(1, GOING(0, ""));
    FINISHES(s, 0, 0);
    FEEDS(s, part(RECORDS(IN(7, 70)), 0, 5), ROOM, 0, 0, NONE, GOING(0, "IN\7\0\0"));
    FINISHES(s, -9, 0);
    FEEDS(s, joined(part(RECORDS(IN(7, 70)), 5, 18), bytes("X", 1)), ROOM, 10, 0, RECORDS(NW(0)), GOING(18, "X"));
    FINISHES(s, -9, 18);
    FEEDS(s, bytes("X", 1), ROOM, -9, 18, NONE, STOPPED(18));
    /* it stays so, whatever comes, until the carry is zeroed */
    for (int again = 0; again < 2; again++) {
        REFUSES(s, bytes("CL", 2), ROOM, 9, 18);
        REFUSES(s, bytes("", 0), 0, 9, 18);
        REFUSES(s, block(32768, 'E'), 0, 9, 18);
        REFUSES(s, block(32769, 'E'), ROOM, 8, 0);
        FINISHES(s, -9, 18);
    }
    memset(s.carry.bytes, 0, MAPCACHE_CARRY_BYTES);
    FEEDS(s, part(RECORDS(GT(7)), 0, 10), ROOM, 10, 0, RECORDS(HI(70)), GOING(10, ""));
    FINISHES(s, 0, 0);
    end(s);
}

/* What was carried out before the mark counts: the pair that left is named by this feed alone. */
static void no_pair_leaves_untold(void)
{
    struct stream s = stream_of(1, GOING(0, ""));
    FEEDS(s, joined(written(RECORDS(IN(7, 70), IN(8, 80))), bytes("XX", 2)), ROOM, -9, 36, RECORDS(NW(0), ES(7, 70), NW(1)),
          STOPPED(36));
    memset(s.carry.bytes, 0, MAPCACHE_CARRY_BYTES);
    FEEDS(s, written(RECORDS(PK(7), PK(8))), ROOM, 12, 0, RECORDS(MI, HI(80)), GOING(20, ""));
    end(s);
}

/* Both bytes of a mark have to be there before it is judged. */
static void marks_that_are_cut(void)
{
    struct stream s = stream_of(2, GOING(0, ""));
    FEEDS(s, bytes("C", 1), ROOM, 0, 0, NONE, GOING(0, "C"));
    FEEDS(s, bytes("", 0), ROOM, 0, 0, NONE, GOING(0, "C"));
    FEEDS(s, bytes("LC", 2), ROOM, 2, 0, RECORDS(OK), GOING(2, "C"));
    FEEDS(s, bytes("LE", 2), ROOM, 2, 0, RECORDS(OK), GOING(4, "E"));
    FEEDS(s, bytes("VI", 2), ROOM, 2, 0, RECORDS(MI), GOING(6, "I"));
    FEEDS(s, part(RECORDS(IN(1, 10)), 1, 17), ROOM, 0, 0, NONE, GOING(6, "IN\1\0\0\0\0\0\0\0\12\0\0\0\0\0\0"));
    FEEDS(s, bytes("\0E", 2), ROOM, 10, 0, RECORDS(NW(0)), GOING(24, "E"));
    FEEDS(s, joined(bytes("X", 1), written(RECORDS(CL))), ROOM, -9, 24, NONE, STOPPED(24));
    FINISHES(s, -9, 24);
    end(s);
}

/* Each of two streams on one store has a carry of its own, and a run may stand between their feeds. */
static void two_streams_and_a_run(void)
{
    struct stream one = stream_of(1, GOING(0, "")), other = {one.store, joined(GOING(0, ""), block(SURPLUS, 0xC5))};
    struct buffer get = written(RECORDS(GT(7))), replies = block(10, 0xEE);
    uint64_t detail;
    FEEDS(one, part(RECORDS(IN(7, 70)), 0, 9), ROOM, 0, 0, NONE, GOING(0, "IN\7\0\0\0\0\0\0"));
    FEEDS(other, joined(written(RECORDS(IN(7, 71))), bytes("R", 1)), ROOM, 10, 0, RECORDS(NW(0)), GOING(18, "R"));
    CHECK(mapcache_run(one.store.bytes, one.store.len, get.bytes, get.len, replies.bytes, replies.len, &detail) == 10);
    CHECK(number_at(replies.bytes + 2) == 71);
    FEEDS(one, part(RECORDS(IN(7, 70)), 9, 18), ROOM, 10, 0, RECORDS(RE(71)), GOING(18, ""));
    FEEDS(other, part(RECORDS(RM(7)), 1, 10), ROOM, 10, 0, RECORDS(GO(70)), GOING(28, ""));
    free(get.bytes), free(replies.bytes), free(other.carry.bytes);
    end(one);
}

/* The two numbers alone have to be aligned. */
static void odd_addresses(void)
{
    struct buffer memory = block(1 + MAPCACHE_CARRY_BYTES, 0), replies = block(1 + 28, 0xEE);
    struct buffer piece = joined(bytes("?", 1), written(RECORDS(IN(7, 70))));
    struct stream s = {created(1, 0.1, 0.9, MAPCACHE_STORE_BYTES), {memory.bytes + 1, MAPCACHE_CARRY_BYTES}};
    uint64_t replied;
    struct fed f = feed(s, (struct buffer){piece.bytes + 1, 18}, (struct buffer){replies.bytes + 1, 28}, &replied);
    CHECK(f.answer == 10 && memcmp(replies.bytes, "\xEENW", 3) == 0 && number_at(s.carry.bytes) == 18);
    FINISHES(s, 0, 0);
    free(memory.bytes), free(replies.bytes), free(piece.bytes), free(s.store.bytes);
}

/* ---- refusals, on both sides of their limits and in their order */

static void short_and_damaged_stores(void)
{
    struct stream s = stream_of(1, GOING(0, "")), less = s, bad = {s.store, block(MAPCACHE_CARRY_BYTES, 1)};
    less.store.len = bad.store.len = MAPCACHE_STORE_BYTES - 1;
    REFUSES(less, bytes("CL", 2), ROOM, 6, 0);
    REFUSES(bad, block(32769, 'X'), 0, 6, 0);
    FEEDS(s, bytes("CL", 2), ROOM, 2, 0, RECORDS(OK), GOING(2, ""));
    s.store.bytes[8 * 5]++; /* one more in Small than there are */
    bad.store = s.store;
    REFUSES(s, bytes("CL", 2), ROOM, 7, 0);
    REFUSES(bad, block(32769, 'X'), 0, 7, 0);
    less.store.len = 0;
    REFUSES(less, bytes("", 0), 0, 6, 0);
    free(bad.carry.bytes);
    end(s);
}

/* The piece alone is judged, not the bytes kept in front of it. */
static void long_pieces(void)
{
    struct stream s = stream_of(1, GOING(0, "IN\7\0\0\0\0\0\0\0\106\0\0\0\0\0\0"));
    struct buffer clears = block(32768, 'C');
    for (size_t i = 2; i < clears.len; i += 2)
        clears.bytes[i] = 'L';
    clears.bytes[0] = 0;
    REFUSES(s, joined(bytes("\0", 1), copy(clears)), 0, 8, 0);
    REFUSES(s, copy(clears), 28 + 2 * 16383 - 1, 10, 28 + 2 * 16383);
    struct buffer replies = block(28 + 2 * 16383, 0xEE), after = GOING(32784, "C");
    uint64_t replied;
    struct fed f = feed(s, clears, replies, &replied);
    CHECK(f.answer == 10 + 2 * 16383);
    CHECK(memcmp(replies.bytes, "NW\0\0\0\0\0\0\0\0OKOK", 14) == 0);
    CHECK(memcmp(s.carry.bytes, after.bytes, after.len) == 0);
    free(clears.bytes), free(replies.bytes), free(after.bytes);
    end(s);
}

/* 10 is over the records that a feed completes, the one that was cut among them, and comes before a new 9. */
static void reply_room(void)
{
    const struct record *insert = RECORDS(IN(7, 70));
    struct stream s = stream_of(1, GOING(0, ""));
    REFUSES(s, joined(written(insert), bytes("XX", 2)), 27, 10, 28);
    FEEDS(s, joined(written(insert), bytes("XX", 2)), 28, -9, 18, RECORDS(NW(0)), STOPPED(18));
    REFUSES(s, bytes("CL", 2), 0, 9, 18); /* the 9 of a stream that has stopped comes before 10 */
    end(s);

    s = stream_of(1, GOING(0, "E"));
    REFUSES(s, bytes("V", 1), 35, 10, 36);
    FEEDS(s, bytes("V", 1), 36, 2, 0, RECORDS(MI), GOING(2, ""));
    FEEDS(s, part(insert, 0, 17), 0, 0, 0, NONE, GOING(2, "IN\7\0\0\0\0\0\0\0\106\0\0\0\0\0\0"));
    REFUSES(s, bytes("\0EVEVG", 6), 99, 10, 100);
    FEEDS(s, bytes("\0EVEVG", 6), 100, 32, 0, RECORDS(NW(0), ES(7, 70), MI, MI), GOING(24, "G"));
    end(s);
}

/* Every position fits 64 bits: a piece that ends behind offset 2^64-1 is turned away before its length is looked at. */
static void the_last_offsets(void)
{
    struct stream s = stream_of(1, GOING(LAST - 1, ""));
    FINISHES(s, 0, 0);
    REFUSES(s, bytes("CL", 2), ROOM, 17, 0);
    REFUSES(s, block(32769, 'E'), ROOM, 17, 0);
    FEEDS(s, bytes("C", 1), ROOM, 0, 0, NONE, GOING(LAST - 1, "C"));
    FEEDS(s, bytes("", 0), ROOM, 0, 0, NONE, GOING(LAST - 1, "C"));
    REFUSES(s, bytes("L", 1), ROOM, 17, 0);
    FINISHES(s, -9, LAST - 1);
    end(s);

    s = stream_of(1, GOING(LAST - 3, ""));
    REFUSES(s, block(32769, 'E'), ROOM, 17, 0);
    FEEDS(s, bytes("CLE", 3), ROOM, 2, 0, RECORDS(OK), GOING(LAST - 1, "E"));
    end(s);

    s = stream_of(1, GOING(LAST - 3, ""));
    FEEDS(s, bytes("XX?", 3), ROOM, -9, LAST - 3, NONE, STOPPED(LAST - 3));
    REFUSES(s, block(32768, 'E'), ROOM, 9, LAST - 3); /* it takes nothing, so it does not end too far */
    REFUSES(s, block(32769, 'E'), ROOM, 8, 0);
    FINISHES(s, -9, LAST - 3);
    end(s);
}

/* ---- carries */

/* The store and this carry, which the function takes: a feed and a finish turn it away, whatever else is wrong. */
static void bad_carry(struct buffer store, struct buffer carry, int line)
{
    struct stream s = {store, joined(carry, block(SURPLUS, 0xC5))};
    refuses(s, bytes("", 0), ROOM, MAPCACHE_CARRY_BAD, 0, line);
    refuses(s, bytes("\0", 1), ROOM, MAPCACHE_CARRY_BAD, 0, line);
    refuses(s, block(32769, 'X'), 0, MAPCACHE_CARRY_BAD, 0, line);
    finishes(s, -MAPCACHE_CARRY_BAD, 0, line);
    free(s.carry.bytes);
}
#define BAD_CARRY(store, carry) bad_carry(store, carry, __LINE__)

/* This one is good: a feed of 0 bytes leaves it as it is, or gives the 9 of a stream that has stopped. */
static void good_carry(struct buffer store, struct buffer carry, int line)
{
    struct stream s = {store, joined(carry, block(SURPLUS, 0xC5))};
    uint64_t offset = number_at(s.carry.bytes);
    int kept = s.carry.bytes[8], stopped = s.carry.bytes[9];
    struct fed wanted = {stopped ? -9 : 0, stopped ? offset : 0};
    feeds(s, bytes("", 0), 0, wanted, NONE, copy(s.carry), line);
    finishes(s, kept || stopped ? -9 : 0, kept || stopped ? offset : 0, line);
    free(s.carry.bytes);
}
#define GOOD_CARRY(store, carry) good_carry(store, carry, __LINE__)

static void bytes_kept(struct buffer store)
{
    const char insert[23] = "IN", get[23] = "GT", none[23] = "XX", evict[23] = "EV", clear[23] = "CL";
    for (int first = 0; first < 256; first++) {
        uint8_t byte = (uint8_t)first;
        GOOD_CARRY(store, carry_of(0, &byte, 1, 0));
    }
    for (size_t count = 2; count <= 22; count++) {
        (count < 18 ? good_carry : bad_carry)(store, carry_of(40, insert, count, 0), __LINE__);
        (count < 10 ? good_carry : bad_carry)(store, carry_of(40, get, count, 0), __LINE__);
        BAD_CARRY(store, carry_of(40, none, count, 0));
        BAD_CARRY(store, carry_of(40, evict, count, 0));
        BAD_CARRY(store, carry_of(40, clear, count, 0));
    }
    for (int count = 18; count < 256; count++) {
        struct buffer carry = GOING(40, "IN");
        carry.bytes[8] = (uint8_t)count;
        BAD_CARRY(store, carry);
    }
}

static void zeros_behind_them(struct buffer store)
{
    const char insert[18] = "IN";
    const size_t counts[] = {0, 1, 2, 9, 16, 17};
    for (size_t c = 0; c < sizeof counts / sizeof *counts; c++)
        for (size_t at = 10 + counts[c]; at < MAPCACHE_CARRY_BYTES; at++) {
            struct buffer carry = carry_of(6, insert, counts[c], 0);
            carry.bytes[at] = at % 2 ? 1 : 255;
            BAD_CARRY(store, carry);
        }
    for (size_t at = 10; at < MAPCACHE_CARRY_BYTES; at++) {
        struct buffer carry = STOPPED(6);
        carry.bytes[at] = at % 2 ? 1 : 255;
        BAD_CARRY(store, carry);
    }
}

static void stopped_or_not(struct buffer store)
{
    for (int byte = 2; byte < 256; byte++)
        BAD_CARRY(store, carry_of(0, "", 0, byte));
    GOOD_CARRY(store, STOPPED(0));
    GOOD_CARRY(store, STOPPED(6));
    BAD_CARRY(store, carry_of(6, "C", 1, 1));
    BAD_CARRY(store, carry_of(6, "\0", 1, 1)); /* the byte kept is 0, but it is kept */
    BAD_CARRY(store, carry_of(6, "IN\1", 3, 1));
}

static void offsets(struct buffer store)
{
    BAD_CARRY(store, GOING(1, ""));
    BAD_CARRY(store, GOING(7, "C"));
    BAD_CARRY(store, STOPPED(1));
    BAD_CARRY(store, GOING(LAST, ""));
    BAD_CARRY(store, STOPPED(LAST));
    GOOD_CARRY(store, GOING(LAST - 1, ""));
    GOOD_CARRY(store, GOING(LAST - 1, "C"));
    BAD_CARRY(store, GOING(LAST - 1, "GT"));
    GOOD_CARRY(store, GOING(LAST - 3, "GT\0"));
    BAD_CARRY(store, GOING(LAST - 3, "GT\0\0"));
    GOOD_CARRY(store, STOPPED(LAST - 3));
    BAD_CARRY(store, STOPPED(LAST - 1));
}

static void lengths(struct buffer store)
{
    for (size_t len = 0; len < MAPCACHE_CARRY_BYTES; len++) {
        struct stream s = {store, block(len, 0)};
        REFUSES(s, bytes("", 0), ROOM, 17, 0);
        REFUSES(s, block(32769, 'X'), 0, 17, 0);
        FINISHES(s, -17, 0);
        free(s.carry.bytes);
    }
    struct stream s = {store, block(MAPCACHE_CARRY_BYTES, 0)};
    FEEDS(s, bytes("", 0), 0, 0, 0, NONE, GOING(0, ""));
    FINISHES(s, 0, 0);
    free(s.carry.bytes);
}

static void carries(void)
{
    struct buffer store = created(1, 0.1, 0.9, MAPCACHE_STORE_BYTES);
    bytes_kept(store);
    zeros_behind_them(store);
    stopped_or_not(store);
    offsets(store);
    lengths(store);
    free(store.bytes);
}

/* ---- streams cut at random, beside the same requests in one run */

#define MOST_REQUESTS 40

/* How a stream ends behind its last whole record: with nothing, with a record that is cut, with a mark that is none. */
static const char *const ends[] = {"", "I", "PK\1\2\3", "??", "?!"};

/* The replies to the stream, fed in pieces of random length. */
static struct buffer fed_in_pieces(struct stream s, struct buffer stream, uint64_t *seed, unsigned long *pieces)
{
    struct buffer all = block(0, 0);
    uint64_t longest = 1 + draw(seed, 1 + draw(seed, stream.len + 1));
    for (size_t at = 0; at < stream.len; ++*pieces) {
        size_t len = draw(seed, longest + 1);
        struct buffer piece = bytes(stream.bytes + at, len < stream.len - at ? len : stream.len - at);
        struct buffer replies = block(18 * (piece.len + 17), 0xEE);
        uint64_t replied;
        struct fed f = feed(s, piece, replies, &replied);
        CHECK(f.answer >= 0 || f.answer == -MAPCACHE_RECORD_BAD);
        replies.len = replied;
        all = joined(all, copy(replies));
        at += piece.len;
        free(piece.bytes), free(replies.bytes);
    }
    return all;
}

static struct buffer run_at_once(struct buffer store, struct buffer requests)
{
    struct buffer replies = block(18 * requests.len, 0xEE);
    uint64_t detail;
    int64_t n = mapcache_run(store.bytes, store.len, requests.bytes, requests.len, replies.bytes, replies.len, &detail);
    CHECK(n >= 0);
    replies.len = n < 0 ? 0 : (size_t)n;
    return replies;
}

/* One stream over a store and, in one run, its whole records over another: the same replies, and the same pairs are handed
 * back after it. */
static unsigned long random_stream(uint64_t *seed)
{
    struct stream s = stream_of(1 + draw(seed, 20), GOING(0, ""));
    struct buffer beside = copy(s.store);
    struct record asked[MOST_REQUESTS + 1];
    size_t count = draw(seed, MOST_REQUESTS + 1);
    for (size_t i = 0; i < count; i++)
        asked[i] = random_request(seed);
    asked[count] = no_more;
    const char *ending = ends[draw(seed, sizeof ends / sizeof *ends)];
    struct buffer requests = written(asked), stream = joined(copy(requests), bytes(ending, strlen(ending)));
    unsigned long pieces = 0;
    struct buffer told = fed_in_pieces(s, stream, seed, &pieces), expected = run_at_once(beside, requests);
    CHECK(same(told, expected));
    FINISHES(s, *ending ? -9 : 0, *ending ? requests.len : 0);
    struct buffer drain = block(2 * 40, 'E');
    for (size_t i = 1; i < drain.len; i += 2)
        drain.bytes[i] = 'V';
    struct buffer left = run_at_once(s.store, drain), left_beside = run_at_once(beside, drain);
    CHECK(same(left, left_beside));
    free(beside.bytes), free(requests.bytes), free(stream.bytes), free(told.bytes), free(expected.bytes);
    free(drain.bytes), free(left.bytes), free(left_beside.bytes);
    end(s);
    return pieces;
}

int main(int argc, char **argv)
{
    unsigned long streams = argc > 1 ? strtoul(argv[1], NULL, 10) : 2000, pieces = 0;
    uint64_t seed = 88172645463325252;
    an_insert_in_two_pieces();
    no_pair_leaves_untold();
    marks_that_are_cut();
    two_streams_and_a_run();
    odd_addresses();
    short_and_damaged_stores();
    long_pieces();
    reply_room();
    the_last_offsets();
    carries();
    for (unsigned long n = 0; n < streams; n++)
        pieces += random_stream(&seed);
    CHECK(pieces > streams || streams == 0);
    printf("c host, pieces: %lu random streams in %lu pieces, the same replies as in one run\n", streams, pieces);
    printf("c host, pieces: %lu checks, %lu failed\n", checks, failures);
    return failures != 0 || checks == 0;
}
