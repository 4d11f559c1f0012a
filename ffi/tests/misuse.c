/* Every allocation refused in turn, handles misused, blocks and coins read back, where blocks stand, and threads that fight
 * for a handle. Prints nothing where all is well. malloc, calloc and realloc go by the wrappers below (the linker's --wrap). */
#include <pthread.h>
#include <stdio.h>
#include <stdlib.h>
#include <string.h>
#include <wakotehu.h>

#include "../examples/blocks.h"

static long left = -1; /* so many allocations until one is refused; below 0: none is */

void *__real_malloc(size_t size);
void *__real_calloc(size_t count, size_t size);
void *__real_realloc(void *old, size_t size);

void *__wrap_malloc(size_t size) { return left >= 0 && left-- == 0 ? NULL : __real_malloc(size); }
void *__wrap_calloc(size_t count, size_t size) { return left >= 0 && left-- == 0 ? NULL : __real_calloc(count, size); }
void *__wrap_realloc(void *old, size_t size) { return left >= 0 && left-- == 0 ? NULL : __real_realloc(old, size); }

static const wakotehu_heights regtest = {1, 1, 1, 1};
static const uint64_t now = 1296690000;

#define EXPECT(holds)                                                          \
    do {                                                                       \
        if (!(holds)) {                                                        \
            fprintf(stderr, "%s:%d: %s\n", __FILE__, __LINE__, #holds);        \
            exit(1);                                                           \
        }                                                                      \
    } while (0)

static wakotehu_handle opened(void) {
    wakotehu_handle chain = 0;
    EXPECT(wakotehu_open(&chain, &regtest, NULL, 0, NULL) == WAKOTEHU_OK);
    return chain;
}

static uint32_t submitted(wakotehu_handle chain, const uint8_t *block, size_t length) {
    wakotehu_answer answer;
    EXPECT(wakotehu_submit(chain, block, length, now, &answer) == WAKOTEHU_OK);
    return answer.reply;
}

/* How many coins there are, and their sum. */
struct counted {
    uint64_t coins;
    int64_t sum;
};

static int count(void *context, const uint8_t *id, uint32_t index, const wakotehu_coin *coin, const uint8_t *script) {
    struct counted *counted = context;
    EXPECT(id && index == 0 && coin->script == 1 && script[0] == 0x51 && coin->coinbase == 1);
    counted->coins++;
    counted->sum += coin->value;
    return 0;
}

/* What a chainstate tells of itself. */
struct told {
    uint8_t best[32];
    uint64_t height;
    wakotehu_tip tips[4];
    wakotehu_code coins[2];
    wakotehu_code blocks[3];
    struct counted counted;
};

static struct told told(wakotehu_handle chain) {
    struct told it;
    wakotehu_coin coin;
    uint8_t script[8];
    size_t needed;
    memset(&it, 0, sizeof it);
    EXPECT(wakotehu_best(chain, it.best) == WAKOTEHU_OK);
    EXPECT(wakotehu_height(chain, &it.height) == WAKOTEHU_OK);
    for (size_t place = 0; place < 4; place++) {
        wakotehu_code code = wakotehu_tip_at(chain, place, &it.tips[place]);
        EXPECT(code == WAKOTEHU_OK || code == WAKOTEHU_NONE);
    }
    it.coins[0] = wakotehu_coin_at(chain, b1_coinbase, 0, &coin, script, sizeof script);
    it.coins[1] = wakotehu_coin_at(chain, c1_coinbase, 0, &coin, script, sizeof script);
    it.blocks[0] = wakotehu_block(chain, c1 + 4, NULL, 0, &needed);
    it.blocks[1] = wakotehu_block(chain, c2 + 4, NULL, 0, &needed);
    it.blocks[2] = wakotehu_block(chain, it.best, NULL, 0, &needed);
    EXPECT(wakotehu_coins(chain, count, &it.counted) == WAKOTEHU_OK);
    return it;
}

/* What a call gave, and what the chainstate tells after it. */
struct given {
    wakotehu_answer answer;
    wakotehu_tip tip;
    struct counted counted;
    struct told after;
};

/* The calls that take memory, after the blocks b1 and c1. */
enum { CALLS = 8 };

static wakotehu_code nth_call(int call, wakotehu_handle chain, struct given *it, wakotehu_handle *other) {
    uint8_t id[32];
    memset(it, 0, sizeof *it);
    EXPECT(wakotehu_best(chain, id) == WAKOTEHU_OK);
    switch (call) {
    case 0: return wakotehu_submit(chain, c2, sizeof c2, now, &it->answer);
    case 1: return wakotehu_invalidate(chain, id, &it->answer);
    case 2: return wakotehu_reconsider(chain, id, &it->answer);
    case 3: return wakotehu_precious(chain, id, &it->answer);
    case 4: return wakotehu_tip_at(chain, 0, &it->tip);
    case 5: return wakotehu_submit(chain, b1, 40, now, &it->answer);
    case 6: return wakotehu_coins(chain, count, &it->counted);
    default: return wakotehu_open(other, &regtest, "# no signature\n", 15, NULL);
    }
}

/* Makes a call on a new chainstate with the nth of its allocations refused, from 0 (below 0: none is), and once more
 * where that was met: the first is told by the code, and changes nothing. */
static struct given given_by(int call, long n, int *met) {
    wakotehu_handle chain = opened(), other = 0;
    struct given it;
    EXPECT(submitted(chain, b1, sizeof b1) == WAKOTEHU_ACCEPTED);
    EXPECT(submitted(chain, c1, sizeof c1) == WAKOTEHU_INCONCLUSIVE);
    struct told before = told(chain);
    left = n;
    wakotehu_code code = nth_call(call, chain, &it, &other);
    *met = n >= 0 && left < 0;
    left = -1;
    EXPECT(code == (*met ? WAKOTEHU_MEMORY : WAKOTEHU_OK));
    if (*met) {
        struct told after = told(chain);
        EXPECT(memcmp(&before, &after, sizeof before) == 0);
        EXPECT(other == 0);
        EXPECT(nth_call(call, chain, &it, &other) == WAKOTEHU_OK);
    }
    it.after = told(chain);
    EXPECT(!other || wakotehu_close(other) == WAKOTEHU_OK);
    EXPECT(wakotehu_close(chain) == WAKOTEHU_OK);
    return it;
}

/* Each call ends in what it gives where nothing is refused, and each takes memory. */
static void refused_allocations(void) {
    for (int call = 0; call < CALLS; call++) {
        int met;
        struct given right = given_by(call, -1, &met);
        long n = 0;
        do {
            struct given it = given_by(call, n, &met);
            EXPECT(memcmp(&right, &it, sizeof right) == 0);
        } while (met && ++n);
        EXPECT(n > 0);
    }
}

static void misused_handles(void) {
    wakotehu_handle chain = opened(), wrong[] = {0, 1, 255, UINT64_MAX, chain + 1, chain + 256, chain << 32, 0};
    wakotehu_answer answer;
    wakotehu_coin coin;
    wakotehu_tip tip;
    uint8_t id[32] = {0};
    uint64_t height, line = 7;
    wakotehu_handle none;
    EXPECT(wakotehu_submit(chain, NULL, 1, now, &answer) == WAKOTEHU_NULL);
    EXPECT(wakotehu_submit(chain, b1, SIZE_MAX, now, &answer) == WAKOTEHU_NULL);
    EXPECT(wakotehu_submit(chain, b1, sizeof b1, now, NULL) == WAKOTEHU_NULL);
    EXPECT(wakotehu_submit(chain, NULL, 0, now, &answer) == WAKOTEHU_OK && answer.reply == WAKOTEHU_DECODE_FAILED);
    EXPECT(wakotehu_best(chain, NULL) == WAKOTEHU_NULL && wakotehu_height(chain, NULL) == WAKOTEHU_NULL);
    EXPECT(wakotehu_invalidate(chain, NULL, &answer) == WAKOTEHU_NULL);
    EXPECT(wakotehu_tip_at(chain, 0, NULL) == WAKOTEHU_NULL && wakotehu_tip_at(chain, 1, &tip) == WAKOTEHU_NONE);
    EXPECT(wakotehu_coin_at(chain, NULL, 0, &coin, NULL, 0) == WAKOTEHU_NULL);
    EXPECT(wakotehu_coin_at(chain, id, 0, &coin, NULL, 1) == WAKOTEHU_NULL);
    EXPECT(wakotehu_coin_at(chain, id, 0, &coin, NULL, 0) == WAKOTEHU_NONE);
    EXPECT(wakotehu_open(NULL, &regtest, NULL, 0, NULL) == WAKOTEHU_NULL);
    EXPECT(wakotehu_open(&none, NULL, NULL, 0, NULL) == WAKOTEHU_NULL);
    EXPECT(wakotehu_open(&none, &regtest, "#\nnonsense\n", 11, &line) == WAKOTEHU_BAD_TABLE && line == 2);
    EXPECT(submitted(chain, b1, sizeof b1) == WAKOTEHU_ACCEPTED);
    EXPECT(wakotehu_coin_at(chain, b1_coinbase, 0, &coin, NULL, 0) == WAKOTEHU_TOO_SMALL && coin.script == 1);
    EXPECT(wakotehu_close(chain) == WAKOTEHU_OK);
    wrong[7] = chain;
    for (size_t n = 0; n < sizeof wrong / sizeof *wrong; n++) {
        EXPECT(wakotehu_submit(wrong[n], b1, sizeof b1, now, &answer) == WAKOTEHU_CLOSED);
        EXPECT(wakotehu_precious(wrong[n], id, &answer) == WAKOTEHU_CLOSED);
        EXPECT(wakotehu_best(wrong[n], id) == WAKOTEHU_CLOSED && wakotehu_height(wrong[n], &height) == WAKOTEHU_CLOSED);
        EXPECT(wakotehu_tip_at(wrong[n], 0, &tip) == WAKOTEHU_CLOSED);
        EXPECT(wakotehu_coin_at(wrong[n], id, 0, &coin, NULL, 0) == WAKOTEHU_CLOSED);
        EXPECT(wakotehu_close(wrong[n]) == WAKOTEHU_CLOSED);
    }
    /* The place is used again, and the old handle stays closed. */
    wakotehu_handle again = opened();
    EXPECT(again != chain && wakotehu_best(chain, id) == WAKOTEHU_CLOSED);
    EXPECT(wakotehu_close(again) == WAKOTEHU_OK);
}

/* What a call doesn't tell it doesn't write, whatever it answers. */
static void nothing_else_is_written(void) {
    wakotehu_handle chain = opened(), closed = opened(), other = 7;
    wakotehu_answer answer, answer_before;
    wakotehu_coin coin, coin_before;
    wakotehu_tip tip, tip_before;
    uint8_t id[32] = {9}, script[4] = {1, 2, 3, 4};
    uint64_t height = 7, line = 7;
    memset(&answer, 0xa5, sizeof answer), memset(&coin, 0xa5, sizeof coin), memset(&tip, 0xa5, sizeof tip);
    answer_before = answer, coin_before = coin, tip_before = tip;
    EXPECT(wakotehu_close(closed) == WAKOTEHU_OK);
    EXPECT(wakotehu_submit(closed, b1, sizeof b1, now, &answer) == WAKOTEHU_CLOSED);
    EXPECT(wakotehu_invalidate(closed, id, &answer) == WAKOTEHU_CLOSED);
    left = 0;
    EXPECT(wakotehu_submit(chain, b1, sizeof b1, now, &answer) == WAKOTEHU_MEMORY);
    left = 0;
    EXPECT(wakotehu_tip_at(chain, 0, &tip) == WAKOTEHU_MEMORY);
    left = 0;
    EXPECT(wakotehu_open(&other, &regtest, NULL, 0, &line) == WAKOTEHU_MEMORY && line == 7);
    left = -1;
    EXPECT(wakotehu_open(&other, &regtest, "aa - 00", 7, &line) == WAKOTEHU_BAD_TABLE && line == 1);
    EXPECT(other == 7 && memcmp(&answer, &answer_before, sizeof answer) == 0);
    EXPECT(wakotehu_best(closed, id) == WAKOTEHU_CLOSED && id[0] == 9);
    EXPECT(wakotehu_height(closed, &height) == WAKOTEHU_CLOSED && height == 7);
    EXPECT(wakotehu_tip_at(closed, 0, &tip) == WAKOTEHU_CLOSED && wakotehu_tip_at(chain, 1, &tip) == WAKOTEHU_NONE);
    EXPECT(memcmp(&tip, &tip_before, sizeof tip) == 0);
    EXPECT(wakotehu_coin_at(closed, b1_coinbase, 0, &coin, script, 4) == WAKOTEHU_CLOSED);
    EXPECT(wakotehu_coin_at(chain, b1_coinbase, 0, &coin, script, 4) == WAKOTEHU_NONE);
    EXPECT(memcmp(&coin, &coin_before, sizeof coin) == 0 && memcmp(script, (uint8_t[]){1, 2, 3, 4}, 4) == 0);
    /* What is behind a script stays, and so does a room that is too small. */
    EXPECT(submitted(chain, b1, sizeof b1) == WAKOTEHU_ACCEPTED);
    EXPECT(wakotehu_coin_at(chain, b1_coinbase, 0, &coin, script, 0) == WAKOTEHU_TOO_SMALL && script[0] == 1);
    EXPECT(wakotehu_coin_at(chain, b1_coinbase, 0, &coin, script, 4) == WAKOTEHU_OK);
    EXPECT(memcmp(script, (uint8_t[]){0x51, 2, 3, 4}, 4) == 0);
    EXPECT(wakotehu_open(&closed, &regtest, NULL, 0, &line) == WAKOTEHU_OK && line == 1);
    EXPECT(wakotehu_close(closed) == WAKOTEHU_OK && wakotehu_close(chain) == WAKOTEHU_OK);
}

/* What a walk over coins sees of its own handle. */
struct inside {
    wakotehu_handle chain;
    int calls;
};

static int use_inside(void *context, const uint8_t *id, uint32_t index, const wakotehu_coin *coin,
                      const uint8_t *script) {
    struct inside *inside = context;
    uint8_t best[32];
    (void)id, (void)index, (void)coin, (void)script;
    EXPECT(wakotehu_best(inside->chain, best) == WAKOTEHU_BUSY);
    EXPECT(wakotehu_close(inside->chain) == WAKOTEHU_BUSY);
    inside->calls++;
    return 1;
}

static void blocks_and_coins(void) {
    wakotehu_handle chain = opened();
    struct counted counted = {0, 0};
    struct inside inside = {chain, 0};
    uint8_t other[sizeof c1], bytes[sizeof c1 + 1], best[32], none[32] = {7};
    size_t needed = 1;
    EXPECT(wakotehu_coins(chain, count, &counted) == WAKOTEHU_OK && counted.coins == 0);
    EXPECT(wakotehu_best(chain, best) == WAKOTEHU_OK);
    EXPECT(wakotehu_block(chain, best, NULL, 0, &needed) == WAKOTEHU_NONE && needed == 0);
    /* A block with the header of c1 and another coinbase isn't taken for c1. */
    memcpy(other, c1, sizeof c1);
    other[sizeof c1 - 1] = 1;
    EXPECT(submitted(chain, other, sizeof other) == WAKOTEHU_REJECTED);
    EXPECT(submitted(chain, c1, sizeof c1) == WAKOTEHU_ACCEPTED);
    EXPECT(wakotehu_best(chain, best) == WAKOTEHU_OK);
    EXPECT(wakotehu_block(chain, best, bytes, sizeof c1 - 1, &needed) == WAKOTEHU_TOO_SMALL && needed == sizeof c1);
    EXPECT(wakotehu_block(chain, best, bytes, sizeof bytes, &needed) == WAKOTEHU_OK && needed == sizeof c1);
    EXPECT(memcmp(bytes, c1, sizeof c1) == 0);
    EXPECT(wakotehu_block(chain, none, bytes, sizeof bytes, &needed) == WAKOTEHU_NONE);
    EXPECT(wakotehu_block(chain, best, NULL, 1, &needed) == WAKOTEHU_NULL);
    EXPECT(wakotehu_block(chain, NULL, NULL, 0, &needed) == WAKOTEHU_NULL);
    EXPECT(wakotehu_block(chain, best, NULL, 0, NULL) == WAKOTEHU_NULL);
    EXPECT(wakotehu_coins(chain, NULL, NULL) == WAKOTEHU_NULL);
    /* The coins of the active branch alone, and none of the one that was left. */
    EXPECT(submitted(chain, b1, sizeof b1) == WAKOTEHU_INCONCLUSIVE);
    EXPECT(submitted(chain, c2, sizeof c2) == WAKOTEHU_ACCEPTED);
    EXPECT(wakotehu_coins(chain, count, &counted) == WAKOTEHU_OK);
    EXPECT(counted.coins == 2 && counted.sum == 10000000000);
    EXPECT(wakotehu_coins(chain, use_inside, &inside) == WAKOTEHU_OK && inside.calls == 1);
    EXPECT(wakotehu_close(chain) == WAKOTEHU_OK);
    EXPECT(wakotehu_coins(chain, count, &counted) == WAKOTEHU_CLOSED);
    EXPECT(wakotehu_block(chain, best, bytes, sizeof bytes, &needed) == WAKOTEHU_CLOSED);
}

static void too_many(void) {
    static wakotehu_handle all[WAKOTEHU_MOST];
    wakotehu_handle more;
    for (size_t n = 0; n < WAKOTEHU_MOST; n++)
        all[n] = opened();
    EXPECT(wakotehu_open(&more, &regtest, NULL, 0, NULL) == WAKOTEHU_TOO_MANY);
    for (size_t n = 0; n < WAKOTEHU_MOST; n++)
        EXPECT(wakotehu_close(all[n]) == WAKOTEHU_OK);
}

static int none_is_wanted(void *context, const char *line, size_t length) {
    (void)line, (void)length;
    ++*(int *)context;
    return 0;
}

/* Signatures by need: each call that takes memory with each allocation refused, and verdicts that stay. */
static void verdicts(void) {
    wakotehu_handle chain = 0, table = opened();
    uint8_t key[33] = {2}, signature[8] = {0x30}, digest[32] = {7};
    int called = 0, met = 1;
    long n = 0;
    char lines[4] = "abc";
    size_t needed = 7;
    EXPECT(wakotehu_open_by_need(NULL, &regtest) == WAKOTEHU_NULL);
    EXPECT(wakotehu_open_by_need(&chain, NULL) == WAKOTEHU_NULL);
    for (n = 0; met; n++) {
        left = n;
        wakotehu_code code = wakotehu_open_by_need(&chain, &regtest);
        met = left < 0;
        left = -1;
        EXPECT(code == (met ? WAKOTEHU_MEMORY : WAKOTEHU_OK) && !met == (chain != 0));
    }
    EXPECT(n > 1);
    for (n = 0, met = 1; met; n++) {
        left = n;
        wakotehu_code code = wakotehu_learn(chain, key, sizeof key, signature, sizeof signature, digest, 1);
        met = left < 0;
        left = -1;
        EXPECT(code == (met ? WAKOTEHU_MEMORY : WAKOTEHU_OK));
    }
    EXPECT(n > 1);
    EXPECT(wakotehu_learn(chain, key, sizeof key, signature, sizeof signature, digest, 2) == WAKOTEHU_OK);
    EXPECT(wakotehu_learn(chain, key, sizeof key, signature, sizeof signature, digest, 0) == WAKOTEHU_CONTRADICTION);
    EXPECT(wakotehu_learn(chain, NULL, 0, NULL, 0, digest, 0) == WAKOTEHU_OK);
    EXPECT(wakotehu_learn(chain, NULL, 0, NULL, 0, digest, 1) == WAKOTEHU_CONTRADICTION);
    EXPECT(wakotehu_learn(chain, NULL, 1, NULL, 0, digest, 1) == WAKOTEHU_NULL);
    EXPECT(wakotehu_learn(chain, NULL, 0, NULL, 1, digest, 1) == WAKOTEHU_NULL);
    EXPECT(wakotehu_learn(chain, NULL, 0, NULL, 0, NULL, 1) == WAKOTEHU_NULL);
    EXPECT(wakotehu_wants(chain, NULL, NULL) == WAKOTEHU_NULL);
    EXPECT(wakotehu_wants(chain, none_is_wanted, &called) == WAKOTEHU_OK && called == 0);
    EXPECT(wakotehu_want_lines(chain, lines, sizeof lines, NULL) == WAKOTEHU_NULL);
    EXPECT(wakotehu_want_lines(chain, NULL, 1, &needed) == WAKOTEHU_NULL);
    EXPECT(wakotehu_want_lines(chain, lines, SIZE_MAX, &needed) == WAKOTEHU_NULL && needed == 7);
    EXPECT(wakotehu_want_lines(chain, NULL, 0, &needed) == WAKOTEHU_OK && needed == 0);
    EXPECT(wakotehu_want_lines(chain, lines, sizeof lines, &needed) == WAKOTEHU_OK && strcmp(lines, "abc") == 0);
    EXPECT(submitted(chain, b1, sizeof b1) == WAKOTEHU_ACCEPTED);
    /* Of a table all is known. */
    EXPECT(wakotehu_learn(table, key, sizeof key, signature, sizeof signature, digest, 0) == WAKOTEHU_OK);
    EXPECT(wakotehu_learn(table, key, sizeof key, signature, sizeof signature, digest, 1) == WAKOTEHU_CONTRADICTION);
    EXPECT(wakotehu_wants(table, none_is_wanted, &called) == WAKOTEHU_OK && called == 0);
    EXPECT(wakotehu_close(table) == WAKOTEHU_OK && wakotehu_close(chain) == WAKOTEHU_OK);
    EXPECT(wakotehu_learn(chain, NULL, 0, NULL, 0, digest, 0) == WAKOTEHU_CLOSED);
    EXPECT(wakotehu_wants(chain, none_is_wanted, &called) == WAKOTEHU_CLOSED && called == 0);
    EXPECT(wakotehu_want_lines(chain, lines, sizeof lines, &needed) == WAKOTEHU_CLOSED);
}

/* Blocks of one chain, each of a coinbase; the last one also spends the first one's, by another transaction. */
enum { BLOCKS = 101, SPENDING = 81 + 64 + 61 };

static void put_number(uint8_t *at, uint64_t number, size_t bytes) {
    for (size_t n = 0; n < bytes; n++)
        at[n] = (uint8_t)(number >> 8 * n);
}

/* Searches the work of a block on another one, and writes its id. */
static void mined(uint8_t *block, const uint8_t *parent, const uint8_t *root, uint32_t number, uint8_t *id) {
    memcpy(block + 4, parent, 32), memcpy(block + 36, root, 32), put_number(block + 68, 1296688602 + number, 4);
    uint32_t yes = 0;
    for (uint64_t nonce = 0; !yes; nonce++) {
        put_number(block + 76, nonce, 4);
        EXPECT(wakotehu_double_sha(block, 80, id) == WAKOTEHU_OK && wakotehu_meets_target(id, &yes) == WAKOTEHU_OK);
    }
}

/* The block of this number on another one, with its id and its coinbase's. Branches differ by their number. */
static void make_block(uint8_t *block, const uint8_t *parent, uint32_t number, uint8_t branch, uint8_t *id,
                       uint8_t *coinbase) {
    memcpy(block, b1, sizeof b1);
    block[123] = branch, put_number(block + 124, number, 2);
    EXPECT(wakotehu_double_sha(block + 81, 64, coinbase) == WAKOTEHU_OK);
    mined(block, parent, coinbase, number, id);
}

/* The same with a transaction that spends this coin. */
static void make_spending(uint8_t *block, const uint8_t *parent, uint32_t number, const uint8_t *coin, uint8_t *id) {
    uint8_t ids[64], root[32], *tx = block + 81 + 64;
    make_block(block, parent, number, 3, id, ids);
    block[80] = 2;
    memset(tx, 0, 61);
    tx[0] = tx[4] = 1, memcpy(tx + 5, coin, 32), memset(tx + 42, 0xff, 4);
    tx[46] = 1, put_number(tx + 47, 4000000000, 8), tx[55] = 1, tx[56] = 0x51;
    EXPECT(wakotehu_double_sha(tx, 61, ids + 32) == WAKOTEHU_OK && wakotehu_double_sha(ids, 64, root) == WAKOTEHU_OK);
    mined(block, parent, root, number, id);
}

/* The calls that say where blocks stand take no memory, and nothing but what they tell is written. */
static void places(wakotehu_handle chain, uint8_t ids[][32], const uint8_t *stale) {
    wakotehu_header_shown header, header_before;
    uint8_t id[32], none[32] = {7}, nothing[32];
    memset(nothing, 0xa5, sizeof nothing), memset(&header, 0xa5, sizeof header), header_before = header;
    left = 0;
    for (uint64_t height = 0; height <= BLOCKS + 1; height++) {
        EXPECT(wakotehu_id_at(chain, height, id) == WAKOTEHU_OK && memcmp(id, ids[height], 32) == 0);
        EXPECT(wakotehu_ancestor(chain, ids[BLOCKS + 1], height, id) == WAKOTEHU_OK);
        EXPECT(memcmp(id, ids[height], 32) == 0);
        EXPECT(wakotehu_header(chain, ids[height], &header) == WAKOTEHU_OK && header.height == height);
        EXPECT(header.confirmations == (int64_t)(BLOCKS + 2 - height));
        EXPECT(wakotehu_double_sha(header.header, 80, id) == WAKOTEHU_OK && memcmp(id, ids[height], 32) == 0);
        EXPECT(wakotehu_fork(chain, ids[height], ids[BLOCKS], id) == WAKOTEHU_OK);
        EXPECT(memcmp(id, ids[height < BLOCKS ? height : BLOCKS], 32) == 0);
        EXPECT(wakotehu_fork(chain, stale, ids[height], id) == WAKOTEHU_OK);
        EXPECT(memcmp(id, ids[height < 2 ? height : 2], 32) == 0);
    }
    EXPECT(wakotehu_header(chain, stale, &header) == WAKOTEHU_OK && header.height == 3 && header.confirmations == -1);
    EXPECT(wakotehu_ancestor(chain, stale, 2, id) == WAKOTEHU_OK && memcmp(id, ids[2], 32) == 0);
    EXPECT(wakotehu_ancestor(chain, stale, 3, id) == WAKOTEHU_OK && memcmp(id, stale, 32) == 0);
    memset(id, 0xa5, sizeof id), header = header_before;
    EXPECT(wakotehu_id_at(chain, BLOCKS + 2, id) == WAKOTEHU_NONE);
    EXPECT(wakotehu_id_at(chain, UINT64_MAX, id) == WAKOTEHU_NONE);
    EXPECT(wakotehu_ancestor(chain, stale, 4, id) == WAKOTEHU_NONE);
    EXPECT(wakotehu_ancestor(chain, stale, UINT64_MAX, id) == WAKOTEHU_NONE);
    EXPECT(wakotehu_ancestor(chain, none, 0, id) == WAKOTEHU_NONE);
    EXPECT(wakotehu_header(chain, none, &header) == WAKOTEHU_NONE);
    EXPECT(wakotehu_fork(chain, none, stale, id) == WAKOTEHU_NONE);
    EXPECT(wakotehu_fork(chain, stale, none, id) == WAKOTEHU_NONE);
    EXPECT(memcmp(id, nothing, sizeof id) == 0 && memcmp(&header, &header_before, sizeof header) == 0 && left == 0);
    left = -1;
    EXPECT(wakotehu_id_at(chain, 0, NULL) == WAKOTEHU_NULL && wakotehu_header(chain, none, NULL) == WAKOTEHU_NULL);
    EXPECT(wakotehu_header(chain, NULL, &header) == WAKOTEHU_NULL);
    EXPECT(wakotehu_ancestor(chain, NULL, 0, id) == WAKOTEHU_NULL);
    EXPECT(wakotehu_ancestor(chain, none, 0, NULL) == WAKOTEHU_NULL);
    EXPECT(wakotehu_fork(chain, NULL, none, id) == WAKOTEHU_NULL);
    EXPECT(wakotehu_fork(chain, none, NULL, id) == WAKOTEHU_NULL);
    EXPECT(wakotehu_fork(chain, none, none, NULL) == WAKOTEHU_NULL);
}

/* What a block spent, with each allocation refused, and rooms that are too small. */
static void coins_of_blocks(wakotehu_handle chain, uint8_t ids[][32], const uint8_t *stale) {
    wakotehu_spent_size size = {7, 7};
    wakotehu_coin coins[2] = {{0}, {9, 9, 9, 9}};
    uint8_t scripts[2] = {8, 9}, none[32] = {7};
    int met = 1;
    long n = 0;
    for (; met; n++) {
        left = n;
        wakotehu_code code = wakotehu_spent(chain, ids[BLOCKS + 1], coins, 2, scripts, 2, &size);
        met = left < 0;
        left = -1;
        EXPECT(code == (met ? WAKOTEHU_MEMORY : WAKOTEHU_OK) && size.coins == (met ? 7 : 1) && scripts[0] == (met ? 8 : 0x51));
    }
    EXPECT(n > 1 && size.scripts == 1 && coins[0].value == 5000000000 && coins[0].script == 1 && coins[0].height == 1);
    EXPECT(coins[0].coinbase == 1 && coins[1].value == 9 && scripts[1] == 9);
    scripts[0] = 8, coins[0].value = 9, size.coins = 7;
    EXPECT(wakotehu_spent(chain, ids[BLOCKS + 1], NULL, 0, NULL, 0, &size) == WAKOTEHU_TOO_SMALL && size.coins == 1);
    EXPECT(wakotehu_spent(chain, ids[BLOCKS + 1], coins, 0, scripts, 1, &size) == WAKOTEHU_TOO_SMALL);
    EXPECT(wakotehu_spent(chain, ids[BLOCKS + 1], coins, 1, scripts, 0, &size) == WAKOTEHU_TOO_SMALL);
    EXPECT(size.scripts == 1);
    EXPECT(coins[0].value == 9 && scripts[0] == 8);
    EXPECT(wakotehu_spent(chain, ids[BLOCKS + 1], coins, 1, scripts, 1, &size) == WAKOTEHU_OK && scripts[0] == 0x51);
    EXPECT(wakotehu_spent(chain, ids[BLOCKS], NULL, 0, NULL, 0, &size) == WAKOTEHU_OK);
    EXPECT(size.coins + size.scripts == 0);
    EXPECT(wakotehu_spent(chain, ids[0], NULL, 0, NULL, 0, &size) == WAKOTEHU_OK && size.coins + size.scripts == 0);
    size.coins = 7;
    EXPECT(wakotehu_spent(chain, stale, coins, 2, scripts, 2, &size) == WAKOTEHU_NONE && size.coins == 7);
    EXPECT(wakotehu_spent(chain, none, coins, 2, scripts, 2, &size) == WAKOTEHU_NONE && size.coins == 7);
    EXPECT(wakotehu_spent(chain, NULL, coins, 2, scripts, 2, &size) == WAKOTEHU_NULL);
    EXPECT(wakotehu_spent(chain, none, NULL, 1, scripts, 2, &size) == WAKOTEHU_NULL);
    EXPECT(wakotehu_spent(chain, none, coins, SIZE_MAX / 24, scripts, 2, &size) == WAKOTEHU_NULL);
    EXPECT(wakotehu_spent(chain, none, coins, 2, NULL, 1, &size) == WAKOTEHU_NULL);
    EXPECT(wakotehu_spent(chain, none, coins, 2, scripts, 2, NULL) == WAKOTEHU_NULL);
}

static void lookups(void) {
    static uint8_t ids[BLOCKS + 2][32];
    const wakotehu_heights none_in_force = {1000, 1000, 1000, 1000};
    wakotehu_handle chain = 0;
    wakotehu_answer answer;
    wakotehu_header_shown header;
    wakotehu_spent_size size;
    uint8_t block[SPENDING], coinbase[32], first[32], stale[32], unused[32];
    EXPECT(wakotehu_open(&chain, &none_in_force, NULL, 0, NULL) == WAKOTEHU_OK);
    EXPECT(wakotehu_best(chain, ids[0]) == WAKOTEHU_OK);
    for (uint32_t number = 1; number <= BLOCKS; number++) {
        make_block(block, ids[number - 1], number, 1, ids[number], number == 1 ? first : coinbase);
        EXPECT(submitted(chain, block, sizeof b1) == WAKOTEHU_ACCEPTED);
    }
    make_spending(block, ids[BLOCKS], BLOCKS + 1, first, ids[BLOCKS + 1]);
    EXPECT(submitted(chain, block, SPENDING) == WAKOTEHU_ACCEPTED);
    make_block(block, ids[2], 3, 2, stale, unused);
    EXPECT(submitted(chain, block, sizeof b1) == WAKOTEHU_INCONCLUSIVE);
    places(chain, ids, stale);
    coins_of_blocks(chain, ids, stale);
    /* Of a block that was taken back nothing is told, and of one that came back all is. */
    EXPECT(wakotehu_invalidate(chain, ids[BLOCKS + 1], &answer) == WAKOTEHU_OK && answer.reply == WAKOTEHU_DONE);
    EXPECT(wakotehu_spent(chain, ids[BLOCKS + 1], NULL, 0, NULL, 0, &size) == WAKOTEHU_NONE);
    EXPECT(wakotehu_id_at(chain, BLOCKS + 1, unused) == WAKOTEHU_NONE);
    EXPECT(wakotehu_header(chain, ids[BLOCKS + 1], &header) == WAKOTEHU_OK && header.confirmations == -1);
    EXPECT(wakotehu_reconsider(chain, ids[BLOCKS + 1], &answer) == WAKOTEHU_OK);
    places(chain, ids, stale);
    coins_of_blocks(chain, ids, stale);
    EXPECT(wakotehu_close(chain) == WAKOTEHU_OK);
    EXPECT(wakotehu_id_at(chain, 0, unused) == WAKOTEHU_CLOSED);
    EXPECT(wakotehu_header(chain, stale, &header) == WAKOTEHU_CLOSED);
    EXPECT(wakotehu_ancestor(chain, stale, 0, unused) == WAKOTEHU_CLOSED);
    EXPECT(wakotehu_fork(chain, stale, stale, unused) == WAKOTEHU_CLOSED);
    EXPECT(wakotehu_spent(chain, stale, NULL, 0, NULL, 0, &size) == WAKOTEHU_CLOSED);
}

static wakotehu_handle shared;

/* Stops at once: what other threads submit isn't known. */
static int see(void *context, const uint8_t *id, uint32_t index, const wakotehu_coin *coin, const uint8_t *script) {
    (void)context, (void)id, (void)index, (void)coin, (void)script;
    return 1;
}

/* Submits, reads and closes, whatever the others do. */
static void *fight(void *unused) {
    wakotehu_answer answer;
    wakotehu_spent_size size;
    uint8_t id[32], bytes[sizeof b1];
    size_t needed;
    (void)unused;
    for (int n = 0; n < 2000; n++) {
        wakotehu_code code = wakotehu_submit(shared, n % 2 ? c1 : b1, n % 2 ? sizeof c1 : sizeof b1, now, &answer);
        EXPECT(code == WAKOTEHU_OK || code == WAKOTEHU_BUSY || code == WAKOTEHU_CLOSED);
        code = wakotehu_best(shared, id);
        EXPECT(code == WAKOTEHU_OK || code == WAKOTEHU_BUSY || code == WAKOTEHU_CLOSED);
        if (code == WAKOTEHU_OK) {
            code = wakotehu_block(shared, id, bytes, sizeof bytes, &needed);
            EXPECT(code == WAKOTEHU_OK || code == WAKOTEHU_NONE || code == WAKOTEHU_BUSY || code == WAKOTEHU_CLOSED);
        }
        code = wakotehu_id_at(shared, 1, id);
        EXPECT(code == WAKOTEHU_OK || code == WAKOTEHU_NONE || code == WAKOTEHU_BUSY || code == WAKOTEHU_CLOSED);
        if (code == WAKOTEHU_OK) {
            code = wakotehu_spent(shared, id, NULL, 0, NULL, 0, &size);
            EXPECT(code == WAKOTEHU_OK || code == WAKOTEHU_NONE || code == WAKOTEHU_BUSY || code == WAKOTEHU_CLOSED);
        }
        code = wakotehu_coins(shared, see, NULL);
        EXPECT(code == WAKOTEHU_OK || code == WAKOTEHU_BUSY || code == WAKOTEHU_CLOSED);
    }
    for (wakotehu_code code = WAKOTEHU_BUSY; code == WAKOTEHU_BUSY;) {
        code = wakotehu_close(shared);
        EXPECT(code == WAKOTEHU_OK || code == WAKOTEHU_BUSY || code == WAKOTEHU_CLOSED);
    }
    return NULL;
}

static void threads_that_fight(void) {
    pthread_t threads[4];
    shared = opened();
    for (size_t n = 0; n < 4; n++)
        EXPECT(pthread_create(&threads[n], NULL, fight, NULL) == 0);
    for (size_t n = 0; n < 4; n++)
        EXPECT(pthread_join(threads[n], NULL) == 0);
    EXPECT(wakotehu_close(shared) == WAKOTEHU_CLOSED);
}

int main(void) {
    refused_allocations();
    misused_handles();
    nothing_else_is_written();
    blocks_and_coins();
    lookups();
    too_many();
    verdicts();
    threads_that_fight();
    return 0;
}
