/* Coins that are given: each allocation refused in turn, of which none may change anything, misuse, and a block there and
 * back. Prints nothing where all is well. */
#include <string.h>
#include <wakotehu.h>

#include "refused.h"

enum { HEIGHT = 200, TIME = 1296688602, MOST = 1024 };

static const uint8_t one[32] = {1}, push_one[] = {0x51}, equals_two[] = {0x52, 0x87}, checksig[] = {0x51, 0x51, 0xac};
static const wakotehu_setting setting = {NULL, 0, {1, 1, 1, 1}, HEIGHT, TIME};

/* A block of a coinbase and a transaction that spends the outputs 0 and 1 of `one`, the second with this script. */
struct made {
    uint8_t bytes[MOST];
    size_t length, tx, tx_length;
};

static size_t put(uint8_t *at, uint64_t number, size_t width) {
    for (size_t n = 0; n < width; n++)
        at[n] = (uint8_t)(number >> 8 * n);
    return width;
}

static size_t put_coinbase(uint8_t *at) {
    size_t length = put(at, 1, 4) + put(at + 4, 1, 1);
    memset(at + length, 0, 32), length += 32;
    length += put(at + length, 0xffffffff, 4);
    length += put(at + length, 0x00c80203, 4); /* three bytes: the height, as a number of two bytes */
    length += put(at + length, 0xffffffff, 4) + put(at + length + 4, 1, 1);
    length += put(at + length, 2500000000, 8) + put(at + length + 8, 0x5101, 2);
    return length + put(at + length, 0, 4);
}

static size_t put_spending(uint8_t *at, uint8_t last) {
    size_t length = put(at, 1, 4) + put(at + 4, 2, 1);
    for (uint64_t n = 0; n < 2; n++) {
        memcpy(at + length, one, 32), length += 32;
        length += put(at + length, n, 4) + put(at + length + 4, 0x0001 | (n ? (uint64_t)last : 0x51) << 8, 2);
        length += put(at + length, 0xffffffff, 4);
    }
    length += put(at + length, 1, 1);
    length += put(at + length, 7, 8) + put(at + length + 8, 0x5101, 2);
    return length + put(at + length, 0, 4);
}

static struct made block(uint8_t last) {
    struct made it = {.length = 80};
    uint8_t ids[64], id[32];
    uint32_t met = 0;
    put(it.bytes, 4, 4);
    put(it.bytes + 68, TIME + 1, 4), put(it.bytes + 72, 0x207fffff, 4);
    it.bytes[it.length++] = 2;
    size_t coinbase = it.length;
    it.length += put_coinbase(it.bytes + it.length);
    it.tx = it.length, it.tx_length = put_spending(it.bytes + it.length, last), it.length += it.tx_length;
    EXPECT(wakotehu_double_sha(it.bytes + coinbase, it.tx - coinbase, ids) == WAKOTEHU_OK);
    EXPECT(wakotehu_double_sha(it.bytes + it.tx, it.tx_length, ids + 32) == WAKOTEHU_OK);
    EXPECT(wakotehu_double_sha(ids, 64, it.bytes + 36) == WAKOTEHU_OK);
    for (uint32_t nonce = 0; !met; nonce++) {
        put(it.bytes + 76, nonce, 4);
        EXPECT(wakotehu_double_sha(it.bytes, 80, id) == WAKOTEHU_OK && wakotehu_meets_target(id, &met) == WAKOTEHU_OK);
    }
    return it;
}

static wakotehu_utxo opened(const uint8_t *second, size_t length) {
    wakotehu_utxo utxo = 0;
    wakotehu_coin coin = {5, sizeof push_one, 3, 0}, other = {4, length, 3, 0};
    EXPECT(wakotehu_utxo_open(&utxo) == WAKOTEHU_OK && utxo != 0);
    EXPECT(wakotehu_utxo_put(utxo, one, 0, &coin, push_one) == WAKOTEHU_OK);
    EXPECT(wakotehu_utxo_put(utxo, one, 1, &other, second) == WAKOTEHU_OK);
    return utxo;
}

/* All coins, one after the other. */
struct coins {
    size_t count, length;
    uint8_t bytes[MOST];
};

static int keep(void *context, const uint8_t *id, uint32_t index, const wakotehu_coin *coin, const uint8_t *script) {
    struct coins *it = context;
    uint8_t *at = it->bytes + it->length;
    memcpy(at, id, 32), put(at + 32, index, 4), put(at + 36, (uint64_t)coin->value, 8);
    put(at + 44, coin->height, 4), put(at + 48, coin->coinbase, 1), memcpy(at + 49, script, coin->script);
    it->length += 49 + coin->script, it->count++;
    return 0;
}

static struct coins coins_of(wakotehu_utxo utxo) {
    struct coins it;
    memset(&it, 0, sizeof it);
    EXPECT(wakotehu_utxo_coins(utxo, keep, &it) == WAKOTEHU_OK);
    return it;
}

static int same_coins(wakotehu_utxo utxo, const struct coins *expected) {
    struct coins found = coins_of(utxo);
    return memcmp(&found, expected, sizeof found) == 0;
}

static void there_and_back(void) {
    struct made right = block(0x52), wrong = block(0x53);
    wakotehu_utxo utxo = opened(equals_two, sizeof equals_two);
    struct coins before = coins_of(utxo);
    wakotehu_fault fault = {7, 7, 7};
    EXPECT(wakotehu_connect(utxo, wrong.bytes, wrong.length, &setting, &fault) == WAKOTEHU_OK);
    EXPECT(fault.reason == 29 && fault.transaction == 1 && fault.input == 1 && same_coins(utxo, &before));
    EXPECT(wakotehu_disconnect(utxo) == WAKOTEHU_NONE);
    EXPECT(wakotehu_connect(utxo, right.bytes, right.length, &setting, &fault) == WAKOTEHU_OK);
    EXPECT(fault.reason == 0 && fault.transaction == 0 && fault.input == 0);
    struct coins after = coins_of(utxo);
    EXPECT(after.count == 2);
    wakotehu_coin rows[2];
    uint8_t scripts[3];
    wakotehu_spent_size size;
    EXPECT(wakotehu_utxo_spent(utxo, rows, 1, scripts, 3, &size) == WAKOTEHU_TOO_SMALL && size.coins == 2 && size.scripts == 3);
    EXPECT(wakotehu_utxo_spent(utxo, rows, 2, scripts, 3, &size) == WAKOTEHU_OK);
    EXPECT(rows[0].value == 5 && rows[1].value == 4 && memcmp(scripts, "\x51\x52\x87", 3) == 0);
    EXPECT(wakotehu_disconnect(utxo) == WAKOTEHU_OK && same_coins(utxo, &before));
    EXPECT(wakotehu_disconnect(utxo) == WAKOTEHU_NONE && same_coins(utxo, &before));
    EXPECT(wakotehu_utxo_close(utxo) == WAKOTEHU_OK);
}

/* Makes the call again and again, each time with another allocation refused, until none is. */
#define REFUSED(utxo, before, call, done)                                      \
    do {                                                                       \
        int met = 1;                                                           \
        for (long n = 0; met; n++) {                                           \
            left = n;                                                          \
            wakotehu_code code = call;                                         \
            met = left < 0;                                                    \
            left = -1;                                                         \
            EXPECT(code == (met ? WAKOTEHU_MEMORY : done));                    \
            EXPECT(!met || same_coins(utxo, before));                          \
        }                                                                      \
    } while (0)

static void refused_allocations(void) {
    struct made right = block(0x52);
    long start = live;
    wakotehu_utxo utxo = 0;
    int met = 1;
    for (long n = 0; met; n++) {
        left = n;
        wakotehu_code code = wakotehu_utxo_open(&utxo);
        met = left < 0;
        left = -1;
        EXPECT(code == (met ? WAKOTEHU_MEMORY : WAKOTEHU_OK) && (!met || (utxo == 0 && live == start)));
    }
    wakotehu_coin coin = {5, sizeof push_one, 3, 0}, other = {4, sizeof equals_two, 3, 0};
    wakotehu_fault fault;
    uint32_t reason = 7;
    int64_t fee = 7;
    struct coins before = coins_of(utxo);
    REFUSED(utxo, &before, wakotehu_utxo_put(utxo, one, 0, &coin, push_one), WAKOTEHU_OK);
    EXPECT(wakotehu_utxo_put(utxo, one, 1, &other, equals_two) == WAKOTEHU_OK);
    before = coins_of(utxo);
    REFUSED(utxo, &before, wakotehu_check_tx_inputs(utxo, right.bytes + right.tx, right.tx_length, HEIGHT, &reason, &fee),
            WAKOTEHU_OK);
    EXPECT(reason == 0 && fee == 2);
    REFUSED(utxo, &before, wakotehu_connect(utxo, right.bytes, right.length, &setting, &fault), WAKOTEHU_OK);
    EXPECT(fault.reason == 0);
    struct coins after = coins_of(utxo);
    REFUSED(utxo, &after, wakotehu_disconnect(utxo), WAKOTEHU_OK);
    EXPECT(same_coins(utxo, &before) && wakotehu_utxo_close(utxo) == WAKOTEHU_OK && live == start);
    /* A signature that is wanted: one of a hash type alone, before BIP 66 is in force. */
    wakotehu_setting early = setting;
    early.heights.bip66 = HEIGHT + 1;
    utxo = opened(checksig, sizeof checksig);
    before = coins_of(utxo);
    REFUSED(utxo, &before, wakotehu_connect(utxo, right.bytes, right.length, &early, &fault), WAKOTEHU_WANTS);
    char lines[MOST];
    size_t needed = 0;
    EXPECT(wakotehu_utxo_want_lines(utxo, lines, sizeof lines, &needed) == WAKOTEHU_OK && needed > 64);
    EXPECT(wakotehu_utxo_close(utxo) == WAKOTEHU_OK && live == start);
}

static void misused(void) {
    struct made right = block(0x52);
    wakotehu_utxo utxo = opened(equals_two, sizeof equals_two);
    wakotehu_coin coin = {5, 1, 3, 0};
    wakotehu_fault fault = {7, 7, 7};
    wakotehu_setting lacking = setting;
    uint32_t reason = 7;
    int64_t fee = 7;
    size_t needed = 7;
    lacking.count = 1;
    EXPECT(wakotehu_utxo_open(NULL) == WAKOTEHU_NULL && wakotehu_utxo_put(utxo, NULL, 0, &coin, push_one) == WAKOTEHU_NULL);
    EXPECT(wakotehu_utxo_put(utxo, one, 0, NULL, push_one) == WAKOTEHU_NULL);
    EXPECT(wakotehu_utxo_put(utxo, one, 0, &coin, NULL) == WAKOTEHU_NULL);
    coin.script = UINT64_MAX;
    EXPECT(wakotehu_utxo_put(utxo, one, 0, &coin, push_one) == WAKOTEHU_NULL);
    EXPECT(wakotehu_connect(utxo, NULL, 1, &setting, &fault) == WAKOTEHU_NULL);
    EXPECT(wakotehu_connect(utxo, right.bytes, right.length, NULL, &fault) == WAKOTEHU_NULL);
    EXPECT(wakotehu_connect(utxo, right.bytes, right.length, &setting, NULL) == WAKOTEHU_NULL);
    EXPECT(wakotehu_connect(utxo, right.bytes, right.length, &lacking, &fault) == WAKOTEHU_NULL && fault.reason == 7);
    EXPECT(wakotehu_connect(utxo, right.bytes, right.length - 1, &setting, &fault) == WAKOTEHU_SHORT && fault.reason == 7);
    EXPECT(wakotehu_check_tx_inputs(utxo, right.bytes, 1, HEIGHT, NULL, &fee) == WAKOTEHU_NULL);
    EXPECT(wakotehu_check_tx_inputs(utxo, right.bytes, 1, HEIGHT, &reason, NULL) == WAKOTEHU_NULL);
    EXPECT(wakotehu_check_tx_inputs(utxo, right.bytes + right.tx, 9, HEIGHT, &reason, &fee) == WAKOTEHU_SHORT);
    EXPECT(reason == 7 && fee == 7 && wakotehu_utxo_coins(utxo, NULL, NULL) == WAKOTEHU_NULL);
    EXPECT(wakotehu_utxo_want_lines(utxo, NULL, 0, &needed) == WAKOTEHU_OK && needed == 0);
    EXPECT(wakotehu_utxo_close(utxo) == WAKOTEHU_OK);
    wakotehu_utxo wrong[] = {0, 1, 255, UINT64_MAX, utxo, utxo + 1, utxo + 256};
    for (size_t n = 0; n < sizeof wrong / sizeof *wrong; n++) {
        EXPECT(wakotehu_utxo_close(wrong[n]) == WAKOTEHU_CLOSED && wakotehu_disconnect(wrong[n]) == WAKOTEHU_CLOSED);
        EXPECT(wakotehu_connect(wrong[n], right.bytes, right.length, &setting, &fault) == WAKOTEHU_CLOSED && fault.reason == 7);
    }
}

/* What a call on a set is answered while the set is in use. */
struct inside {
    wakotehu_tx tx;
    wakotehu_utxo known;
    int calls;
};

static int while_in_use(void *context, const uint8_t *id, uint32_t index, const wakotehu_coin *coin, const uint8_t *script) {
    struct inside *inside = context;
    uint32_t error = 99;
    uint64_t line = 0, needed = 0;
    (void)id, (void)index, (void)coin, (void)script;
    inside->calls++;
    EXPECT(wakotehu_tx_verify_input_known(inside->tx, inside->known, 1, equals_two, 2, 0, &error, NULL, 0, &needed) == WAKOTEHU_BUSY);
    EXPECT(error == 99);
    /* The transaction isn't in use any more. */
    EXPECT(wakotehu_tx_verify_input(inside->tx, 1, equals_two, 2, 0, NULL, 0, NULL, 0, &line, &error, NULL, 0, &needed) == WAKOTEHU_OK);
    return 0;
}

/* An input of a transaction that was read, by what a set has learnt: asked for, refused and accepted, each allocation refused
 * in turn; and misuse. */
static void judged(void) {
    struct made it = block(0x52);
    long start = live;
    wakotehu_utxo known = 0;
    wakotehu_tx tx = 0;
    /* The key 51 and CHECKSIG; the input pushes a hash type alone, so no byte of a signature is left. */
    static const uint8_t spent[] = {0x01, 0x51, 0xac};
    uint8_t digest[32];
    char line[MOST];
    uint32_t error = 99;
    uint64_t needed = 0;
    EXPECT(wakotehu_utxo_open(&known) == WAKOTEHU_OK);
    EXPECT(wakotehu_tx_read(it.bytes + it.tx, it.tx_length, NULL, &tx) == WAKOTEHU_OK);
    struct coins before = coins_of(known);
    REFUSED(known, &before, wakotehu_tx_verify_input_known(tx, known, 0, spent, sizeof spent, 0, &error, line, sizeof line, &needed),
            WAKOTEHU_UNKNOWN);
    EXPECT(error == 99 && needed == 70 && memcmp(line, "\n51 - ", 6) == 0);
    for (size_t room = 0; room < 70; room += 69) {
        char mark[70] = "unwritten";
        needed = 0;
        EXPECT(wakotehu_tx_verify_input_known(tx, known, 0, spent, sizeof spent, 0, &error, room ? mark : NULL, room, &needed) == WAKOTEHU_TOO_SMALL);
        EXPECT(error == 99 && needed == 70 && strcmp(mark, "unwritten") == 0);
    }
    EXPECT(wakotehu_signature_digest(it.bytes + it.tx, it.tx_length, 0, spent, sizeof spent, 1, digest) == WAKOTEHU_OK);
    EXPECT(wakotehu_utxo_learn(known, spent + 1, 1, NULL, 0, digest, 1) == WAKOTEHU_OK);
    REFUSED(known, &before, wakotehu_tx_verify_input_known(tx, known, 0, spent, sizeof spent, 0, &error, NULL, 0, &needed),
            WAKOTEHU_OK);
    EXPECT(error == WAKOTEHU_SCRIPT_OK);
    EXPECT(wakotehu_tx_verify_input_known(tx, known, 1, equals_two, 2, 0, &error, NULL, 0, &needed) == WAKOTEHU_OK && error == 0);
    struct inside inside = {tx, known, 0};
    wakotehu_coin one_coin = {.value = 1, .script = 1};
    EXPECT(wakotehu_utxo_put(known, digest, 0, &one_coin, spent) == WAKOTEHU_OK);
    EXPECT(wakotehu_utxo_coins(known, while_in_use, &inside) == WAKOTEHU_OK && inside.calls == 1);
    error = 99;
    EXPECT(wakotehu_tx_verify_input_known(tx, known, 2, spent, 3, 0, &error, NULL, 0, &needed) == WAKOTEHU_NO_INPUT);
    EXPECT(wakotehu_tx_verify_input_known(tx, known, 0, NULL, 1, 0, &error, NULL, 0, &needed) == WAKOTEHU_NULL);
    EXPECT(wakotehu_tx_verify_input_known(tx, known, 0, spent, 3, 0, NULL, NULL, 0, &needed) == WAKOTEHU_NULL);
    EXPECT(wakotehu_tx_verify_input_known(tx, known, 0, spent, 3, 0, &error, NULL, 1, &needed) == WAKOTEHU_NULL);
    EXPECT(wakotehu_tx_verify_input_known(tx, known, 0, spent, 3, 0, &error, NULL, 0, NULL) == WAKOTEHU_NULL);
    EXPECT(wakotehu_tx_verify_input_known(tx + 1, known, 0, spent, 3, 0, &error, NULL, 0, &needed) == WAKOTEHU_CLOSED);
    EXPECT(wakotehu_utxo_close(known) == WAKOTEHU_OK);
    EXPECT(wakotehu_tx_verify_input_known(tx, known, 0, spent, 3, 0, &error, NULL, 0, &needed) == WAKOTEHU_CLOSED && error == 99);
    EXPECT(wakotehu_tx_free(tx) == WAKOTEHU_OK && live == start);
}

int main(void) {
    there_and_back();
    refused_allocations();
    misused();
    judged();
    return 0;
}
