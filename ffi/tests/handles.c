/* Each call with each other kind's handle, open and closed: WAKOTEHU_HANDLE, and nothing is written or changed. Handles that were
 * never given out are of no kind. Prints nothing where all is well. */
#include <string.h>
#include <wakotehu.h>

#include "../examples/blocks.h"
#include "refused.h"

static const wakotehu_heights regtest = {1, 1, 1, 1};
static const uint8_t id[32] = {1}, script[] = {0x51};

/* Room for whatever a call writes. */
union written {
    uint8_t bytes[256];
    uint64_t numbers[32];
    wakotehu_handle handle;
    wakotehu_answer answer;
    wakotehu_tip tip;
    wakotehu_coin coin;
    wakotehu_header_shown header;
    wakotehu_spent_size size;
    wakotehu_fault fault;
};

/* What a call writes, how many signatures and coins it tells, and where it writes. */
struct outside {
    union written one, other;
    int told;
};

static int tell_want(void *context, const char *line, size_t length) {
    (void)line, (void)length;
    return ++((struct outside *)context)->told;
}

static int tell_coin(void *context, const uint8_t *at, uint32_t index, const wakotehu_coin *coin, const uint8_t *bytes) {
    (void)at, (void)index, (void)coin, (void)bytes;
    return ++((struct outside *)context)->told;
}

enum { CHAIN, SET, TRANSACTION, KINDS };

enum { OF_CHAINS = 22 };
static wakotehu_code of_chain(int call, wakotehu_handle own, struct outside *it) {
    switch (call) {
    case 0: return wakotehu_copy(own, &it->one.handle);
    case 1: return wakotehu_wants(own, tell_want, it);
    case 2: return wakotehu_want_lines(own, (char *)it->one.bytes, 256, &it->other.numbers[0]);
    case 3: return wakotehu_learn(own, id, 1, id, 1, id, 1);
    case 4: return wakotehu_submit(own, b1, sizeof b1, 1296690000, &it->one.answer);
    case 5: return wakotehu_judge(own, b1, sizeof b1, 1296690000, &it->one.answer);
    case 6: return wakotehu_invalidate(own, id, &it->one.answer);
    case 7: return wakotehu_reconsider(own, id, &it->one.answer);
    case 8: return wakotehu_precious(own, id, &it->one.answer);
    case 9: return wakotehu_best(own, it->one.bytes);
    case 10: return wakotehu_height(own, &it->one.numbers[0]);
    case 11: return wakotehu_tip_at(own, 0, &it->one.tip);
    case 12: return wakotehu_coin_at(own, id, 0, &it->one.coin, it->other.bytes, 256);
    case 13: return wakotehu_coins(own, tell_coin, it);
    case 14: return wakotehu_block(own, id, it->one.bytes, 256, &it->other.numbers[0]);
    case 15: return wakotehu_id_at(own, 0, it->one.bytes);
    case 16: return wakotehu_header(own, id, &it->one.header);
    case 17: return wakotehu_ancestor(own, id, 0, it->one.bytes);
    case 18: return wakotehu_fork(own, id, id, it->one.bytes);
    case 19: return wakotehu_spent(own, id, &it->one.coin, 1, it->other.bytes, 128, (wakotehu_spent_size *)(it->other.bytes + 128));
    case 20: return wakotehu_wants(own, tell_want, it);
    default: return wakotehu_close(own);
    }
}

enum { OF_SETS = 13 };
static wakotehu_code of_set(int call, wakotehu_utxo own, struct outside *it) {
    static const wakotehu_setting setting = {NULL, 0, {1, 1, 1, 1}, 1, 1296688602};
    static const wakotehu_coin coin = {5, sizeof script, 1, 0};
    switch (call) {
    case 0: return wakotehu_utxo_put(own, id, 0, &coin, script);
    case 1: return wakotehu_utxo_coin_at(own, id, 0, &it->one.coin, it->other.bytes, 256);
    case 2: return wakotehu_utxo_coins(own, tell_coin, it);
    case 3: return wakotehu_connect(own, b1, sizeof b1, &setting, &it->one.fault);
    case 4: return wakotehu_disconnect(own);
    case 5: return wakotehu_utxo_spent(own, &it->one.coin, 1, it->other.bytes, 128, (wakotehu_spent_size *)(it->other.bytes + 128));
    case 6: return wakotehu_utxo_wants(own, tell_want, it);
    case 7: return wakotehu_utxo_want_lines(own, (char *)it->one.bytes, 256, &it->other.numbers[0]);
    case 8: return wakotehu_utxo_learn(own, id, 1, id, 1, id, 1);
    case 9: return wakotehu_check_tx_inputs(own, b1 + 81, sizeof b1 - 81, 1, (uint32_t *)it->one.bytes, (int64_t *)it->other.bytes);
    case 10: return wakotehu_check_transaction_inputs(own, b1 + 81, sizeof b1 - 81, 1, (uint32_t *)it->one.bytes,
                                                      (int64_t *)it->other.bytes);
    default: return wakotehu_utxo_close(own);
    }
}

enum { OF_TRANSACTIONS = 4 };
static wakotehu_code of_transaction(int call, wakotehu_tx own, wakotehu_utxo set, struct outside *it) {
    static const uint64_t sizes[] = {1};
    uint64_t *numbers = it->one.numbers;
    uint32_t *error = (uint32_t *)&numbers[3];
    switch (call) {
    case 0: return wakotehu_tx_verify_input(own, 0, script, 1, 1, NULL, 0, NULL, 0, &numbers[0], error, (char *)it->other.bytes, 256,
                                            &numbers[1]);
    case 1: return wakotehu_tx_verify(own, script, 1, sizes, 1, 1, NULL, 0, NULL, 0, &numbers[0], &numbers[2], error,
                                      (char *)it->other.bytes, 256, &numbers[1]);
    case 2: return wakotehu_tx_verify_input_known(own, set, 0, script, 1, 1, error, (char *)it->other.bytes, 256, &numbers[1]);
    default: return wakotehu_tx_free(own);
    }
}

static uint64_t opened(int kind) {
    uint64_t made = 0;
    if (kind == CHAIN)
        EXPECT(wakotehu_open_by_need(&made, &regtest) == WAKOTEHU_OK);
    else if (kind == SET)
        EXPECT(wakotehu_utxo_open(&made) == WAKOTEHU_OK);
    else
        EXPECT(wakotehu_tx_read(b1 + 81, sizeof b1 - 81, NULL, &made) == WAKOTEHU_OK);
    EXPECT(made != 0);
    return made;
}

static wakotehu_code closed(int kind, uint64_t own) {
    return kind == CHAIN ? wakotehu_close(own) : kind == SET ? wakotehu_utxo_close(own) : wakotehu_tx_free(own);
}

/* Each call of a kind answers this, and writes nothing. */
static void each_call(int kind, uint64_t own, uint64_t set, wakotehu_code code) {
    static const int counts[] = {OF_CHAINS, OF_SETS, OF_TRANSACTIONS};
    for (int call = 0; call < counts[kind]; call++) {
        struct outside it, clean;
        memset(&it, 0xa5, sizeof it), memset(&clean, 0xa5, sizeof clean);
        wakotehu_code found = kind == CHAIN ? of_chain(call, own, &it)
                              : kind == SET ? of_set(call, own, &it)
                                            : of_transaction(call, own, set, &it);
        EXPECT(found == code && memcmp(&it, &clean, sizeof it) == 0);
    }
}

int main(void) {
    static const uint64_t never[] = {0, 1, 255, 256, 0x100, 65536, UINT64_MAX, (uint64_t)1 << 63, ((uint64_t)1 << 62) - 1};
    long before = live;
    /* Some numbers are given out of each kind, so that they would be equal. */
    for (int round = 0; round < 3; round++) {
        uint64_t all[KINDS];
        for (int kind = 0; kind < KINDS; kind++)
            all[kind] = opened(kind);
        for (int one = 0; one < KINDS; one++)
            for (int other = 0; other < KINDS; other++)
                EXPECT(one == other || all[one] != all[other]);
        for (int kind = 0; kind < KINDS; kind++)
            for (int other = 0; other < KINDS; other++)
                if (kind != other)
                    each_call(kind, all[other], all[SET], WAKOTEHU_HANDLE);
        /* The transaction is there, and the set isn't one. */
        struct outside it;
        EXPECT(of_transaction(2, all[TRANSACTION], all[CHAIN], &it) == WAKOTEHU_HANDLE);
        EXPECT(of_transaction(2, all[TRANSACTION], all[TRANSACTION], &it) == WAKOTEHU_HANDLE);
        /* All are as they were. */
        EXPECT(of_chain(9, all[CHAIN], &it) == WAKOTEHU_OK && of_set(2, all[SET], &it) == WAKOTEHU_OK);
        EXPECT(of_transaction(0, all[TRANSACTION], 0, &it) == WAKOTEHU_OK);
        for (int kind = 0; kind < KINDS; kind++)
            EXPECT(closed(kind, all[kind]) == WAKOTEHU_OK);
        /* One that was closed is its own kind's still. */
        for (int kind = 0; kind < KINDS; kind++)
            for (int other = 0; other < KINDS; other++)
                each_call(kind, all[other], all[SET], kind == other ? WAKOTEHU_CLOSED : WAKOTEHU_HANDLE);
    }
    for (int kind = 0; kind < KINDS; kind++)
        for (size_t n = 0; n < sizeof never / sizeof *never; n++)
            each_call(kind, never[n], never[n], WAKOTEHU_CLOSED);
    EXPECT(strlen(wakotehu_code_text(WAKOTEHU_HANDLE)) > 0 && strlen(wakotehu_code_text(WAKOTEHU_FLAGS)) > 0);
    EXPECT(strlen(wakotehu_code_text(WAKOTEHU_ASKED_TOO_SMALL)) > 0 && live == before);
    return 0;
}
