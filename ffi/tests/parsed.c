/* Transactions that are read once: each allocation refused in turn, handles misused, shared by threads and closed under them, and
 * each answer beside that of the call that reads the bytes. Prints nothing where all is well. */
#include <pthread.h>
#include <string.h>
#include <wakotehu.h>

#include "refused.h"

/* Three inputs with the scripts 51, 52 and (a signature that is a hash type alone, a key) 01 01 01 02, and an output. */
enum { INPUTS = 3, TX = 4 + 1 + 42 + 42 + 45 + 1 + 9 + 4 };
static uint8_t *tx;
static const uint8_t adds[] = {0x52, 0x93, 0x54, 0x9c}; /* 2 ADD 4 NUMEQUAL: 2 alone is right */
static const uint8_t checksig[] = {0xac};

static void make_transaction(void) {
    static const uint8_t scripts[INPUTS][5] = {{1, 0x51}, {1, 0x52}, {4, 1, 1, 1, 2}};
    uint8_t *at = tx = calloc(1, TX);
    EXPECT(tx);
    *at = 1, at += 4, *at++ = INPUTS;
    for (int n = 0; n < INPUTS; n++) {
        memset(at, 7 + n, 32), at += 36;
        memcpy(at, scripts[n], 1 + scripts[n][0]), at += 1 + scripts[n][0] + 4;
    }
    *at++ = 1, *at = 1;
    EXPECT(at + 9 + 4 - tx == TX);
}

static wakotehu_tx opened(void) {
    wakotehu_tx own = 0;
    EXPECT(wakotehu_tx_read(tx, TX, NULL, &own) == WAKOTEHU_OK && own != 0);
    return own;
}

/* All that is told of an input. */
struct told {
    uint64_t line, needed;
    uint32_t error;
    char asked[256];
};

static struct told nothing_told(void) {
    struct told it;
    memset(&it, 0xa5, sizeof it);
    return it;
}

/* What is asked: the input, what it spends, the rules, two tables, and the room for a line. */
struct question {
    uint64_t input;
    const uint8_t *spent;
    size_t length;
    uint32_t flags;
    const char *valid, *invalid;
    size_t room;
};

static wakotehu_code by_handle(wakotehu_tx own, const struct question *q, struct told *it) {
    return wakotehu_tx_verify_input(own, q->input, q->spent, q->length, q->flags, q->valid, strlen(q->valid), q->invalid,
                                    strlen(q->invalid), &it->line, &it->error, it->asked, q->room, &it->needed);
}

static wakotehu_code by_bytes(const struct question *q, struct told *it) {
    return wakotehu_verify_script(tx, TX, q->input, q->spent, q->length, q->flags, q->valid, strlen(q->valid), q->invalid,
                                  strlen(q->invalid), &it->line, &it->error, it->asked, q->room, &it->needed);
}

#define DIGEST "0100000000000000000000000000000000000000000000000000000000000000"

static const struct question questions[] = {
    {0, adds, sizeof adds, 5, "", "", 256},
    {1, adds, sizeof adds, 5, "", "", 256},
    {1, adds, 2, 5, "# none\n", "", 256},
    {1, adds, 0, 0, "", "", 0},
    {2, checksig, 1, 0, "", "", 256},
    {2, checksig, 1, 0, "", "", 69},
    {2, checksig, 1, 4, "", "", 256},
    {3, adds, sizeof adds, 5, "", "", 256},
    {UINT64_MAX, adds, sizeof adds, 5, "", "", 256},
    {0, adds, sizeof adds, 5, "aa bb " DIGEST, "#\naa bb " DIGEST, 256},
    {0, adds, sizeof adds, 5, "\n1 2 3", "", 256},
    {0, adds, sizeof adds, 5, "", "\n\n1 2 3", 256},
};
enum { QUESTIONS = sizeof questions / sizeof *questions };

/* Both calls answer the same, in any order and again, and write the same. */
static void same_answers(void) {
    wakotehu_tx own = opened();
    int met[32] = {0};
    for (int n = 0; n < 3 * QUESTIONS; n++) {
        const struct question *q = &questions[n * 5 % QUESTIONS];
        struct told one = nothing_told(), other = nothing_told();
        wakotehu_code code = by_bytes(q, &one);
        EXPECT(by_handle(own, q, &other) == code && memcmp(&one, &other, sizeof one) == 0);
        met[code] = 1;
    }
    EXPECT(met[WAKOTEHU_OK] && met[WAKOTEHU_UNKNOWN] && met[WAKOTEHU_TOO_SMALL] && met[WAKOTEHU_NO_INPUT]);
    EXPECT(met[WAKOTEHU_CONTRADICTION] && met[WAKOTEHU_BAD_TABLE]);
    struct told it = nothing_told();
    EXPECT(by_handle(own, &questions[0], &it) == WAKOTEHU_OK && it.error == WAKOTEHU_SCRIPT_EVAL_FALSE);
    EXPECT(by_handle(own, &questions[1], &it) == WAKOTEHU_OK && it.error == WAKOTEHU_SCRIPT_OK);
    /* The line that is asked for, behind a table. */
    EXPECT(by_handle(own, &questions[4], &it) == WAKOTEHU_UNKNOWN && it.needed < 256);
    it.asked[it.needed] = 0;
    struct question known = questions[4];
    known.valid = it.asked, known.room = 0;
    struct told told = nothing_told();
    EXPECT(by_handle(own, &known, &told) == WAKOTEHU_OK && told.error == WAKOTEHU_SCRIPT_OK);
    known.valid = "", known.invalid = it.asked;
    EXPECT(by_handle(own, &known, &told) == WAKOTEHU_OK && told.error == WAKOTEHU_SCRIPT_EVAL_FALSE);
    EXPECT(wakotehu_tx_free(own) == WAKOTEHU_OK);
}

static void readings(void) {
    wakotehu_tx own = 7;
    size_t used = 9;
    uint8_t more[TX + 3];
    memcpy(more, tx, TX), memset(more + TX, 0, 3);
    EXPECT(wakotehu_tx_read(more, TX + 3, NULL, &own) == WAKOTEHU_EXTRA && own == 7);
    for (size_t length = 0; length < TX; length++) {
        wakotehu_transaction shown;
        EXPECT(wakotehu_tx_read(tx, length, NULL, &own) == wakotehu_read_transaction(tx, length, &shown));
        EXPECT(wakotehu_tx_read(tx, length, &used, &own) == WAKOTEHU_SHORT && used == 9 && own == 7);
    }
    EXPECT(wakotehu_tx_read(NULL, 0, &used, &own) == WAKOTEHU_SHORT);
    EXPECT(wakotehu_tx_read(NULL, 1, &used, &own) == WAKOTEHU_NULL);
    EXPECT(wakotehu_tx_read(tx, SIZE_MAX, &used, &own) == WAKOTEHU_NULL);
    EXPECT(wakotehu_tx_read(tx, TX, &used, NULL) == WAKOTEHU_NULL && used == 9 && own == 7);
    EXPECT(wakotehu_tx_read(more, TX + 3, &used, &own) == WAKOTEHU_OK && used == TX && own != 7);
    /* What was read doesn't hang on the bytes. */
    memset(more, 0xff, sizeof more);
    struct told it = nothing_told();
    EXPECT(by_handle(own, &questions[1], &it) == WAKOTEHU_OK && it.error == WAKOTEHU_SCRIPT_OK);
    EXPECT(wakotehu_tx_free(own) == WAKOTEHU_OK);
}

static void refused_allocations(void) {
    long before = live, n;
    wakotehu_tx own = 0;
    size_t used = 9;
    for (n = 0; own == 0; n++) {
        left = n;
        wakotehu_code code = wakotehu_tx_read(tx, TX, &used, &own);
        int met = left < 0;
        left = -1;
        EXPECT(code == (met ? WAKOTEHU_MEMORY : WAKOTEHU_OK));
        EXPECT(met ? own == 0 && used == 9 && live == before : used == TX);
    }
    EXPECT(n > 3);
    long kept = live;
    for (int each = 0; each < QUESTIONS; each++) {
        struct told right = nothing_told(), clean = nothing_told();
        wakotehu_code done = by_handle(own, &questions[each], &right);
        int met = 1;
        for (n = 0; met; n++) {
            struct told it = nothing_told();
            left = n;
            wakotehu_code code = by_handle(own, &questions[each], &it);
            met = left < 0;
            left = -1;
            EXPECT(code == (met ? WAKOTEHU_MEMORY : done));
            EXPECT(memcmp(&it, met ? &clean : &right, sizeof it) == 0 && live == kept);
        }
    }
    EXPECT(wakotehu_tx_free(own) == WAKOTEHU_OK && live == before);
}

/* Of all inputs at once: 1 ADD 2 is 3, 2 ADD 2 is 4, and a signature. */
static const uint8_t all_scripts[] = {0x52, 0x93, 0x53, 0x9c, 0x52, 0x93, 0x54, 0x9c, 0xac};
static const uint64_t all_sizes[INPUTS] = {4, 4, 1};

struct all {
    struct told told;
    uint64_t input;
};

static struct all nothing_of_all(void) {
    struct all it;
    memset(&it, 0xa5, sizeof it);
    return it;
}

static wakotehu_code all_inputs(wakotehu_tx own, const uint64_t *sizes, size_t count, size_t length, const char *valid,
                                const char *invalid, struct all *it) {
    return wakotehu_tx_verify(own, all_scripts, length, sizes, count, 1, valid, strlen(valid), invalid, strlen(invalid),
                              &it->told.line, &it->input, &it->told.error, it->told.asked, 256, &it->told.needed);
}

static void all_at_once(void) {
    static const uint64_t wrong_sizes[INPUTS] = {8, 0, 1}, more[] = {4, 4, 1, 0}, huge[INPUTS] = {UINT64_MAX, 9, 1};
    const size_t length = sizeof all_scripts;
    wakotehu_tx own = opened();
    struct all it = nothing_of_all(), clean = nothing_of_all();
    struct told one = nothing_told();
    EXPECT(all_inputs(own, all_sizes, INPUTS - 1, 8, "", "", &it) == WAKOTEHU_MISMATCH);
    EXPECT(all_inputs(own, more, INPUTS + 1, length, "", "", &it) == WAKOTEHU_MISMATCH);
    EXPECT(all_inputs(own, all_sizes, INPUTS, length - 1, "", "", &it) == WAKOTEHU_MISMATCH);
    EXPECT(all_inputs(own, huge, INPUTS, length, "", "", &it) == WAKOTEHU_MISMATCH);
    EXPECT(all_inputs(own, NULL, 1, length, "", "", &it) == WAKOTEHU_NULL);
    EXPECT(all_inputs(own, all_sizes, SIZE_MAX, length, "", "", &it) == WAKOTEHU_NULL);
    EXPECT(all_inputs(0, all_sizes, INPUTS, length, "", "", &it) == WAKOTEHU_CLOSED && memcmp(&it, &clean, sizeof it) == 0);
    /* The last input asks for what it asks by itself. */
    EXPECT(all_inputs(own, all_sizes, INPUTS, length, "", "", &it) == WAKOTEHU_UNKNOWN);
    EXPECT(by_handle(own, &(struct question){2, checksig, 1, 1, "", "", 256}, &one) == WAKOTEHU_UNKNOWN);
    EXPECT(memcmp(&it.told, &one, sizeof one) == 0 && it.input == clean.input);
    it.told.asked[it.told.needed] = 0;
    char line[256];
    strcpy(line, it.told.asked);
    EXPECT(all_inputs(own, all_sizes, INPUTS, length, line, "", &it) == WAKOTEHU_OK && it.input == 0);
    EXPECT(it.told.error == WAKOTEHU_SCRIPT_OK);
    EXPECT(all_inputs(own, all_sizes, INPUTS, length, "", line, &it) == WAKOTEHU_OK && it.input == 2);
    EXPECT(it.told.error == WAKOTEHU_SCRIPT_EVAL_FALSE);
    /* One that is refused keeps the others from being looked at. */
    EXPECT(all_inputs(own, wrong_sizes, INPUTS, length, "", "", &it) == WAKOTEHU_OK && it.input == 0);
    EXPECT(it.told.error == WAKOTEHU_SCRIPT_INVALID_STACK_OPERATION || it.told.error == WAKOTEHU_SCRIPT_EVAL_FALSE);
    long kept = live;
    int met = 1;
    for (long n = 0; met; n++) {
        struct all refused = nothing_of_all();
        left = n;
        wakotehu_code code = all_inputs(own, all_sizes, INPUTS, length, "", "", &refused);
        met = left < 0;
        left = -1;
        EXPECT(code == (met ? WAKOTEHU_MEMORY : WAKOTEHU_UNKNOWN) && live == kept);
        EXPECT(!met || memcmp(&refused, &clean, sizeof clean) == 0);
    }
    EXPECT(wakotehu_tx_free(own) == WAKOTEHU_OK);
}

static void misused(void) {
    wakotehu_tx own = opened(), wrong[] = {0, 1, 65535, UINT64_MAX, own + 1, own + 65536, own << 32, 0};
    struct told it = nothing_told(), clean = nothing_told();
    const struct question *q = &questions[1];
    uint64_t needed = 7;
    uint32_t error = 7;
    EXPECT(wakotehu_tx_verify_input(own, 1, NULL, 1, 5, NULL, 0, NULL, 0, NULL, &error, NULL, 0, &needed) == WAKOTEHU_NULL);
    EXPECT(wakotehu_tx_verify_input(own, 1, adds, 4, 5, NULL, 1, NULL, 0, NULL, &error, NULL, 0, &needed) == WAKOTEHU_NULL);
    EXPECT(wakotehu_tx_verify_input(own, 1, adds, 4, 5, NULL, 0, NULL, 1, NULL, &error, NULL, 0, &needed) == WAKOTEHU_NULL);
    EXPECT(wakotehu_tx_verify_input(own, 1, adds, 4, 5, NULL, 0, NULL, 0, NULL, NULL, NULL, 0, &needed) == WAKOTEHU_NULL);
    EXPECT(wakotehu_tx_verify_input(own, 1, adds, 4, 5, NULL, 0, NULL, 0, NULL, &error, NULL, 1, &needed) == WAKOTEHU_NULL);
    EXPECT(wakotehu_tx_verify_input(own, 1, adds, 4, 5, NULL, 0, NULL, 0, NULL, &error, NULL, 0, NULL) == WAKOTEHU_NULL);
    EXPECT(wakotehu_tx_verify_input(own, 1, adds, SIZE_MAX, 5, NULL, 0, NULL, 0, NULL, &error, NULL, 0, &needed)
           == WAKOTEHU_NULL);
    for (uint32_t bit = 1; bit; bit <<= 1) {
        struct all all;
        int known = (bit & (1 | 4 | 16 | 512 | 1024)) != 0;
        wakotehu_utxo set = 0;
        EXPECT(wakotehu_utxo_open(&set) == WAKOTEHU_OK);
        wakotehu_code codes[] = {
            wakotehu_tx_verify_input(own, 1, adds, 4, bit, NULL, 0, NULL, 0, NULL, &error, NULL, 0, &needed),
            wakotehu_tx_verify_input_known(own, set, 1, adds, 4, bit, &error, NULL, 0, &needed),
            wakotehu_tx_verify(own, all_scripts, 8, (const uint64_t[]){4, 4, 0}, INPUTS, bit, NULL, 0, NULL, 0, NULL, &all.input,
                               &all.told.error, NULL, 0, &needed),
        };
        for (int n = 0; n < 3; n++)
            EXPECT(codes[n] == (known ? WAKOTEHU_OK : WAKOTEHU_FLAGS));
        EXPECT(error == (known ? 0 : 7) && wakotehu_utxo_close(set) == WAKOTEHU_OK);
        error = 7;
    }
    EXPECT(error == 7 && needed == 7);
    EXPECT(wakotehu_tx_verify_input(own, 1, adds, 4, 5, NULL, 0, NULL, 0, NULL, &error, NULL, 0, &needed) == WAKOTEHU_OK);
    EXPECT(error == 0 && needed == 7);
    EXPECT(wakotehu_tx_free(own) == WAKOTEHU_OK);
    wrong[7] = own;
    for (size_t n = 0; n < sizeof wrong / sizeof *wrong; n++) {
        EXPECT(by_handle(wrong[n], q, &it) == WAKOTEHU_CLOSED && memcmp(&it, &clean, sizeof it) == 0);
        EXPECT(wakotehu_tx_free(wrong[n]) == WAKOTEHU_CLOSED);
    }
    wakotehu_tx again = opened();
    EXPECT(again != own && wakotehu_tx_free(own) == WAKOTEHU_CLOSED && wakotehu_tx_free(again) == WAKOTEHU_OK);
}

static void too_many(void) {
    static wakotehu_tx all[WAKOTEHU_MOST_TRANSACTIONS];
    wakotehu_tx more = 7;
    long before = live;
    for (size_t n = 0; n < WAKOTEHU_MOST_TRANSACTIONS; n++)
        all[n] = opened();
    EXPECT(wakotehu_tx_read(tx, TX, NULL, &more) == WAKOTEHU_TOO_MANY && more == 7);
    EXPECT(wakotehu_tx_free(all[99]) == WAKOTEHU_OK && (all[99] = opened()) != 0);
    for (size_t n = 0; n < WAKOTEHU_MOST_TRANSACTIONS; n++)
        EXPECT(wakotehu_tx_free(all[n]) == WAKOTEHU_OK);
    EXPECT(live == before);
}

/* Threads that ask one transaction, of which no call is busy, and each read and free others. */
enum { THREADS = 8 };
static wakotehu_tx shared;
static wakotehu_utxo sets[THREADS];

static void *asks(void *given) {
    const wakotehu_utxo *set = given;
    struct all all;
    for (int n = 0; n < 10000; n++) {
        struct told it = nothing_told();
        uint32_t error = n & 1 ? WAKOTEHU_SCRIPT_OK : WAKOTEHU_SCRIPT_EVAL_FALSE;
        EXPECT(by_handle(shared, &questions[n & 1], &it) == WAKOTEHU_OK && it.error == error);
        EXPECT(all_inputs(shared, all_sizes, INPUTS, sizeof all_scripts, "", "", &all) == WAKOTEHU_UNKNOWN);
        EXPECT(wakotehu_tx_verify_input_known(shared, *set, n & 1, adds, sizeof adds, 5, &it.error, it.asked, 256, &it.needed)
               == WAKOTEHU_OK);
        EXPECT(it.error == error);
        wakotehu_tx own = opened();
        EXPECT(by_handle(own, &questions[1], &it) == WAKOTEHU_OK && wakotehu_tx_free(own) == WAKOTEHU_OK);
    }
    return NULL;
}

/* Asks while it is freed, and never meets another answer than the right one or that it is closed. */
static void *asks_what_is_freed(void *unused) {
    struct told it;
    for (int n = 0; n < 500; n++) {
        wakotehu_code code = by_handle(shared, &questions[1], &it);
        EXPECT(code == WAKOTEHU_CLOSED || (code == WAKOTEHU_OK && it.error == WAKOTEHU_SCRIPT_OK));
    }
    return unused;
}

/* It is given back while none asks it, and by one call. */
static void *frees(void *freed) {
    wakotehu_code code;
    while ((code = wakotehu_tx_free(shared)) == WAKOTEHU_BUSY)
        ;
    EXPECT(code == WAKOTEHU_OK || code == WAKOTEHU_CLOSED);
    *(int *)freed = code == WAKOTEHU_OK;
    return NULL;
}

static void threads(void) {
    pthread_t all[THREADS];
    long before = live;
    shared = opened();
    for (int n = 0; n < THREADS; n++)
        EXPECT(wakotehu_utxo_open(&sets[n]) == WAKOTEHU_OK && pthread_create(&all[n], NULL, asks, &sets[n]) == 0);
    for (int n = 0; n < THREADS; n++)
        EXPECT(pthread_join(all[n], NULL) == 0 && wakotehu_utxo_close(sets[n]) == WAKOTEHU_OK);
    EXPECT(wakotehu_tx_free(shared) == WAKOTEHU_OK);
    for (int round = 0; round < 50; round++) {
        int freed[2] = {0};
        shared = opened();
        for (int n = 0; n < THREADS; n++)
            EXPECT(pthread_create(&all[n], NULL, n < 2 ? frees : asks_what_is_freed, n < 2 ? &freed[n] : NULL) == 0);
        for (int n = 0; n < THREADS; n++)
            EXPECT(pthread_join(all[n], NULL) == 0);
        EXPECT(freed[0] + freed[1] == 1);
    }
    EXPECT(live == before);
}

int main(void) {
    make_transaction();
    readings();
    same_answers();
    refused_allocations();
    all_at_once();
    misused();
    too_many();
    threads();
    free(tx);
    return 0;
}
