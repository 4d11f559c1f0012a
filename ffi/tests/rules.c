/* The rules as calls: each with each of its allocations refused in turn, with null and with hostile lengths and counts,
 * and many verifications, which leave no memory behind. Nothing that isn't told is written. Linked with
 * --wrap=malloc,--wrap=calloc,--wrap=realloc,--wrap=free; the first word on the command line is how many
 * verifications. */
#include <stdio.h>
#include <stdlib.h>
#include <string.h>
#include <wakotehu.h>

#include "../examples/blocks.h"

static long left = -1; /* so many allocations until one is refused; below 0: none is */

void *__real_malloc(size_t size);
void *__real_calloc(size_t count, size_t size);
void *__real_realloc(void *old, size_t size);
void __real_free(void *old);

static long live;      /* so many pieces of memory are in use */
static size_t largest; /* the longest piece that was asked for */

static int is_refused(size_t size) {
    largest = size > largest ? size : largest;
    return left >= 0 && left-- == 0;
}

static void *counted(void *made) {
    live += made != NULL;
    return made;
}

void *__wrap_malloc(size_t size) { return is_refused(size) ? NULL : counted(__real_malloc(size)); }

void *__wrap_calloc(size_t count, size_t size) {
    return is_refused(count * size) ? NULL : counted(__real_calloc(count, size));
}

void *__wrap_realloc(void *old, size_t size) {
    if (is_refused(size))
        return NULL;
    return old ? __real_realloc(old, size) : counted(__real_realloc(old, size));
}

void __wrap_free(void *old) {
    live -= old != NULL;
    __real_free(old);
}

#define EXPECT(holds)                                                          \
    do {                                                                       \
        if (!(holds)) {                                                        \
            fprintf(stderr, "%s:%d: %s\n", __FILE__, __LINE__, #holds);        \
            exit(1);                                                           \
        }                                                                      \
    } while (0)

/* An input with the script 51 52, and an output of 1 without a script. */
static uint8_t *tx;
enum { TX = 62 };
/* A record of a blk file, of the block b1. */
static uint8_t *record;
enum { RECORD = 8 + sizeof b1 };

static const uint8_t spent[] = {0x93, 0x53, 0x9c}; /* ADD 3 NUMEQUAL */
static const uint8_t separated[] = {0xab, 0x51, 0xab};
/* A stack of the elements 07 and 08 09. */
static const uint8_t given[] = {7, 8, 9};
static const uint64_t given_sizes[] = {1, 2};
static const wakotehu_flags flags = {1, 1, 1};
/* CHECKSIG of the key 02 and the signature 01, which is a hash type alone and may be tried without BIP 66. */
static const uint8_t checksig[] = {0xac};
static const wakotehu_flags none = {0, 0, 0};
static const wakotehu_heights regtest = {1, 1, 1, 1};
static const wakotehu_start start = {1, 1};
static const uint8_t key[] = {0xaa}, signature[] = {0x30, 6, 2, 1, 1, 2, 1, 1}, digest[32] = {1};
static const char table[] = "# key, signature, digest\n\naa 3006020101020101 "
                            "0100000000000000000000000000000000000000000000000000000000000000\n";
enum { TABLE = sizeof table - 1 };

static void make_inputs(void) {
    const uint8_t magic[8] = {0xfa, 0xbf, 0xb5, 0xda, sizeof b1 & 255, sizeof b1 >> 8, 0, 0};
    /* Each in memory of its own, so that the sanitizer sees a read behind its end. */
    tx = calloc(1, TX);
    record = malloc(RECORD);
    EXPECT(tx && record);
    tx[0] = 1, tx[4] = 1;
    memset(tx + 5, 7, 32);
    tx[41] = 2, tx[42] = 0x51, tx[43] = 0x52, tx[48] = 1, tx[49] = 1;
    memcpy(record, magic, sizeof magic);
    memcpy(record + 8, b1, sizeof b1);
}

/* All that calls write. */
struct told {
    wakotehu_transaction transaction;
    wakotehu_block_shown block;
    wakotehu_opcode opcode;
    wakotehu_script_shown script;
    wakotehu_header_fields header;
    wakotehu_input inputs[2];
    wakotehu_output outputs[2];
    wakotehu_made rows[2];
    wakotehu_evaluated evaluated;
    uint64_t sizes[8];
    int64_t value;
    uint64_t count, line;
    uint32_t yes;
    uint8_t bytes[128];
    char text[256];
    size_t length;
};

/* What lies behind a last field is no one's. */
#define CLEAR_TAIL(shown, last)                                                                      \
    memset((char *)(shown) + offsetof(__typeof__(*(shown)), last) + sizeof (shown)->last, 0,         \
           sizeof *(shown)-offsetof(__typeof__(*(shown)), last) - sizeof (shown)->last)

static int is_same(struct told *one, struct told *other) {
    struct told *both[] = {one, other};
    for (int n = 0; n < 2; n++) {
        CLEAR_TAIL(&both[n]->block, reason);
        CLEAR_TAIL(&both[n]->opcode, number);
        CLEAR_TAIL(&both[n]->script, unspendable);
        CLEAR_TAIL(&both[n]->evaluated, error);
    }
    return memcmp(one, other, sizeof *one) == 0;
}

static struct told nothing_told(void) {
    struct told it;
    memset(&it, 0xa5, sizeof it);
    it.length = 0;
    return it;
}

static int is_no_run(const wakotehu_evaluated *told) {
    return told->elements == 0 && told->size == 0 && told->error == WAKOTEHU_SCRIPT_UNKNOWN_ERROR;
}

/* Each call that may take memory, then those that take none; the numbers are those of `MEMORY_FREE` on. */
enum { EVALUATION = 19, MEMORY_FREE = 22, CALLS = 34 };

/* What is told of a script that hasn't run to its end. */
static const wakotehu_evaluated no_run = {0, 0, WAKOTEHU_SCRIPT_UNKNOWN_ERROR};

/* Three ids, and the last of them again: the list without the repetition has the same root. */
static const uint8_t four_ids[4][32] = {{1}, {2}, {3}, {3}};

static wakotehu_code nth_call(int call, struct told *it) {
    static const wakotehu_input input = {{7}, 2, 0, 0};
    static const wakotehu_output output = {1, 0};
    static const uint8_t scripts[] = {0x51, 0x52};
    static const uint32_t times[] = {5, 7, 6};
    switch (call) {
    case 0: return wakotehu_read_transaction(tx, TX, &it->transaction);
    case 1: return wakotehu_transaction_parts(tx, TX, it->inputs, 2, it->outputs, 2, it->bytes, 128);
    case 2: return wakotehu_write_transaction(1, 9, &input, 1, &output, 1, scripts, 2, it->bytes, 128, &it->count);
    case 3: return wakotehu_is_final(tx, TX, 5, 5, &it->yes);
    case 4: return wakotehu_locks_met(tx, TX, &start, 1, 5, 5, &it->yes);
    case 5: return wakotehu_read_block(b1, sizeof b1, &it->block);
    case 6: return wakotehu_block_size(b1, sizeof b1, &it->count);
    case 7: return wakotehu_block_transactions(b1, sizeof b1, it->rows, 2, &it->count);
    case 8: return wakotehu_block_place(b1, sizeof b1, 1, 1, 1, &regtest, &it->yes);
    case 9: return wakotehu_record(record, RECORD, &it->count);
    case 10: return wakotehu_signature_digest(tx, TX, 0, spent, 3, 1, it->bytes);
    case 11: return wakotehu_verify(tx, TX, 0, spent, 3, &flags, table, TABLE, &it->line, &it->yes);
    case 12: return wakotehu_table_read(table, TABLE, &it->line);
    case 13: return wakotehu_table_has(table, TABLE, key, 1, signature, 8, digest, &it->line, &it->yes);
    case 14: return wakotehu_table_add(it->text, 256, &it->length, key, 1, signature, 8, digest);
    /* Nothing is known, so that a line is told. */
    case 15: {
        wakotehu_code code = wakotehu_verify_known(tx, TX, 0, checksig, 1, &none, table, TABLE, NULL, 0, &it->line,
                                                   &it->yes, it->text, 256, &it->count);
        return code == WAKOTEHU_UNKNOWN ? WAKOTEHU_OK : code;
    }
    case 16: return wakotehu_signature_digest_as_given(tx, TX, 0, spent, 3, 1, it->bytes);
    case 17: return wakotehu_signature_digest(tx, TX, 0, separated, sizeof separated, 1, it->bytes);
    case 18: {
        wakotehu_code code = wakotehu_verify_script(tx, TX, 0, checksig, 1, 0, table, TABLE, NULL, 0, &it->line, &it->yes,
                                                    it->text, 256, &it->count);
        return code == WAKOTEHU_UNKNOWN ? WAKOTEHU_OK : code;
    }
    case 19: return wakotehu_eval_script(tx, TX, 0, separated, 3, 0, given_sizes, 2, given, 3, table, TABLE, NULL, 0,
                                         &it->line, &it->evaluated, it->sizes, 8, it->bytes, 128, it->text, 256, &it->count);
    case 20: return wakotehu_merkle(four_ids[0], 4, it->bytes, &it->yes);
    case 21: return wakotehu_check_transaction(tx, TX, &it->yes);
    /* MEMORY_FREE */
    case 22: return wakotehu_next_opcode(spent, 3, &it->opcode);
    case 23: return wakotehu_script(spent, 3, &it->script);
    case 24: return wakotehu_read_number(spent, 3, 4, &it->value);
    case 25: return wakotehu_median(times, 3, &it->yes);
    case 26: return wakotehu_strict_signature(signature, 8, &it->yes);
    case 27: return wakotehu_hash160(spent, 3, it->bytes);
    case 28: return wakotehu_sha256(spent, 3, it->bytes);
    case 29: return wakotehu_read_header(b1, 80, &it->header);
    case 30: return wakotehu_read_bits(0x04923456, it->bytes, &it->yes, &it->evaluated.error);
    case 31: return wakotehu_write_bits(digest, 1, &it->yes);
    case 32: return wakotehu_work(0x1d00ffff, it->bytes);
    default: return wakotehu_read_id("00", 2, it->bytes) == WAKOTEHU_NONE ? WAKOTEHU_OK : WAKOTEHU_NULL;
    }
}

static void refused_allocations(void) {
    for (int call = 0; call < CALLS; call++) {
        struct told right = nothing_told(), before = nothing_told();
        EXPECT(nth_call(call, &right) == WAKOTEHU_OK);
        if (call == EVALUATION)
            before.evaluated = no_run;
        for (long n = 0;; n++) {
            struct told it = nothing_told();
            left = n;
            wakotehu_code code = nth_call(call, &it);
            int met = left < 0;
            left = -1;
            EXPECT(code == (met ? WAKOTEHU_MEMORY : WAKOTEHU_OK));
            EXPECT(is_same(&it, met ? &before : &right));
            EXPECT(met || (n > 0) == (call < MEMORY_FREE));
            if (!met)
                break;
        }
    }
    /* A number of one byte or more takes memory, and 0 none. */
    struct told it = nothing_told(), before = nothing_told();
    left = 0;
    EXPECT(wakotehu_number_bytes(1, it.bytes, 128, &it.count) == WAKOTEHU_MEMORY);
    left = -1;
    EXPECT(is_same(&it, &before));
}

/* What the calls say of these inputs. */
static void values(void) {
    struct told it = nothing_told();
    for (int call = 0; call < CALLS; call++)
        EXPECT(nth_call(call, &it) == WAKOTEHU_OK);
    EXPECT(it.transaction.size == TX && it.transaction.reason == 0 && it.transaction.inputs == 1);
    EXPECT(it.inputs[0].script == 2 && it.inputs[0].id[31] == 7 && it.outputs[0].value == 1);
    EXPECT(it.block.reason == 0 && it.block.size == sizeof b1 && it.block.transactions == 1);
    EXPECT(memcmp(it.rows[0].id, b1_coinbase, 32) == 0 && it.rows[0].outputs == 1);
    EXPECT(it.value == -(0x1c5393));
    EXPECT(memcmp(it.header.id, it.block.id, 32) == 0 && memcmp(it.header.root, it.block.root, 32) == 0);
    EXPECT(it.header.time == it.block.time && it.header.bits == 0x207fffff && it.header.nonce == it.block.nonce);
    /* read and written back */
    uint8_t scripts[TX], bytes[TX];
    uint64_t length = 0;
    EXPECT(wakotehu_transaction_parts(tx, TX, it.inputs, 1, it.outputs, 1, scripts, 2) == WAKOTEHU_OK);
    EXPECT(wakotehu_write_transaction(1, 0, it.inputs, 1, it.outputs, 1, scripts, 2, bytes, TX, &length) == WAKOTEHU_OK);
    EXPECT(length == TX && memcmp(bytes, tx, TX) == 0);
    /* a table that grows */
    char text[TABLE + 200];
    size_t size = TABLE;
    uint32_t yes = 7;
    memcpy(text, table, TABLE);
    EXPECT(wakotehu_table_has(text, size, key, 1, NULL, 0, digest, NULL, &yes) == WAKOTEHU_OK && yes == 0);
    EXPECT(wakotehu_table_add(text, TABLE + 69, &size, key, 1, NULL, 0, digest) == WAKOTEHU_TOO_SMALL && size == TABLE);
    EXPECT(wakotehu_table_add(text, TABLE + 70, &size, key, 1, NULL, 0, digest) == WAKOTEHU_OK && size == TABLE + 70);
    EXPECT(wakotehu_table_has(text, size, key, 1, NULL, 0, digest, NULL, &yes) == WAKOTEHU_OK && yes == 1);
    EXPECT(wakotehu_table_has(text, size, key, 1, signature, 8, digest, NULL, &yes) == WAKOTEHU_OK && yes == 1);
}

/* Code separators are no part of what is signed, but bytes that are pushed are, and a push that is cut short. */
static void separators(void) {
    static const struct {
        uint8_t code[6], left[6];
        size_t length, left_length;
    } cases[] = {
        {{0xab}, {0}, 1, 0},
        {{0x51, 0xab, 0xab, 0x52, 0xab}, {0x51, 0x52}, 5, 2},
        {{0x02, 0xab, 0xab, 0xab, 0x51}, {0x02, 0xab, 0xab, 0x51}, 5, 4},
        {{0xab, 0x4c, 0x02, 0xab, 0xab, 0xab}, {0x4c, 0x02, 0xab, 0xab}, 6, 4},
        {{0xab, 0x03, 0xab, 0x51}, {0x03, 0xab, 0x51}, 4, 3},
        {{0x51, 0x52}, {0x51, 0x52}, 2, 2},
    };
    for (size_t n = 0; n < sizeof cases / sizeof *cases; n++) {
        uint8_t digest_of[3][32], *code = malloc(cases[n].length);
        memcpy(code, cases[n].code, cases[n].length);
        EXPECT(wakotehu_signature_digest(tx, TX, 0, code, cases[n].length, 1, digest_of[0]) == WAKOTEHU_OK);
        EXPECT(wakotehu_signature_digest_as_given(tx, TX, 0, cases[n].left, cases[n].left_length, 1, digest_of[1])
               == WAKOTEHU_OK);
        EXPECT(wakotehu_signature_digest_as_given(tx, TX, 0, code, cases[n].length, 1, digest_of[2]) == WAKOTEHU_OK);
        EXPECT(memcmp(digest_of[0], digest_of[1], 32) == 0);
        EXPECT((memcmp(digest_of[0], digest_of[2], 32) == 0) == (cases[n].left_length == cases[n].length));
        EXPECT(wakotehu_signature_digest(tx, TX, 1, code, cases[n].length, 1, digest_of[2]) == WAKOTEHU_NO_INPUT);
        EXPECT(wakotehu_signature_digest(tx, TX, 0, code, cases[n].length, 1, NULL) == WAKOTEHU_NULL);
        free(code);
    }
}

/* A signature that is asked for is known once its line stands in a table. */
static void known_signatures(void) {
    char lines[3][70], text[140];
    uint64_t needed = 0;
    uint32_t yes = 7;
    for (int n = 0; n < 3; n++) {
        memset(lines[n], '#', 70);
        EXPECT(wakotehu_verify_known(tx, TX, 0, checksig, 1, &none, NULL, 0, NULL, 0, NULL, &yes, lines[n], 69 + n / 2, &needed)
               == (n < 2 ? WAKOTEHU_TOO_SMALL : WAKOTEHU_UNKNOWN));
        EXPECT(needed == 70 && yes == 7);
    }
    EXPECT(lines[0][0] == '#' && memcmp(lines[0], lines[1], 70) == 0 && memcmp(lines[2], "\n02 - ", 6) == 0);
    memcpy(text, lines[2], 70), memcpy(text + 70, lines[2], 70);
    EXPECT(wakotehu_verify_known(tx, TX, 0, checksig, 1, &none, text, 140, NULL, 0, NULL, &yes, NULL, 0, &needed) == WAKOTEHU_OK);
    EXPECT(yes == 1);
    EXPECT(wakotehu_verify_known(tx, TX, 0, checksig, 1, &none, NULL, 0, text, 70, NULL, &yes, NULL, 0, &needed) == WAKOTEHU_OK);
    EXPECT(yes == 0 && needed == 70);
    EXPECT(wakotehu_verify_known(tx, TX, 0, checksig, 1, &none, text, 70, text, 70, NULL, &yes, NULL, 0, &needed)
           == WAKOTEHU_CONTRADICTION);
    EXPECT(yes == 0 && needed == 70);
}

/* A script on a stack, and the names of failures. */
static void evaluations(void) {
    static const uint8_t less[] = {0x6d, 0x75}, taken[] = {0x6d}; /* 2DROP DROP, 2DROP */
    wakotehu_evaluated told = {7, 7, 7};
    uint64_t sizes[3] = {9, 9, 9}, needed = 0;
    uint8_t left[4] = {9, 9, 9, 9};
    uint32_t error = 7;
    for (int room = 0; room < 6; room++) {
        wakotehu_code code = wakotehu_eval_script(tx, TX, 0, separated, 3, 0, given_sizes, 2, given, 3, NULL, 0, NULL, 0, NULL,
                                                  &told, sizes, room % 2 + 2, left, room / 2 + 2, NULL, 0, &needed);
        EXPECT(code == (room == 5 ? WAKOTEHU_OK : WAKOTEHU_TOO_SMALL));
        EXPECT(told.elements == 3 && told.size == 4 && told.error == 0);
        EXPECT(sizes[0] == (room < 5 ? 9 : 1) && left[0] == (room < 5 ? 9 : 7));
    }
    EXPECT(sizes[1] == 2 && sizes[2] == 1 && left[1] == 8 && left[2] == 9 && left[3] == 1);
    EXPECT(wakotehu_eval_script(tx, TX, 0, taken, 1, 0, given_sizes, 2, given, 3, NULL, 0, NULL, 0, NULL, &told, NULL, 0, NULL, 0,
                                NULL, 0, &needed) == WAKOTEHU_OK);
    EXPECT(told.elements == 0 && told.size == 0 && told.error == WAKOTEHU_SCRIPT_OK);
    EXPECT(wakotehu_eval_script(tx, TX, 0, less, 2, 0, given_sizes, 2, given, 3, NULL, 0, NULL, 0, NULL, &told, sizes, 3, left, 4,
                                NULL, 0, &needed) == WAKOTEHU_OK);
    EXPECT(told.elements == 0 && told.size == 0 && told.error == WAKOTEHU_SCRIPT_INVALID_STACK_OPERATION && sizes[0] == 1);
    EXPECT(strcmp(wakotehu_script_error_name(told.error), "INVALID_STACK_OPERATION") == 0);
    EXPECT(strcmp(wakotehu_script_error_name(22), "") == 0 && strcmp(wakotehu_script_error_text(UINT32_MAX), "") == 0);
    EXPECT(wakotehu_verify_script(tx, TX, 0, less, 2, 0, NULL, 0, NULL, 0, NULL, &error, NULL, 0, &needed) == WAKOTEHU_OK);
    EXPECT(error == WAKOTEHU_SCRIPT_INVALID_STACK_OPERATION);
    EXPECT(wakotehu_verify_script(tx, TX, 0, spent, 3, 0, NULL, 0, NULL, 0, NULL, &error, NULL, 0, &needed) == WAKOTEHU_OK);
    EXPECT(error == WAKOTEHU_SCRIPT_OK);
}

/* What a run is answered, with all that it writes. */
enum { MOST_SIZES = 1200, MOST_LEFT = 1 << 17, MOST_LINE = 1 << 13 };
struct run {
    wakotehu_code code;
    wakotehu_evaluated told;
    uint64_t sizes[MOST_SIZES], needed;
    uint8_t left[MOST_LEFT];
    char line[MOST_LINE];
};

/* A script and the stack that it begins with. */
struct case_of_run {
    uint8_t script[32], elements[5000];
    uint64_t sizes[6];
    size_t length, count, size;
    uint32_t flags;
};

static void run(const struct case_of_run *it, size_t sizes, size_t left, size_t line, struct run *found) {
    memset(found, 0xa5, sizeof *found);
    found->code = wakotehu_eval_script(tx, TX, 0, it->script, it->length, it->flags, it->sizes, it->count, it->elements, it->size,
                                       NULL, 0, NULL, 0, NULL, &found->told, found->sizes, sizes, found->left, left,
                                       found->line, line, &found->needed);
}

static int same_run(const struct run *one, const struct run *other) {
    return one->code == other->code && one->told.elements == other->told.elements && one->told.size == other->told.size
           && one->told.error == other->told.error && one->needed == other->needed
           && memcmp(one->sizes, other->sizes, sizeof one->sizes) == 0 && memcmp(one->left, other->left, sizeof one->left) == 0
           && memcmp(one->line, other->line, sizeof one->line) == 0;
}

static uint32_t random_below(uint32_t *state, uint32_t most) {
    *state = *state * 1664525 + 1013904223;
    return (*state >> 8) % most;
}

static void make_run(uint32_t *state, struct case_of_run *it) {
    /* 1, 2, DROP, DUP, OVER, CHECKSIG, CHECKSIGVERIFY, and CHECKMULTISIG of 1 of 1 */
    static const uint8_t opcodes[] = {0x51, 0x52, 0x75, 0x76, 0x78, 0xac, 0xad, 0xae};
    static const uint32_t rules[] = {0, 1, 4, 1 | 4 | 512 | 1024};
    *it = (struct case_of_run){.flags = rules[random_below(state, 4)]};
    it->count = 1 + random_below(state, 5);
    for (size_t n = 0; n < it->count; n++) {
        it->sizes[n] = random_below(state, 2) ? random_below(state, 12) : 900 + random_below(state, 100);
        for (size_t at = 0; at < it->sizes[n]; at++)
            it->elements[it->size++] = (uint8_t)random_below(state, 256);
    }
    for (uint32_t most = 1 + random_below(state, 6); it->length < most;)
        it->script[it->length++] = opcodes[random_below(state, sizeof opcodes)];
}

/* Rooms that grow to what was told come to what rooms that are large enough are answered; a line without room isn't answered
 * as a stack without. */
static void growing_rooms(void) {
    static struct case_of_run it;
    static struct run right, found;
    uint32_t state = 85;
    long met[64] = {0}, long_lines = 0;
    for (int n = 0; n < 4000; n++) {
        make_run(&state, &it);
        run(&it, MOST_SIZES, MOST_LEFT, MOST_LINE, &right);
        EXPECT(right.code == WAKOTEHU_OK || right.code == WAKOTEHU_UNKNOWN);
        EXPECT(right.code == WAKOTEHU_OK || is_no_run(&right.told));
        met[right.code]++, long_lines += right.code == WAKOTEHU_UNKNOWN && right.needed > WAKOTEHU_MOST_ASKED;
        size_t sizes = random_below(&state, 3), left = random_below(&state, 1000), line = random_below(&state, 3000);
        run(&it, sizes, left, line, &found);
        if (found.code == WAKOTEHU_TOO_SMALL) {
            EXPECT(right.code == WAKOTEHU_OK && (found.told.elements > sizes || found.told.size > left));
            sizes = found.told.elements, left = found.told.size;
        } else if (found.code == WAKOTEHU_ASKED_TOO_SMALL) {
            EXPECT(right.code == WAKOTEHU_UNKNOWN && found.needed > line && is_no_run(&found.told));
            line = found.needed;
        }
        met[found.code]++;
        run(&it, sizes, left, line, &found);
        EXPECT(same_run(&found, &right));
    }
    EXPECT(met[WAKOTEHU_TOO_SMALL] > 99 && met[WAKOTEHU_ASKED_TOO_SMALL] > 99 && long_lines > 99);
}

/* Bits of flags that are no rule's, and fields that are neither 0 nor 1. */
static void unknown_flags(void) {
    uint64_t sizes[4], needed = 7;
    uint8_t left[4];
    uint32_t found = 7;
    wakotehu_evaluated told = {7, 7, 7};
    for (int bit = 0; bit < 32; bit++) {
        uint32_t rules = (uint32_t)1 << bit;
        int known = rules == WAKOTEHU_VERIFY_P2SH || rules == WAKOTEHU_VERIFY_DERSIG || rules == WAKOTEHU_VERIFY_NULLDUMMY
                    || rules == WAKOTEHU_VERIFY_CHECKLOCKTIMEVERIFY || rules == WAKOTEHU_VERIFY_CHECKSEQUENCEVERIFY;
        wakotehu_code right = known ? WAKOTEHU_OK : WAKOTEHU_FLAGS;
        found = 7;
        EXPECT(wakotehu_verify_script(tx, TX, 0, spent, 3, rules, NULL, 0, NULL, 0, NULL, &found, NULL, 0, &needed) == right);
        EXPECT(found == (known ? 0 : 7));
        EXPECT(wakotehu_eval_script(tx, TX, 0, separated, 3, rules, given_sizes, 2, given, 3, NULL, 0, NULL, 0, NULL, &told, sizes, 4,
                                    left, 4, NULL, 0, &needed) == right);
        EXPECT(known ? told.elements == 3 && told.error == 0 : is_no_run(&told));
        for (int field = 0; field < 3 && rules > 1; field++) {
            wakotehu_flags wrong = {field == 0 ? rules : 0, field == 1 ? rules : 1, field == 2 ? rules : 0};
            found = 7;
            EXPECT(wakotehu_verify(tx, TX, 0, spent, 3, &wrong, NULL, 0, NULL, &found) == WAKOTEHU_FLAGS && found == 7);
            EXPECT(wakotehu_verify_known(tx, TX, 0, spent, 3, &wrong, NULL, 0, NULL, 0, NULL, &found, NULL, 0, &needed)
                   == WAKOTEHU_FLAGS);
            EXPECT(found == 7);
        }
    }
    EXPECT(needed == 7);
}

/* Bitcoin Core's CheckTransaction of 1,000,000 bytes and one more; the rules before it, of no inputs or outputs, come first. */
static void sizes_of_transactions(void) {
    enum { MOST = 1000000, SCRIPT = MOST - 64 };
    uint8_t *large = calloc(1, MOST + 1);
    uint32_t reason = 7;
    wakotehu_transaction shown;
    EXPECT(large);
    for (int more = 0; more < 2; more++) {
        uint32_t length = SCRIPT + more;
        memcpy(large, tx, 41);
        large[41] = 0xfe;
        for (int n = 0; n < 4; n++)
            large[42 + n] = (uint8_t)(length >> 8 * n);
        memcpy(large + 46 + length, tx + 44, TX - 44);
        EXPECT(46 + length + TX - 44 == (size_t)MOST + more);
        EXPECT(wakotehu_check_transaction(large, MOST + more, &reason) == WAKOTEHU_OK && reason == (more ? 30 : 0));
        EXPECT(wakotehu_read_transaction(large, MOST + more, &shown) == WAKOTEHU_OK && shown.reason == 0);
    }
    /* Its output has too high a value: that rule comes behind. */
    memset(large + 46 + SCRIPT + 1 + 5, 0x7f, 7);
    EXPECT(wakotehu_check_transaction(large, MOST + 1, &reason) == WAKOTEHU_OK && reason == 30);
    EXPECT(wakotehu_read_transaction(large, MOST + 1, &shown) == WAKOTEHU_OK && shown.reason == 10);
    /* No output. */
    large[46 + SCRIPT + 1 + 4] = 0;
    EXPECT(wakotehu_check_transaction(large, MOST + 1, &reason) == WAKOTEHU_OK);
    EXPECT(wakotehu_read_transaction(large, MOST + 1, &shown) == WAKOTEHU_OK && shown.reason == 8 && reason == 8);
    EXPECT(strcmp(wakotehu_reason_text(30), "bad-txns-oversize") == 0 && strcmp(wakotehu_reason_text(31), "") == 0);
    free(large);
}

/* Bitcoin Core's values of bits and work, published digests of "abc", and a list that has another one's root. */
static void sums(void) {
    static const struct {
        uint32_t bits, again, negative, overflow;
        uint8_t target[32];
    } cases[] = {
        {0x01803456, 0, 0, 0, {0}},
        {0x01fedcba, 0x01fe0000, 1, 0, {0x7e}},
        {0x04923456, 0x04923456, 1, 0, {0, 0x56, 0x34, 0x12}},
        {0x05009234, 0x05009234, 0, 0, {0, 0, 0x34, 0x92}},
        {0x22000012, 0x20120000, 0, 0, {[31] = 0x12}},
        {0x23000001, 0, 0, 1, {0}},
        {0xff123456, 0, 0, 1, {0}},
    };
    static const uint8_t one_work[32] = {1, 0, 1, 0, 1}, two_work[32] = {2}, zeros[32] = {0};
    static const uint8_t sha256[] = {0xba, 0x78, 0x16, 0xbf}, sha1[] = {0xa9, 0x99, 0x3e, 0x36};
    uint8_t found[32], other[32];
    uint32_t negative, overflow, bits, twin = 7;
    for (size_t n = 0; n < sizeof cases / sizeof *cases; n++) {
        memset(found, 9, 32), negative = overflow = bits = 7;
        EXPECT(wakotehu_read_bits(cases[n].bits, found, &negative, &overflow) == WAKOTEHU_OK);
        EXPECT(memcmp(found, cases[n].target, 32) == 0);
        EXPECT(negative == cases[n].negative && overflow == cases[n].overflow);
        EXPECT(wakotehu_write_bits(found, negative * 5, &bits) == WAKOTEHU_OK && bits == cases[n].again);
    }
    EXPECT(wakotehu_work(0x1d00ffff, found) == WAKOTEHU_OK && memcmp(found, one_work, 32) == 0);
    EXPECT(wakotehu_work(0x207fffff, found) == WAKOTEHU_OK && memcmp(found, two_work, 32) == 0);
    EXPECT(wakotehu_work(0x04923456, found) == WAKOTEHU_OK && memcmp(found, zeros, 32) == 0);
    EXPECT(wakotehu_merkle(four_ids[0], 4, found, &twin) == WAKOTEHU_OK && twin == 1);
    EXPECT(wakotehu_merkle(four_ids[0], 3, other, &twin) == WAKOTEHU_OK && twin == 0 && memcmp(found, other, 32) == 0);
    EXPECT(wakotehu_merkle(NULL, 0, found, &twin) == WAKOTEHU_OK && twin == 0 && memcmp(found, zeros, 32) == 0);
    EXPECT(wakotehu_sha256((const uint8_t *)"abc", 3, found) == WAKOTEHU_OK && memcmp(found, sha256, 4) == 0);
    EXPECT(wakotehu_sha1((const uint8_t *)"abc", 3, found) == WAKOTEHU_OK && memcmp(found, sha1, 4) == 0);
}

/* Answers that write nothing but what is said of them. */
static void refusals(void) {
    struct told it = nothing_told(), before = nothing_told();
    uint64_t count = 7;
    uint8_t bytes[1] = {9};
    EXPECT(wakotehu_read_transaction(tx, TX - 1, &it.transaction) == WAKOTEHU_SHORT);
    EXPECT(wakotehu_read_transaction(NULL, 0, &it.transaction) == WAKOTEHU_SHORT);
    EXPECT(wakotehu_transaction_parts(tx, TX, it.inputs, 0, it.outputs, 2, it.bytes, 128) == WAKOTEHU_TOO_SMALL);
    EXPECT(wakotehu_transaction_parts(tx, TX, it.inputs, 2, it.outputs, 0, it.bytes, 128) == WAKOTEHU_TOO_SMALL);
    EXPECT(wakotehu_transaction_parts(tx, TX, it.inputs, 2, it.outputs, 2, it.bytes, 1) == WAKOTEHU_TOO_SMALL);
    EXPECT(wakotehu_transaction_parts(tx, TX - 1, it.inputs, 2, it.outputs, 2, it.bytes, 128) == WAKOTEHU_SHORT);
    EXPECT(wakotehu_write_transaction(1, 0, NULL, 0, NULL, 0, tx, 1, it.bytes, 128, &it.count) == WAKOTEHU_MISMATCH);
    EXPECT(wakotehu_locks_met(tx, TX, NULL, 0, 0, 0, &it.yes) == WAKOTEHU_MISMATCH);
    EXPECT(wakotehu_is_final(tx, 4, 0, 0, &it.yes) == WAKOTEHU_SHORT);
    EXPECT(wakotehu_read_block(NULL, 0, &it.block) == WAKOTEHU_SHORT);
    EXPECT(wakotehu_read_header(NULL, 0, &it.header) == WAKOTEHU_SHORT);
    EXPECT(wakotehu_read_header(b1, 79, &it.header) == WAKOTEHU_SHORT);
    EXPECT(wakotehu_read_header(b1, 81, &it.header) == WAKOTEHU_EXTRA);
    EXPECT(wakotehu_block_size(b1, sizeof b1 - 1, &it.count) == WAKOTEHU_SHORT);
    EXPECT(wakotehu_block_transactions(tx, TX, it.rows, 2, &it.count) == WAKOTEHU_NONE);
    EXPECT(wakotehu_block_place(tx, TX, 0, 0, 0, &regtest, &it.yes) == WAKOTEHU_SHORT);
    EXPECT(wakotehu_record(record, RECORD - 1, &it.count) == WAKOTEHU_CUT);
    EXPECT(wakotehu_record(record, 3, &it.count) == WAKOTEHU_FOREIGN);
    EXPECT(wakotehu_record(NULL, 0, &it.count) == WAKOTEHU_NONE);
    EXPECT(wakotehu_median(NULL, 0, &it.yes) == WAKOTEHU_MISMATCH);
    EXPECT(wakotehu_next_opcode((const uint8_t[]){2, 1}, 2, &it.opcode) == WAKOTEHU_NONE);
    EXPECT(wakotehu_read_number(spent, 3, 2, &it.value) == WAKOTEHU_NONE);
    EXPECT(wakotehu_signature_digest(tx, TX, 1, spent, 3, 1, it.bytes) == WAKOTEHU_NO_INPUT);
    EXPECT(wakotehu_verify(tx, TX, UINT64_MAX, spent, 3, &flags, NULL, 0, &it.line, &it.yes) == WAKOTEHU_NO_INPUT);
    EXPECT(wakotehu_verify(tx, TX - 1, 0, spent, 3, &flags, NULL, 0, &it.line, &it.yes) == WAKOTEHU_SHORT);
    EXPECT(wakotehu_verify_known(tx, TX, 1, spent, 3, &flags, NULL, 0, NULL, 0, &it.line, &it.yes, it.text, 256, &it.count)
           == WAKOTEHU_NO_INPUT);
    EXPECT(wakotehu_verify_known(tx, 9, 0, spent, 3, &flags, NULL, 0, NULL, 0, &it.line, &it.yes, it.text, 256, &it.count)
           == WAKOTEHU_SHORT);
    EXPECT(wakotehu_verify_script(tx, TX, 1, spent, 3, 5, NULL, 0, NULL, 0, &it.line, &it.yes, it.text, 256, &it.count)
           == WAKOTEHU_NO_INPUT);
    EXPECT(wakotehu_verify_script(tx, TX, 0, spent, 3, 5, table, TABLE, table, TABLE, &it.line, &it.yes, it.text, 256, &it.count)
           == WAKOTEHU_CONTRADICTION);
    for (size_t n = 0; n < 3; n++)
        EXPECT(wakotehu_eval_script(tx, n ? TX : 9, n != 1, separated, 3, 0, given_sizes, 2, given, 2, NULL, 0, NULL, 0, &it.line,
                                    &it.evaluated, it.sizes, 8, it.bytes, 128, it.text, 256, &it.count)
               == (n == 0 ? WAKOTEHU_SHORT : n == 1 ? WAKOTEHU_MISMATCH : WAKOTEHU_NO_INPUT)
               && is_no_run(&it.evaluated));
    it.evaluated = before.evaluated;
    EXPECT(wakotehu_check_transaction(tx, TX - 1, &it.yes) == WAKOTEHU_SHORT);
    EXPECT(wakotehu_table_add(it.text, 69, &it.length, key, 1, signature, 8, digest) == WAKOTEHU_TOO_SMALL);
    EXPECT(wakotehu_read_id("0", 1, it.bytes) == WAKOTEHU_NONE);
    EXPECT(is_same(&it, &before));
    /* What is wanted is told where a room is too small, and which line is bad; no more. */
    EXPECT(wakotehu_block_transactions(b1, sizeof b1, NULL, 0, &count) == WAKOTEHU_TOO_SMALL && count == 1);
    EXPECT(wakotehu_number_bytes(INT64_MIN, bytes, 1, &count) == WAKOTEHU_TOO_SMALL && count == 9 && bytes[0] == 9);
    EXPECT(wakotehu_write_transaction(1, 0, NULL, 0, NULL, 0, NULL, 0, bytes, 1, &count) == WAKOTEHU_TOO_SMALL);
    EXPECT(count == 10 && bytes[0] == 9);
    EXPECT(wakotehu_verify(tx, TX, 0, spent, 3, &flags, "#\n00\n", 5, &it.line, &it.yes) == WAKOTEHU_BAD_TABLE);
    EXPECT(it.line == 2 && it.yes == before.yes);
    EXPECT(wakotehu_verify_known(tx, TX, 0, spent, 3, &flags, table, TABLE, "\n0", 2, &it.line, &it.yes, NULL, 0, &count)
           == WAKOTEHU_BAD_TABLE);
    EXPECT(it.line == 2 && it.yes == before.yes && count == 10);
    EXPECT(wakotehu_table_has("0", 1, key, 1, key, 1, digest, &it.line, &it.yes) == WAKOTEHU_BAD_TABLE);
    EXPECT(it.line == 1 && it.yes == before.yes);
    EXPECT(wakotehu_table_read("\n\n1 2 3", 7, &it.line) == WAKOTEHU_BAD_TABLE && it.line == 3);
    EXPECT(wakotehu_table_read("0", 1, NULL) == WAKOTEHU_BAD_TABLE);
}

/* Null where something has to be, and lengths that no memory has. */
static void null_and_hostile_lengths(void) {
    static const size_t hostile[] = {(size_t)PTRDIFF_MAX + 1, SIZE_MAX};
    struct told it = nothing_told(), before = nothing_told();
    for (size_t n = 0; n < 2; n++) {
        size_t l = hostile[n];
        EXPECT(wakotehu_read_transaction(tx, l, &it.transaction) == WAKOTEHU_NULL);
        EXPECT(wakotehu_transaction_parts(tx, l, it.inputs, 2, it.outputs, 2, it.bytes, 128) == WAKOTEHU_NULL);
        EXPECT(wakotehu_transaction_parts(tx, TX, it.inputs, l / 32, it.outputs, 2, it.bytes, 128) == WAKOTEHU_NULL);
        EXPECT(wakotehu_transaction_parts(tx, TX, it.inputs, 2, it.outputs, l / 8, it.bytes, 128) == WAKOTEHU_NULL);
        EXPECT(wakotehu_transaction_parts(tx, TX, it.inputs, 2, it.outputs, 2, it.bytes, l) == WAKOTEHU_NULL);
        EXPECT(wakotehu_write_transaction(1, 0, it.inputs, l / 32, NULL, 0, NULL, 0, it.bytes, 128, &it.count)
               == WAKOTEHU_NULL);
        EXPECT(wakotehu_write_transaction(1, 0, NULL, 0, it.outputs, l / 8, NULL, 0, it.bytes, 128, &it.count)
               == WAKOTEHU_NULL);
        EXPECT(wakotehu_write_transaction(1, 0, NULL, 0, NULL, 0, tx, l, it.bytes, 128, &it.count) == WAKOTEHU_NULL);
        EXPECT(wakotehu_write_transaction(1, 0, NULL, 0, NULL, 0, NULL, 0, it.bytes, l, &it.count) == WAKOTEHU_NULL);
        EXPECT(wakotehu_is_final(tx, l, 0, 0, &it.yes) == WAKOTEHU_NULL);
        EXPECT(wakotehu_locks_met(tx, l, &start, 1, 0, 0, &it.yes) == WAKOTEHU_NULL);
        EXPECT(wakotehu_locks_met(tx, TX, &start, l / 4, 0, 0, &it.yes) == WAKOTEHU_NULL);
        EXPECT(wakotehu_read_block(b1, l, &it.block) == WAKOTEHU_NULL);
        EXPECT(wakotehu_block_size(b1, l, &it.count) == WAKOTEHU_NULL);
        EXPECT(wakotehu_block_transactions(b1, l, it.rows, 2, &it.count) == WAKOTEHU_NULL);
        EXPECT(wakotehu_block_transactions(b1, sizeof b1, it.rows, l / 32, &it.count) == WAKOTEHU_NULL);
        EXPECT(wakotehu_block_place(b1, l, 0, 0, 0, &regtest, &it.yes) == WAKOTEHU_NULL);
        EXPECT(wakotehu_record(record, l, &it.count) == WAKOTEHU_NULL);
        EXPECT(wakotehu_read_header(b1, l, &it.header) == WAKOTEHU_NULL);
        EXPECT(wakotehu_merkle(four_ids[0], l / 32, it.bytes, &it.yes) == WAKOTEHU_NULL);
        EXPECT(wakotehu_sha1(spent, l, it.bytes) == WAKOTEHU_NULL && wakotehu_sha256(spent, l, it.bytes) == WAKOTEHU_NULL);
        EXPECT(wakotehu_median(&it.yes, l / 2, &it.yes) == WAKOTEHU_NULL);
        EXPECT(wakotehu_next_opcode(spent, l, &it.opcode) == WAKOTEHU_NULL);
        EXPECT(wakotehu_script(spent, l, &it.script) == WAKOTEHU_NULL);
        EXPECT(wakotehu_p2sh_sigops(spent, l, spent, 3, &it.count) == WAKOTEHU_NULL);
        EXPECT(wakotehu_p2sh_sigops(spent, 3, spent, l, &it.count) == WAKOTEHU_NULL);
        EXPECT(wakotehu_read_number(spent, l, 4, &it.value) == WAKOTEHU_NULL);
        EXPECT(wakotehu_number_bytes(1, it.bytes, l, &it.count) == WAKOTEHU_NULL);
        EXPECT(wakotehu_strict_signature(signature, l, &it.yes) == WAKOTEHU_NULL);
        EXPECT(wakotehu_signature_digest(tx, l, 0, spent, 3, 1, it.bytes) == WAKOTEHU_NULL);
        EXPECT(wakotehu_signature_digest(tx, TX, 0, spent, l, 1, it.bytes) == WAKOTEHU_NULL);
        EXPECT(wakotehu_signature_digest_as_given(tx, TX, 0, spent, l, 1, it.bytes) == WAKOTEHU_NULL);
        EXPECT(wakotehu_verify(tx, l, 0, spent, 3, &flags, NULL, 0, NULL, &it.yes) == WAKOTEHU_NULL);
        EXPECT(wakotehu_verify(tx, TX, 0, spent, l, &flags, NULL, 0, NULL, &it.yes) == WAKOTEHU_NULL);
        EXPECT(wakotehu_verify(tx, TX, 0, spent, 3, &flags, table, l, NULL, &it.yes) == WAKOTEHU_NULL);
        for (int k = 0; k < 5; k++)
            EXPECT(wakotehu_verify_known(tx, k == 0 ? l : TX, 0, spent, k == 1 ? l : 3, &flags, table, k == 2 ? l : TABLE, table,
                                         k == 3 ? l : TABLE, NULL, &it.yes, it.text, k == 4 ? l : 256, &it.count)
                   == WAKOTEHU_NULL);
        for (int k = 0; k < 5; k++)
            EXPECT(wakotehu_verify_script(tx, k == 0 ? l : TX, 0, spent, k == 1 ? l : 3, 0, table, k == 2 ? l : TABLE, table,
                                          k == 3 ? l : TABLE, NULL, &it.yes, it.text, k == 4 ? l : 256, &it.count)
                   == WAKOTEHU_NULL);
        for (int k = 0; k < 9; k++)
            EXPECT(wakotehu_eval_script(tx, k == 0 ? l : TX, 0, separated, k == 1 ? l : 3, 0, given_sizes, k == 2 ? l / 4 : 2,
                                        given, k == 3 ? l : 3, table, k == 4 ? l : TABLE, table, k == 5 ? l : TABLE, NULL,
                                        &it.evaluated, it.sizes, k == 6 ? l / 4 : 8, it.bytes, k == 7 ? l : 128, it.text,
                                        k == 8 ? l : 256, &it.count)
                       == WAKOTEHU_NULL
                   && is_no_run(&it.evaluated));
        it.evaluated = before.evaluated;
        EXPECT(wakotehu_table_read(table, l, &it.line) == WAKOTEHU_NULL);
        EXPECT(wakotehu_table_has(table, l, key, 1, key, 1, digest, &it.line, &it.yes) == WAKOTEHU_NULL);
        EXPECT(wakotehu_table_has(table, TABLE, key, l, key, 1, digest, &it.line, &it.yes) == WAKOTEHU_NULL);
        EXPECT(wakotehu_table_has(table, TABLE, key, 1, key, l, digest, &it.line, &it.yes) == WAKOTEHU_NULL);
        EXPECT(wakotehu_table_add(it.text, l, &it.length, key, 1, key, 1, digest) == WAKOTEHU_NULL);
        EXPECT(wakotehu_table_add(it.text, 256, &it.length, key, l, key, 1, digest) == WAKOTEHU_NULL);
        EXPECT(wakotehu_table_add(it.text, 256, &it.length, key, 1, key, l, digest) == WAKOTEHU_NULL);
        EXPECT(wakotehu_ripemd160(spent, l, it.bytes) == WAKOTEHU_NULL);
        EXPECT(wakotehu_hash160(spent, l, it.bytes) == WAKOTEHU_NULL);
        EXPECT(wakotehu_double_sha(spent, l, it.bytes) == WAKOTEHU_NULL);
        EXPECT(wakotehu_read_id("00", l, it.bytes) == WAKOTEHU_NULL);
    }
    EXPECT(wakotehu_read_transaction(NULL, 1, &it.transaction) == WAKOTEHU_NULL);
    EXPECT(wakotehu_read_transaction(tx, TX, NULL) == WAKOTEHU_NULL);
    EXPECT(wakotehu_check_transaction(NULL, 1, &it.yes) == WAKOTEHU_NULL && wakotehu_check_transaction(tx, TX, NULL) == WAKOTEHU_NULL);
    EXPECT(wakotehu_transaction_parts(NULL, 1, it.inputs, 2, it.outputs, 2, it.bytes, 128) == WAKOTEHU_NULL);
    EXPECT(wakotehu_transaction_parts(tx, TX, NULL, 1, it.outputs, 2, it.bytes, 128) == WAKOTEHU_NULL);
    EXPECT(wakotehu_transaction_parts(tx, TX, it.inputs, 2, NULL, 1, it.bytes, 128) == WAKOTEHU_NULL);
    EXPECT(wakotehu_transaction_parts(tx, TX, it.inputs, 2, it.outputs, 2, NULL, 1) == WAKOTEHU_NULL);
    EXPECT(wakotehu_write_transaction(1, 0, NULL, 1, NULL, 0, NULL, 0, it.bytes, 128, &it.count) == WAKOTEHU_NULL);
    EXPECT(wakotehu_write_transaction(1, 0, NULL, 0, NULL, 1, NULL, 0, it.bytes, 128, &it.count) == WAKOTEHU_NULL);
    EXPECT(wakotehu_write_transaction(1, 0, NULL, 0, NULL, 0, NULL, 1, it.bytes, 128, &it.count) == WAKOTEHU_NULL);
    EXPECT(wakotehu_write_transaction(1, 0, NULL, 0, NULL, 0, NULL, 0, NULL, 1, &it.count) == WAKOTEHU_NULL);
    EXPECT(wakotehu_write_transaction(1, 0, NULL, 0, NULL, 0, NULL, 0, it.bytes, 128, NULL) == WAKOTEHU_NULL);
    EXPECT(wakotehu_is_final(NULL, 1, 0, 0, &it.yes) == WAKOTEHU_NULL);
    EXPECT(wakotehu_is_final(tx, TX, 0, 0, NULL) == WAKOTEHU_NULL);
    EXPECT(wakotehu_locks_met(NULL, 1, &start, 1, 0, 0, &it.yes) == WAKOTEHU_NULL);
    EXPECT(wakotehu_locks_met(tx, TX, NULL, 1, 0, 0, &it.yes) == WAKOTEHU_NULL);
    EXPECT(wakotehu_locks_met(tx, TX, &start, 1, 0, 0, NULL) == WAKOTEHU_NULL);
    EXPECT(wakotehu_read_block(NULL, 1, &it.block) == WAKOTEHU_NULL);
    EXPECT(wakotehu_read_block(b1, sizeof b1, NULL) == WAKOTEHU_NULL);
    EXPECT(wakotehu_block_size(NULL, 1, &it.count) == WAKOTEHU_NULL);
    EXPECT(wakotehu_block_size(b1, sizeof b1, NULL) == WAKOTEHU_NULL);
    EXPECT(wakotehu_block_transactions(NULL, 1, it.rows, 2, &it.count) == WAKOTEHU_NULL);
    EXPECT(wakotehu_block_transactions(b1, sizeof b1, NULL, 1, &it.count) == WAKOTEHU_NULL);
    EXPECT(wakotehu_block_transactions(b1, sizeof b1, it.rows, 2, NULL) == WAKOTEHU_NULL);
    EXPECT(wakotehu_block_place(NULL, 1, 0, 0, 0, &regtest, &it.yes) == WAKOTEHU_NULL);
    EXPECT(wakotehu_block_place(b1, sizeof b1, 0, 0, 0, NULL, &it.yes) == WAKOTEHU_NULL);
    EXPECT(wakotehu_block_place(b1, sizeof b1, 0, 0, 0, &regtest, NULL) == WAKOTEHU_NULL);
    EXPECT(wakotehu_record(NULL, 1, &it.count) == WAKOTEHU_NULL);
    EXPECT(wakotehu_record(record, RECORD, NULL) == WAKOTEHU_NULL);
    EXPECT(wakotehu_read_header(NULL, 80, &it.header) == WAKOTEHU_NULL && wakotehu_read_header(b1, 80, NULL) == WAKOTEHU_NULL);
    for (int n = 0; n < 3; n++) {
        EXPECT(wakotehu_merkle(n == 0 ? NULL : four_ids[0], 4, n == 1 ? NULL : it.bytes, n == 2 ? NULL : &it.yes) == WAKOTEHU_NULL);
        EXPECT(wakotehu_read_bits(1, n == 0 ? NULL : it.bytes, n == 1 ? NULL : &it.yes, n == 2 ? NULL : &it.yes) == WAKOTEHU_NULL);
    }
    EXPECT(wakotehu_write_bits(NULL, 0, &it.yes) == WAKOTEHU_NULL && wakotehu_write_bits(digest, 0, NULL) == WAKOTEHU_NULL);
    EXPECT(wakotehu_work(1, NULL) == WAKOTEHU_NULL);
    EXPECT(wakotehu_sha1(NULL, 1, it.bytes) == WAKOTEHU_NULL && wakotehu_sha1(spent, 3, NULL) == WAKOTEHU_NULL);
    EXPECT(wakotehu_sha256(NULL, 1, it.bytes) == WAKOTEHU_NULL && wakotehu_sha256(spent, 3, NULL) == WAKOTEHU_NULL);
    EXPECT(wakotehu_meets_target(NULL, &it.yes) == WAKOTEHU_NULL);
    EXPECT(wakotehu_meets_target(digest, NULL) == WAKOTEHU_NULL);
    EXPECT(wakotehu_median(NULL, 1, &it.yes) == WAKOTEHU_NULL);
    EXPECT(wakotehu_median(&it.yes, 1, NULL) == WAKOTEHU_NULL);
    EXPECT(wakotehu_next_opcode(NULL, 1, &it.opcode) == WAKOTEHU_NULL);
    EXPECT(wakotehu_next_opcode(spent, 3, NULL) == WAKOTEHU_NULL);
    EXPECT(wakotehu_script(NULL, 1, &it.script) == WAKOTEHU_NULL);
    EXPECT(wakotehu_script(spent, 3, NULL) == WAKOTEHU_NULL);
    EXPECT(wakotehu_p2sh_sigops(NULL, 1, spent, 3, &it.count) == WAKOTEHU_NULL);
    EXPECT(wakotehu_p2sh_sigops(spent, 3, NULL, 1, &it.count) == WAKOTEHU_NULL);
    EXPECT(wakotehu_p2sh_sigops(spent, 3, spent, 3, NULL) == WAKOTEHU_NULL);
    EXPECT(wakotehu_read_number(NULL, 1, 4, &it.value) == WAKOTEHU_NULL);
    EXPECT(wakotehu_read_number(spent, 3, 4, NULL) == WAKOTEHU_NULL);
    EXPECT(wakotehu_number_bytes(1, NULL, 1, &it.count) == WAKOTEHU_NULL);
    EXPECT(wakotehu_number_bytes(1, it.bytes, 128, NULL) == WAKOTEHU_NULL);
    EXPECT(wakotehu_strict_signature(NULL, 1, &it.yes) == WAKOTEHU_NULL);
    EXPECT(wakotehu_strict_signature(signature, 8, NULL) == WAKOTEHU_NULL);
    EXPECT(wakotehu_signature_digest(NULL, 1, 0, spent, 3, 1, it.bytes) == WAKOTEHU_NULL);
    EXPECT(wakotehu_signature_digest(tx, TX, 0, NULL, 1, 1, it.bytes) == WAKOTEHU_NULL);
    EXPECT(wakotehu_signature_digest(tx, TX, 0, spent, 3, 1, NULL) == WAKOTEHU_NULL);
    EXPECT(wakotehu_signature_digest_as_given(tx, TX, 0, spent, 3, 1, NULL) == WAKOTEHU_NULL);
    EXPECT(wakotehu_verify(NULL, 1, 0, spent, 3, &flags, NULL, 0, NULL, &it.yes) == WAKOTEHU_NULL);
    EXPECT(wakotehu_verify(tx, TX, 0, NULL, 1, &flags, NULL, 0, NULL, &it.yes) == WAKOTEHU_NULL);
    EXPECT(wakotehu_verify(tx, TX, 0, spent, 3, NULL, NULL, 0, NULL, &it.yes) == WAKOTEHU_NULL);
    EXPECT(wakotehu_verify(tx, TX, 0, spent, 3, &flags, NULL, 1, NULL, &it.yes) == WAKOTEHU_NULL);
    EXPECT(wakotehu_verify(tx, TX, 0, spent, 3, &flags, NULL, 0, NULL, NULL) == WAKOTEHU_NULL);
    for (int n = 0; n < 8; n++)
        EXPECT(wakotehu_verify_known(n == 0 ? NULL : tx, TX, 0, n == 1 ? NULL : spent, 3, n == 2 ? NULL : &flags,
                                     n == 3 ? NULL : table, TABLE, n == 4 ? NULL : table, TABLE, NULL, n == 5 ? NULL : &it.yes,
                                     n == 6 ? NULL : it.text, 256, n == 7 ? NULL : &it.count)
               == WAKOTEHU_NULL);
    EXPECT(wakotehu_table_read(NULL, 1, &it.line) == WAKOTEHU_NULL);
    EXPECT(wakotehu_table_has(NULL, 1, key, 1, key, 1, digest, &it.line, &it.yes) == WAKOTEHU_NULL);
    EXPECT(wakotehu_table_has(table, TABLE, NULL, 1, key, 1, digest, &it.line, &it.yes) == WAKOTEHU_NULL);
    EXPECT(wakotehu_table_has(table, TABLE, key, 1, NULL, 1, digest, &it.line, &it.yes) == WAKOTEHU_NULL);
    EXPECT(wakotehu_table_has(table, TABLE, key, 1, key, 1, NULL, &it.line, &it.yes) == WAKOTEHU_NULL);
    EXPECT(wakotehu_table_has(table, TABLE, key, 1, key, 1, digest, &it.line, NULL) == WAKOTEHU_NULL);
    EXPECT(wakotehu_table_add(NULL, 256, &it.length, key, 1, key, 1, digest) == WAKOTEHU_NULL);
    EXPECT(wakotehu_table_add(it.text, 256, NULL, key, 1, key, 1, digest) == WAKOTEHU_NULL);
    EXPECT(wakotehu_table_add(it.text, 256, &it.length, NULL, 1, key, 1, digest) == WAKOTEHU_NULL);
    EXPECT(wakotehu_table_add(it.text, 256, &it.length, key, 1, NULL, 1, digest) == WAKOTEHU_NULL);
    EXPECT(wakotehu_table_add(it.text, 256, &it.length, key, 1, key, 1, NULL) == WAKOTEHU_NULL);
    EXPECT(wakotehu_ripemd160(NULL, 1, it.bytes) == WAKOTEHU_NULL && wakotehu_ripemd160(spent, 3, NULL) == WAKOTEHU_NULL);
    EXPECT(wakotehu_hash160(NULL, 1, it.bytes) == WAKOTEHU_NULL && wakotehu_hash160(spent, 3, NULL) == WAKOTEHU_NULL);
    EXPECT(wakotehu_double_sha(NULL, 1, it.bytes) == WAKOTEHU_NULL);
    EXPECT(wakotehu_double_sha(spent, 3, NULL) == WAKOTEHU_NULL);
    EXPECT(wakotehu_show_id(NULL, it.text) == WAKOTEHU_NULL && wakotehu_show_id(digest, NULL) == WAKOTEHU_NULL);
    EXPECT(wakotehu_read_id(NULL, 1, it.bytes) == WAKOTEHU_NULL && wakotehu_read_id("00", 2, NULL) == WAKOTEHU_NULL);
    EXPECT(is_same(&it, &before));
    /* A length behind the room. */
    it.length = 257;
    EXPECT(wakotehu_table_add(it.text, 256, &it.length, key, 1, key, 1, digest) == WAKOTEHU_NULL && it.length == 257);
}

/* Counts and lengths as large as they can be said, with few bytes behind them: no memory is taken for them. */
static void hostile_counts(void) {
    struct told it = nothing_told(), before = nothing_told();
    uint8_t many[100] = {0}, huge[100] = {0}, block[100] = {0}, script[9] = {78, 255, 255, 255, 255};
    wakotehu_input row = {{0}, UINT64_MAX, 0, 0};
    wakotehu_output out = {0, UINT64_MAX};
    many[4] = 254, many[8] = 2; /* 33,554,432 inputs */
    memset(huge + 4, 255, 9);   /* 2^64 - 1 inputs */
    block[80] = 254, block[84] = 2;
    largest = 0;
    EXPECT(wakotehu_read_transaction(many, sizeof many, &it.transaction) == WAKOTEHU_SHORT);
    EXPECT(wakotehu_read_transaction(huge, sizeof huge, &it.transaction) == WAKOTEHU_TOO_LARGE);
    EXPECT(wakotehu_verify(many, sizeof many, 0, spent, 3, &flags, NULL, 0, NULL, &it.yes) == WAKOTEHU_SHORT);
    EXPECT(wakotehu_read_block(block, sizeof block, &it.block) == WAKOTEHU_SHORT);
    EXPECT(wakotehu_block_size(block, sizeof block, &it.count) == WAKOTEHU_SHORT);
    EXPECT(largest < 1000);
    /* A record of 33,554,432 bytes takes memory as its bytes come, by pieces. */
    EXPECT(wakotehu_record((const uint8_t[]){0xfa, 0xbf, 0xb5, 0xda, 0, 0, 0, 2}, 8, &it.count) == WAKOTEHU_CUT);
    EXPECT(largest <= 65536);
    EXPECT(wakotehu_next_opcode(script, sizeof script, &it.opcode) == WAKOTEHU_NONE);
    EXPECT(wakotehu_write_transaction(1, 0, &row, 1, NULL, 0, tx, 2, it.bytes, 128, &it.count) == WAKOTEHU_MISMATCH);
    EXPECT(wakotehu_write_transaction(1, 0, NULL, 0, &out, 1, tx, 2, it.bytes, 128, &it.count) == WAKOTEHU_MISMATCH);
    EXPECT(is_same(&it, &before));
    EXPECT(wakotehu_read_number(spent, 3, UINT64_MAX, &it.value) == WAKOTEHU_OK);
}

/* Heights by name: each of the struct's, by its names, and one that it has no room for. An unknown name changes nothing. */
static void heights_by_name(void) {
    static const char *const names[] = {"bip34", "bip65", "cltv", "bip66", "dersig", "csv", "nulldummy", "bip147"};
    static const char *const unknown[] = {"", "bip3", "bip344", "BIP34", "taproot", "nulldummy ", "\xff"};
    const uint32_t late = 4294967295, now = 1296688602;
    uint32_t before = 7, after = 7;
    wakotehu_handle handle;
    long had = live;
    left = 0;
    EXPECT(wakotehu_params_new(&regtest) == NULL);
    left = -1;
    wakotehu_params *params = wakotehu_params_new(&regtest);
    EXPECT(params && !wakotehu_params_new(NULL));
    for (size_t n = 0; n < sizeof unknown / sizeof *unknown; n++)
        EXPECT(wakotehu_params_set(params, unknown[n], late) == WAKOTEHU_NONE);
    EXPECT(wakotehu_params_set(NULL, "csv", 1) == WAKOTEHU_NULL && wakotehu_params_set(params, NULL, 1) == WAKOTEHU_NULL);
    /* b1 isn't a block for height 2, which its coinbase would have to say. */
    EXPECT(wakotehu_block_place(b1, sizeof b1, 2, now, now + 1, &regtest, &before) == WAKOTEHU_OK && before != 0);
    EXPECT(wakotehu_block_place_with(b1, sizeof b1, 2, now, now + 1, params, &after) == WAKOTEHU_OK && after == before);
    for (size_t n = 0; n < sizeof names / sizeof *names; n++)
        EXPECT(wakotehu_params_set(params, names[n], late) == WAKOTEHU_OK);
    EXPECT(wakotehu_block_place_with(b1, sizeof b1, 2, now, now + 1, params, &after) == WAKOTEHU_OK && after == 0);
    EXPECT(wakotehu_block_place_with(b1, sizeof b1, 2, now, now + 1, NULL, &after) == WAKOTEHU_NULL);
    EXPECT(wakotehu_open_with(&handle, params, NULL, 0, NULL) == WAKOTEHU_OK && wakotehu_close(handle) == WAKOTEHU_OK);
    EXPECT(wakotehu_open_by_need_with(&handle, params) == WAKOTEHU_OK);
    wakotehu_params_free(params);
    wakotehu_params_free(NULL);
    EXPECT(wakotehu_close(handle) == WAKOTEHU_OK);
    EXPECT(wakotehu_open_with(&handle, NULL, NULL, 0, NULL) == WAKOTEHU_NULL);
    EXPECT(wakotehu_open_by_need_with(&handle, NULL) == WAKOTEHU_NULL && live == had);
}

int main(int count, char **words) {
    long rounds = count > 1 ? atol(words[1]) : 1000000;
    uint32_t yes = 7;
    make_inputs();
    long before = live;
    refused_allocations();
    values();
    sums();
    separators();
    known_signatures();
    evaluations();
    growing_rooms();
    unknown_flags();
    sizes_of_transactions();
    refusals();
    null_and_hostile_lengths();
    hostile_counts();
    heights_by_name();
    for (long n = 0; n < rounds; n++)
        EXPECT(wakotehu_verify(tx, TX, 0, spent, 3, &flags, table, TABLE, NULL, &yes) == WAKOTEHU_OK && yes == 1);
    EXPECT(live == before);
    free(tx);
    free(record);
    printf("%ld verifications\n", rounds);
    return 0;
}
