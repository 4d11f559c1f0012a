/* A libFuzzer target: the bytes as a script, a transaction, a block, a blk file, a table, a text, and ids and heights that a
 * chainstate is asked about, for faults that the sanitizers see and for answers that contradict each other. ffi/check builds
 * it and runs it for some seconds:
 *     CC=clang CFLAGS="-g -fsanitize=fuzzer-no-link,address,undefined" OUT=/tmp/fuzz ffi/build --again
 *     clang -g -fsanitize=fuzzer,address,undefined -Iffi/include ffi/fuzz/fuzz.c /tmp/fuzz/libwakotehu.a -lpthread -o fuzz
 *     ./fuzz CORPUS */
#include "wakotehu.h"

#include <stdlib.h>
#include <string.h>

#include "../examples/blocks.h"

int LLVMFuzzerTestOneInput(const uint8_t *bytes, size_t length);

#define EXPECT(holds) ((holds) ? (void)0 : abort())

static void as_script(const uint8_t *bytes, size_t length) {
    wakotehu_script_shown script;
    wakotehu_opcode opcode;
    int64_t number;
    uint64_t count;
    uint32_t yes;
    uint8_t room[9];
    for (size_t at = 0; wakotehu_next_opcode(bytes + at, length - at, &opcode) == WAKOTEHU_OK; at += opcode.length)
        EXPECT(opcode.length > 0 && opcode.length <= length - at && opcode.pushed < opcode.length);
    EXPECT(wakotehu_script(bytes, length, &script) == WAKOTEHU_OK && script.accurate <= script.plain);
    EXPECT(wakotehu_p2sh_sigops(bytes, length, bytes, length, &count) == WAKOTEHU_OK);
    EXPECT(wakotehu_strict_signature(bytes, length, &yes) == WAKOTEHU_OK && yes <= 1);
    if (wakotehu_read_number(bytes, length, 8, &number) == WAKOTEHU_OK) {
        int64_t again;
        EXPECT(wakotehu_number_bytes(number, room, sizeof room, &count) == WAKOTEHU_OK && count <= length);
        EXPECT(wakotehu_read_number(room, count, 8, &again) == WAKOTEHU_OK && again == number);
    }
}

/* What is read of a transaction is written again. */
static void as_parts(const uint8_t *bytes, const wakotehu_transaction *shown) {
    wakotehu_input *inputs = malloc((shown->inputs + 1) * sizeof *inputs);
    wakotehu_output *outputs = malloc((shown->outputs + 1) * sizeof *outputs);
    uint8_t *scripts = malloc(shown->size), *again = malloc(shown->size);
    uint64_t length = 0, scripts_length = 0;
    EXPECT(inputs && outputs && scripts && again);
    EXPECT(wakotehu_transaction_parts(bytes, shown->size, inputs, shown->inputs, outputs, shown->outputs, scripts,
                                      shown->size) == WAKOTEHU_OK);
    for (uint64_t n = 0; n < shown->inputs; n++)
        scripts_length += inputs[n].script;
    for (uint64_t n = 0; n < shown->outputs; n++)
        scripts_length += outputs[n].script;
    EXPECT(scripts_length < shown->size);
    EXPECT(wakotehu_write_transaction(shown->version, shown->lock_time, inputs, shown->inputs, outputs, shown->outputs,
                                      scripts, scripts_length, again, shown->size, &length) == WAKOTEHU_OK);
    EXPECT(length == shown->size && memcmp(again, bytes, length) == 0);
    free(inputs), free(outputs), free(scripts), free(again);
}

/* Read once, a transaction has the same length, and each input the same answer. */
static void as_read_once(const uint8_t *bytes, size_t length, const wakotehu_transaction *shown) {
    wakotehu_tx own = 0, whole = 0;
    size_t used = 0;
    EXPECT(wakotehu_tx_read(bytes, length, &used, &own) == WAKOTEHU_OK && used == shown->size);
    EXPECT(wakotehu_tx_read(bytes, length, NULL, &whole) == (used == length ? WAKOTEHU_OK : WAKOTEHU_EXTRA));
    EXPECT(!whole || wakotehu_tx_free(whole) == WAKOTEHU_OK);
    for (uint64_t n = 0; n <= shown->inputs && n < 4; n++) {
        char asked[2][WAKOTEHU_MOST_ASKED];
        uint64_t needed[2] = {0, 0}, line;
        uint32_t error[2] = {99, 99};
        wakotehu_code code = wakotehu_verify_script(bytes, length, n, bytes, length, 5, NULL, 0, NULL, 0, &line, &error[0],
                                                    asked[0], sizeof asked[0], &needed[0]);
        EXPECT(wakotehu_tx_verify_input(own, n, bytes, length, 5, NULL, 0, NULL, 0, &line, &error[1], asked[1],
                                        sizeof asked[1], &needed[1]) == code);
        EXPECT(error[0] == error[1] && needed[0] == needed[1]);
        EXPECT(code != WAKOTEHU_UNKNOWN || memcmp(asked[0], asked[1], needed[0]) == 0);
    }
    EXPECT(wakotehu_tx_free(own) == WAKOTEHU_OK && wakotehu_tx_free(own) == WAKOTEHU_CLOSED);
}

static void as_transaction(const uint8_t *bytes, size_t length) {
    static const wakotehu_flags flags = {1, 1, 1};
    wakotehu_transaction shown;
    wakotehu_start start = {1, 1};
    uint64_t line;
    uint32_t yes;
    uint8_t digest[32];
    if (wakotehu_read_transaction(bytes, length, &shown) != WAKOTEHU_OK)
        return;
    EXPECT(shown.size <= length);
    as_parts(bytes, &shown);
    as_read_once(bytes, length, &shown);
    wakotehu_is_final(bytes, length, 1, 1, &yes);
    wakotehu_locks_met(bytes, length, &start, 1, 1, 1, &yes);
    wakotehu_signature_digest(bytes, length, 0, bytes, length, 1, digest);
    /* Where nothing is known, a verdict is that of each table, and a line is no longer than is said. */
    uint32_t known = 2;
    uint64_t needed = 0;
    char asked[WAKOTEHU_MOST_ASKED], others[WAKOTEHU_MOST_ASKED];
    wakotehu_code code = wakotehu_verify(bytes, length, 0, bytes, length, &flags, NULL, 0, &line, &yes);
    wakotehu_code found = wakotehu_verify_known(bytes, length, 0, bytes, length, &flags, NULL, 0, NULL, 0, &line, &known,
                                                asked, sizeof asked, &needed);
    EXPECT(found == WAKOTEHU_UNKNOWN || (found == code && (code != WAKOTEHU_OK || known == yes)));
    /* A refusal has a name, and an acceptance none. */
    uint32_t error = 99, rules = WAKOTEHU_VERIFY_P2SH | WAKOTEHU_VERIFY_DERSIG | WAKOTEHU_VERIFY_CHECKLOCKTIMEVERIFY
                                 | WAKOTEHU_VERIFY_CHECKSEQUENCEVERIFY;
    wakotehu_code named = wakotehu_verify_script(bytes, length, 0, bytes, length, rules, NULL, 0, NULL, 0, &line, &error,
                                                 others, sizeof others, &needed);
    EXPECT(named == found && (named != WAKOTEHU_OK || known == (error == WAKOTEHU_SCRIPT_OK)));
    EXPECT(named != WAKOTEHU_OK || *wakotehu_script_error_name(error));
    EXPECT(found != WAKOTEHU_UNKNOWN
           || wakotehu_verify_known(bytes, length, 0, bytes, length, &flags, NULL, 0, asked, needed, &line, &known, others,
                                    sizeof others, &needed) < WAKOTEHU_CONTRADICTION);
}

static void as_block(const uint8_t *bytes, size_t length) {
    static const wakotehu_heights regtest = {1, 1, 1, 1};
    wakotehu_block_shown shown;
    wakotehu_made rows[4];
    uint64_t size = 0, count = 0;
    uint32_t reason;
    wakotehu_code front = wakotehu_block_size(bytes, length, &size), whole = wakotehu_read_block(bytes, length, &shown);
    EXPECT(whole == (front == WAKOTEHU_OK && size < length ? WAKOTEHU_EXTRA : front));
    EXPECT(whole != WAKOTEHU_OK || (shown.size == length && size == length));
    wakotehu_block_transactions(bytes, length, rows, 4, &count);
    wakotehu_block_place(bytes, length, 1, 1, 1, &regtest, &reason);
    wakotehu_record(bytes, length, &size);
}

static void as_texts(const uint8_t *bytes, size_t length) {
    static const uint8_t digest[32] = {1};
    const char *text = (const char *)bytes;
    uint64_t line = 0;
    uint32_t yes;
    uint8_t id[32];
    char digits[64];
    if (wakotehu_table_read(text, length, &line) == WAKOTEHU_OK) {
        size_t size = length, room = length + 4 * length + 69;
        char *table = malloc(room);
        EXPECT(table);
        if (length)
            memcpy(table, text, length);
        EXPECT(wakotehu_table_add(table, room, &size, bytes, length, bytes, length, digest) == WAKOTEHU_OK);
        EXPECT(wakotehu_table_has(table, size, bytes, length, bytes, length, digest, &line, &yes) == WAKOTEHU_OK && yes);
        free(table);
    } else
        EXPECT(line > 0);
    if (wakotehu_read_id(text, length, id) == WAKOTEHU_OK)
        EXPECT(length == 64 && wakotehu_show_id(id, digits) == WAKOTEHU_OK);
}

/* A chainstate with two branches, which lives as long as the process, and the ids of its blocks: genesis, b1, c1 and c2. */
static wakotehu_handle chain;
static uint8_t kept[4][32];

static void open_chain(void) {
    static const wakotehu_heights regtest = {1, 1, 1, 1};
    static const uint8_t *const blocks[] = {b1, c1, c2};
    wakotehu_answer answer;
    EXPECT(wakotehu_open(&chain, &regtest, NULL, 0, NULL) == WAKOTEHU_OK && wakotehu_best(chain, kept[0]) == WAKOTEHU_OK);
    for (size_t n = 0; n < 3; n++) {
        EXPECT(wakotehu_submit(chain, blocks[n], sizeof b1, 1296690000, &answer) == WAKOTEHU_OK && answer.reply <= 2);
        EXPECT(wakotehu_double_sha(blocks[n], 80, kept[n + 1]) == WAKOTEHU_OK);
    }
}

/* An id that the bytes name: of a kept block, or another one. */
static void take_id(const uint8_t **bytes, size_t *length, uint8_t *id) {
    memset(id, 0, 32);
    if (!*length)
        return;
    uint8_t which = *(*bytes)++;
    size_t most = --*length < 32 ? *length : 32;
    if (which % 5 < 4)
        memcpy(id, kept[which % 5], 32);
    else
        memcpy(id, *bytes, most), *bytes += most, *length -= most;
}

/* Where blocks stand: the answers about two ids and a height don't contradict each other. */
static void as_lookups(const uint8_t *bytes, size_t length) {
    wakotehu_header_shown header, below;
    wakotehu_spent_size size;
    uint8_t one[32], other[32], found[32], again[32];
    uint64_t height = 0;
    if (!chain)
        open_chain();
    take_id(&bytes, &length, one), take_id(&bytes, &length, other);
    for (size_t n = 0; n < length && n < 8; n++)
        height |= (uint64_t)bytes[n] << 8 * n;
    wakotehu_code there = wakotehu_header(chain, one, &header), code = wakotehu_fork(chain, one, other, found);
    EXPECT(there == WAKOTEHU_OK || there == WAKOTEHU_NONE);
    EXPECT(code == (there ? there : wakotehu_header(chain, other, &below)));
    EXPECT(wakotehu_fork(chain, other, one, again) == code && (code || memcmp(found, again, 32) == 0));
    code = wakotehu_ancestor(chain, one, height, found);
    EXPECT(code == (there == WAKOTEHU_OK && height <= header.height ? WAKOTEHU_OK : WAKOTEHU_NONE));
    EXPECT(code || (wakotehu_header(chain, found, &below) == WAKOTEHU_OK && below.height == height));
    EXPECT(code || (wakotehu_fork(chain, one, found, again) == WAKOTEHU_OK && memcmp(found, again, 32) == 0));
    int is_active = there == WAKOTEHU_OK && wakotehu_id_at(chain, header.height, found) == WAKOTEHU_OK
                    && memcmp(one, found, 32) == 0;
    EXPECT(there || header.confirmations == (is_active ? 3 - (int64_t)header.height : -1));
    EXPECT(wakotehu_spent(chain, one, NULL, 0, NULL, 0, &size) == (is_active ? WAKOTEHU_OK : WAKOTEHU_NONE));
    EXPECT(wakotehu_id_at(chain, height, found) == (height < 3 ? WAKOTEHU_OK : WAKOTEHU_NONE));
}

int LLVMFuzzerTestOneInput(const uint8_t *bytes, size_t length) {
    as_lookups(bytes, length);
    as_script(bytes, length);
    as_transaction(bytes, length);
    as_block(bytes, length);
    as_texts(bytes, length);
    return 0;
}
