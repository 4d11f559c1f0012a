/*
 * The rules as calls without a chainstate. This file is trusted: nothing proves it. It tests pointers and lengths; the
 * proved functions ffi_* of crates/ffi do the work. What it owes them: each pointer points to what its type says, and
 * to nothing that another argument points to. Nothing is kept between two calls.
 */
#include "params.h"
#include "wakotehu.h"

#include <stdbool.h>
#include <stdlib.h>
#include <string.h>

uint32_t ffi_tx(const uint8_t *bytes, size_t length, wakotehu_transaction *shown);
uint32_t ffi_tx_check(const uint8_t *bytes, size_t length, uint32_t *reason);
uint32_t ffi_tx_final(const uint8_t *bytes, size_t length, uint32_t height, uint32_t cutoff, uint32_t *yes);
uint32_t ffi_tx_locks(const uint8_t *bytes, size_t length, const wakotehu_start *starts, size_t count, uint32_t height,
                      uint32_t cutoff, uint32_t *yes);
uint32_t ffi_tx_parts(const uint8_t *bytes, size_t length, wakotehu_input *inputs, size_t most_inputs,
                      wakotehu_output *outputs, size_t most_outputs, uint8_t *scripts, size_t most_scripts);
uint32_t ffi_tx_write(int32_t version, uint32_t lock_time, const wakotehu_input *inputs, size_t input_count,
                      const wakotehu_output *outputs, size_t output_count, const uint8_t *scripts, size_t scripts_length,
                      uint8_t *bytes, size_t most, uint64_t *length);
uint32_t ffi_block(const uint8_t *bytes, size_t length, wakotehu_block_shown *shown);
uint32_t ffi_block_size(const uint8_t *bytes, size_t length, uint64_t *size);
uint32_t ffi_block_place(const uint8_t *bytes, size_t length, uint32_t height, uint32_t median, uint64_t now,
                         const wakotehu_params *params, uint32_t *reason);
uint32_t ffi_header_read(const uint8_t *bytes, size_t length, wakotehu_header_fields *header);
uint32_t ffi_merkle(const uint8_t *ids, size_t count, uint8_t *root, uint32_t *twin);
void ffi_read_bits(uint32_t bits, uint8_t *target, uint32_t *negative, uint32_t *overflow);
uint32_t ffi_write_bits(const uint8_t *target, uint32_t negative);
void ffi_work(uint32_t bits, uint8_t *work);
uint32_t ffi_record(const uint8_t *bytes, size_t length, uint64_t *block);
int64_t ffi_subsidy(uint32_t height);
uint32_t ffi_meets_target(const uint8_t *id);
uint32_t ffi_median(const uint32_t *times, size_t count, uint32_t *median);
uint32_t ffi_op(const uint8_t *script, size_t length, wakotehu_opcode *shown);
uint32_t ffi_script(const uint8_t *script, size_t length, wakotehu_script_shown *shown);
uint64_t ffi_p2sh_sigops(const uint8_t *input, size_t length, const uint8_t *spent, size_t spent_length);
uint32_t ffi_number(const uint8_t *bytes, size_t length, uint64_t most, int64_t *value);
uint32_t ffi_number_bytes(int64_t value, uint8_t *bytes, size_t length, uint64_t *count);
uint32_t ffi_strict(const uint8_t *bytes, size_t length);
uint32_t ffi_digest(const uint8_t *bytes, size_t length, uint64_t input, const uint8_t *code, size_t code_length,
                    uint32_t kind, uint8_t *digest);
uint32_t ffi_verify(const uint8_t *bytes, size_t length, uint64_t input, const uint8_t *spent, size_t spent_length,
                    const wakotehu_flags *flags, const uint8_t *table, size_t table_length, uint64_t *line,
                    uint32_t *accepted);
uint32_t ffi_verify_known(const uint8_t *bytes, size_t length, uint64_t input, const uint8_t *spent,
                          size_t spent_length, const wakotehu_flags *flags, const uint8_t *valid, size_t valid_length,
                          const uint8_t *invalid, size_t invalid_length, uint64_t *line, uint32_t *accepted,
                          uint8_t *asked, size_t room, uint64_t *needed);
uint32_t ffi_verify_script(const uint8_t *bytes, size_t length, uint64_t input, const uint8_t *spent,
                           size_t spent_length, uint32_t flags, const uint8_t *valid, size_t valid_length,
                           const uint8_t *invalid, size_t invalid_length, uint64_t *line, uint32_t *error,
                           uint8_t *asked, size_t room, uint64_t *needed);
uint32_t ffi_eval_script(const uint8_t *bytes, size_t length, uint64_t input, const uint8_t *script,
                         size_t script_length, uint32_t flags, const uint64_t *sizes, size_t count,
                         const uint8_t *elements, size_t elements_length, const uint8_t *valid, size_t valid_length,
                         const uint8_t *invalid, size_t invalid_length, uint64_t *line, wakotehu_evaluated *evaluated,
                         uint64_t *left_sizes, size_t most_sizes, uint8_t *left, size_t most, uint8_t *asked,
                         size_t room, uint64_t *needed);
uint32_t ffi_table(const uint8_t *table, size_t length, uint64_t *line);
uint32_t ffi_table_has(const uint8_t *table, size_t length, const uint8_t *key, size_t key_length,
                       const uint8_t *signature, size_t signature_length, const uint8_t *digest, uint64_t *line,
                       uint32_t *yes);
uint32_t ffi_table_line(const uint8_t *key, size_t key_length, const uint8_t *signature, size_t signature_length,
                        const uint8_t *digest, uint8_t *line, size_t most, uint64_t *length);
void ffi_sha1(const uint8_t *bytes, size_t length, uint8_t *digest);
void ffi_sha256(const uint8_t *bytes, size_t length, uint8_t *digest);
void ffi_ripemd160(const uint8_t *bytes, size_t length, uint8_t *digest);
void ffi_hash160(const uint8_t *bytes, size_t length, uint8_t *digest);
void ffi_double_sha(const uint8_t *bytes, size_t length, uint8_t *digest);
void ffi_id_show(const uint8_t *id, uint8_t *digits);
uint32_t ffi_id_read(const uint8_t *text, size_t length, uint8_t *id);
uint32_t ffi_transactions(const uint8_t *bytes, size_t length, wakotehu_made *rows, size_t most, uint64_t *count);

_Static_assert(sizeof(size_t) == sizeof(uint64_t), "sizes are told as u64");
_Static_assert(sizeof(wakotehu_transaction) == 80 && offsetof(wakotehu_transaction, reason) == 76, "as ShownTx");
_Static_assert(sizeof(wakotehu_block_shown) == 176 && offsetof(wakotehu_block_shown, reason) == 168, "as ShownBlock");
_Static_assert(sizeof(wakotehu_header_fields) == 112 && offsetof(wakotehu_header_fields, nonce) == 108, "as HeaderRow");
_Static_assert(sizeof(wakotehu_opcode) == 24 && sizeof(wakotehu_script_shown) == 32, "as ShownOp and ShownScript");
_Static_assert(sizeof(wakotehu_start) == 8 && sizeof(wakotehu_flags) == 12, "as Start and ShownFlags");
_Static_assert(sizeof(wakotehu_made) == 40, "as Made");
_Static_assert(sizeof(wakotehu_input) == 48 && offsetof(wakotehu_input, sequence) == 44, "as InputRow");
_Static_assert(sizeof(wakotehu_output) == 16, "as OutputRow");
_Static_assert(sizeof(wakotehu_evaluated) == 24 && offsetof(wakotehu_evaluated, error) == 16, "as ShownStack");

/* Where no byte is meant some address that isn't null is passed on, aligned for any row. */
static _Alignas(8) uint8_t nothing[8];

static bool readable(const void *bytes, size_t length) { return (bytes || !length) && length <= PTRDIFF_MAX; }

static bool rows_fit(const void *rows, size_t count, size_t size) {
    return (rows || !count) && count <= PTRDIFF_MAX / size;
}

/* Whether flags have a bit that is no rule's. */
static bool has_unknown(uint32_t flags) {
    return flags & ~(uint32_t)(WAKOTEHU_VERIFY_P2SH | WAKOTEHU_VERIFY_DERSIG | WAKOTEHU_VERIFY_NULLDUMMY
                               | WAKOTEHU_VERIFY_CHECKLOCKTIMEVERIFY | WAKOTEHU_VERIFY_CHECKSEQUENCEVERIFY);
}

/* Whether each flag is 0 or 1. */
static bool are_plain(const wakotehu_flags *flags) { return (flags->dersig | flags->cltv | flags->csv) <= 1; }

#define AT(bytes, length) ((length) ? (bytes) : (const void *)nothing)
#define INTO(room, length) ((length) ? (room) : (void *)nothing)

wakotehu_code wakotehu_read_transaction(const uint8_t *bytes, size_t length, wakotehu_transaction *shown) {
    if (!readable(bytes, length) || !shown)
        return WAKOTEHU_NULL;
    return (wakotehu_code)ffi_tx(AT(bytes, length), length, shown);
}

wakotehu_code wakotehu_check_transaction(const uint8_t *bytes, size_t length, uint32_t *reason) {
    if (!readable(bytes, length) || !reason)
        return WAKOTEHU_NULL;
    return (wakotehu_code)ffi_tx_check(AT(bytes, length), length, reason);
}

wakotehu_code wakotehu_is_final(const uint8_t *bytes, size_t length, uint32_t height, uint32_t cutoff, uint32_t *yes) {
    if (!readable(bytes, length) || !yes)
        return WAKOTEHU_NULL;
    return (wakotehu_code)ffi_tx_final(AT(bytes, length), length, height, cutoff, yes);
}

wakotehu_code wakotehu_locks_met(const uint8_t *bytes, size_t length, const wakotehu_start *starts, size_t count,
                                 uint32_t height, uint32_t cutoff, uint32_t *yes) {
    if (!readable(bytes, length) || !rows_fit(starts, count, sizeof *starts) || !yes)
        return WAKOTEHU_NULL;
    return (wakotehu_code)ffi_tx_locks(AT(bytes, length), length, AT(starts, count), count, height, cutoff, yes);
}

wakotehu_code wakotehu_transaction_parts(const uint8_t *bytes, size_t length, wakotehu_input *inputs,
                                         size_t most_inputs, wakotehu_output *outputs, size_t most_outputs,
                                         uint8_t *scripts, size_t most_scripts) {
    if (!readable(bytes, length) || !rows_fit(inputs, most_inputs, sizeof *inputs)
        || !rows_fit(outputs, most_outputs, sizeof *outputs) || !readable(scripts, most_scripts))
        return WAKOTEHU_NULL;
    return (wakotehu_code)ffi_tx_parts(AT(bytes, length), length, INTO(inputs, most_inputs), most_inputs,
                                       INTO(outputs, most_outputs), most_outputs, INTO(scripts, most_scripts),
                                       most_scripts);
}

wakotehu_code wakotehu_write_transaction(int32_t version, uint32_t lock_time, const wakotehu_input *inputs,
                                         size_t input_count, const wakotehu_output *outputs, size_t output_count,
                                         const uint8_t *scripts, size_t scripts_length, uint8_t *bytes, size_t most,
                                         size_t *length) {
    if (!rows_fit(inputs, input_count, sizeof *inputs) || !rows_fit(outputs, output_count, sizeof *outputs)
        || !readable(scripts, scripts_length) || !readable(bytes, most) || !length)
        return WAKOTEHU_NULL;
    return (wakotehu_code)ffi_tx_write(version, lock_time, AT(inputs, input_count), input_count,
                                       AT(outputs, output_count), output_count, AT(scripts, scripts_length),
                                       scripts_length, INTO(bytes, most), most, length);
}

wakotehu_code wakotehu_block_size(const uint8_t *bytes, size_t length, size_t *size) {
    if (!readable(bytes, length) || !size)
        return WAKOTEHU_NULL;
    return (wakotehu_code)ffi_block_size(AT(bytes, length), length, size);
}

wakotehu_code wakotehu_read_block(const uint8_t *bytes, size_t length, wakotehu_block_shown *shown) {
    if (!readable(bytes, length) || !shown)
        return WAKOTEHU_NULL;
    return (wakotehu_code)ffi_block(AT(bytes, length), length, shown);
}

wakotehu_code wakotehu_block_transactions(const uint8_t *bytes, size_t length, wakotehu_made *rows, size_t most,
                                          size_t *count) {
    if (!readable(bytes, length) || !rows_fit(rows, most, sizeof *rows) || !count)
        return WAKOTEHU_NULL;
    return (wakotehu_code)ffi_transactions(AT(bytes, length), length, INTO(rows, most), most, count);
}

wakotehu_code wakotehu_block_place(const uint8_t *bytes, size_t length, uint32_t height, uint32_t median, uint64_t now,
                                   const wakotehu_heights *heights, uint32_t *reason) {
    if (!heights)
        return WAKOTEHU_NULL;
    wakotehu_params params = params_of(heights);
    return wakotehu_block_place_with(bytes, length, height, median, now, &params, reason);
}

wakotehu_code wakotehu_block_place_with(const uint8_t *bytes, size_t length, uint32_t height, uint32_t median, uint64_t now,
                                        const wakotehu_params *params, uint32_t *reason) {
    if (!readable(bytes, length) || !params || !reason)
        return WAKOTEHU_NULL;
    return (wakotehu_code)ffi_block_place(AT(bytes, length), length, height, median, now, params, reason);
}

wakotehu_code wakotehu_record(const uint8_t *bytes, size_t length, size_t *block) {
    if (!readable(bytes, length) || !block)
        return WAKOTEHU_NULL;
    return (wakotehu_code)ffi_record(AT(bytes, length), length, block);
}

wakotehu_code wakotehu_read_header(const uint8_t *bytes, size_t length, wakotehu_header_fields *header) {
    if (!readable(bytes, length) || !header)
        return WAKOTEHU_NULL;
    return (wakotehu_code)ffi_header_read(AT(bytes, length), length, header);
}

enum { ID = 32 };

wakotehu_code wakotehu_merkle(const uint8_t *ids, size_t count, uint8_t *root, uint32_t *twin) {
    if (!rows_fit(ids, count, ID) || !root || !twin)
        return WAKOTEHU_NULL;
    return (wakotehu_code)ffi_merkle(AT(ids, count), count, root, twin);
}

wakotehu_code wakotehu_read_bits(uint32_t bits, uint8_t *target, uint32_t *negative, uint32_t *overflow) {
    if (!target || !negative || !overflow)
        return WAKOTEHU_NULL;
    ffi_read_bits(bits, target, negative, overflow);
    return WAKOTEHU_OK;
}

wakotehu_code wakotehu_write_bits(const uint8_t *target, uint32_t negative, uint32_t *bits) {
    if (!target || !bits)
        return WAKOTEHU_NULL;
    *bits = ffi_write_bits(target, negative);
    return WAKOTEHU_OK;
}

wakotehu_code wakotehu_work(uint32_t bits, uint8_t *work) {
    if (!work)
        return WAKOTEHU_NULL;
    ffi_work(bits, work);
    return WAKOTEHU_OK;
}

int64_t wakotehu_subsidy(uint32_t height) { return ffi_subsidy(height); }

wakotehu_code wakotehu_meets_target(const uint8_t *id, uint32_t *yes) {
    if (!id || !yes)
        return WAKOTEHU_NULL;
    *yes = ffi_meets_target(id);
    return WAKOTEHU_OK;
}

wakotehu_code wakotehu_median(const uint32_t *times, size_t count, uint32_t *median) {
    if (!rows_fit(times, count, sizeof *times) || !median)
        return WAKOTEHU_NULL;
    return (wakotehu_code)ffi_median(AT(times, count), count, median);
}

wakotehu_code wakotehu_next_opcode(const uint8_t *script, size_t length, wakotehu_opcode *shown) {
    if (!readable(script, length) || !shown)
        return WAKOTEHU_NULL;
    return (wakotehu_code)ffi_op(AT(script, length), length, shown);
}

wakotehu_code wakotehu_script(const uint8_t *script, size_t length, wakotehu_script_shown *shown) {
    if (!readable(script, length) || !shown)
        return WAKOTEHU_NULL;
    return (wakotehu_code)ffi_script(AT(script, length), length, shown);
}

wakotehu_code wakotehu_p2sh_sigops(const uint8_t *input, size_t length, const uint8_t *spent, size_t spent_length,
                                   uint64_t *count) {
    if (!readable(input, length) || !readable(spent, spent_length) || !count)
        return WAKOTEHU_NULL;
    *count = ffi_p2sh_sigops(AT(input, length), length, AT(spent, spent_length), spent_length);
    return WAKOTEHU_OK;
}

wakotehu_code wakotehu_read_number(const uint8_t *bytes, size_t length, size_t most, int64_t *value) {
    if (!readable(bytes, length) || !value)
        return WAKOTEHU_NULL;
    return (wakotehu_code)ffi_number(AT(bytes, length), length, most, value);
}

wakotehu_code wakotehu_number_bytes(int64_t value, uint8_t *bytes, size_t length, size_t *count) {
    if (!readable(bytes, length) || !count)
        return WAKOTEHU_NULL;
    return (wakotehu_code)ffi_number_bytes(value, INTO(bytes, length), length, count);
}

wakotehu_code wakotehu_strict_signature(const uint8_t *bytes, size_t length, uint32_t *yes) {
    if (!readable(bytes, length) || !yes)
        return WAKOTEHU_NULL;
    *yes = ffi_strict(AT(bytes, length), length);
    return WAKOTEHU_OK;
}

wakotehu_code wakotehu_signature_digest_as_given(const uint8_t *bytes, size_t length, uint64_t input,
                                                 const uint8_t *code, size_t code_length, uint32_t kind,
                                                 uint8_t *digest) {
    if (!readable(bytes, length) || !readable(code, code_length) || !digest)
        return WAKOTEHU_NULL;
    return (wakotehu_code)ffi_digest(AT(bytes, length), length, input, AT(code, code_length), code_length, kind,
                                     digest);
}

enum { OP_CODESEPARATOR = 0xab };

/* Copies a script without its code separators, and answers how many bytes are left. A push that is cut short stays. */
static size_t without_separators(const uint8_t *code, size_t length, uint8_t *copy) {
    wakotehu_opcode opcode;
    size_t at = 0, copied = 0;
    while (ffi_op(code + at, length - at, &opcode) == WAKOTEHU_OK) {
        if (opcode.number != OP_CODESEPARATOR) {
            memcpy(copy + copied, code + at, opcode.length);
            copied += opcode.length;
        }
        at += opcode.length;
    }
    memcpy(copy + copied, code + at, length - at);
    return copied + length - at;
}

wakotehu_code wakotehu_signature_digest(const uint8_t *bytes, size_t length, uint64_t input, const uint8_t *code,
                                        size_t code_length, uint32_t kind, uint8_t *digest) {
    /* Most codes haven't even a byte of that number, and need no copy. */
    if (!readable(code, code_length) || !code_length || !memchr(code, OP_CODESEPARATOR, code_length))
        return wakotehu_signature_digest_as_given(bytes, length, input, code, code_length, kind, digest);
    uint8_t *copy = malloc(code_length);
    if (!copy)
        return WAKOTEHU_MEMORY;
    size_t left = without_separators(code, code_length, copy);
    wakotehu_code answer = wakotehu_signature_digest_as_given(bytes, length, input, copy, left, kind, digest);
    free(copy);
    return answer;
}

wakotehu_code wakotehu_verify(const uint8_t *bytes, size_t length, uint64_t input, const uint8_t *spent,
                              size_t spent_length, const wakotehu_flags *flags, const char *table,
                              size_t table_length, uint64_t *line, uint32_t *accepted) {
    uint64_t unasked;
    if (!readable(bytes, length) || !readable(spent, spent_length) || !flags || !readable(table, table_length)
        || !accepted)
        return WAKOTEHU_NULL;
    if (!are_plain(flags))
        return WAKOTEHU_FLAGS;
    return (wakotehu_code)ffi_verify(AT(bytes, length), length, input, AT(spent, spent_length), spent_length, flags,
                                     AT(table, table_length), table_length, line ? line : &unasked, accepted);
}

wakotehu_code wakotehu_verify_known(const uint8_t *bytes, size_t length, uint64_t input, const uint8_t *spent,
                                    size_t spent_length, const wakotehu_flags *flags, const char *valid,
                                    size_t valid_length, const char *invalid, size_t invalid_length, uint64_t *line,
                                    uint32_t *accepted, char *asked, size_t room, size_t *needed) {
    uint64_t unasked;
    if (!readable(bytes, length) || !readable(spent, spent_length) || !flags || !readable(valid, valid_length)
        || !readable(invalid, invalid_length) || !accepted || !readable(asked, room) || !needed)
        return WAKOTEHU_NULL;
    if (!are_plain(flags))
        return WAKOTEHU_FLAGS;
    return (wakotehu_code)ffi_verify_known(AT(bytes, length), length, input, AT(spent, spent_length), spent_length,
                                           flags, AT(valid, valid_length), valid_length, AT(invalid, invalid_length),
                                           invalid_length, line ? line : &unasked, accepted, INTO(asked, room), room,
                                           needed);
}

wakotehu_code wakotehu_verify_script(const uint8_t *bytes, size_t length, uint64_t input, const uint8_t *spent,
                                     size_t spent_length, uint32_t flags, const char *valid, size_t valid_length,
                                     const char *invalid, size_t invalid_length, uint64_t *line, uint32_t *error,
                                     char *asked, size_t room, size_t *needed) {
    uint64_t unasked;
    if (!readable(bytes, length) || !readable(spent, spent_length) || !readable(valid, valid_length)
        || !readable(invalid, invalid_length) || !error || !readable(asked, room) || !needed)
        return WAKOTEHU_NULL;
    if (has_unknown(flags))
        return WAKOTEHU_FLAGS;
    return (wakotehu_code)ffi_verify_script(AT(bytes, length), length, input, AT(spent, spent_length), spent_length,
                                            flags, AT(valid, valid_length), valid_length, AT(invalid, invalid_length),
                                            invalid_length, line ? line : &unasked, error, INTO(asked, room), room,
                                            needed);
}

wakotehu_code wakotehu_eval_script(const uint8_t *bytes, size_t length, uint64_t input, const uint8_t *script,
                                   size_t script_length, uint32_t flags, const size_t *sizes, size_t count,
                                   const uint8_t *elements, size_t elements_length, const char *valid,
                                   size_t valid_length, const char *invalid, size_t invalid_length, uint64_t *line,
                                   wakotehu_evaluated *evaluated, size_t *left_sizes, size_t most_sizes,
                                   uint8_t *left, size_t most, char *asked, size_t room, size_t *needed) {
    uint64_t unasked;
    /* Who doesn't look at the code sees no run that succeeded. */
    if (evaluated)
        *evaluated = (wakotehu_evaluated){0, 0, WAKOTEHU_SCRIPT_UNKNOWN_ERROR};
    if (!readable(bytes, length) || !readable(script, script_length) || !rows_fit(sizes, count, sizeof *sizes)
        || !readable(elements, elements_length) || !readable(valid, valid_length)
        || !readable(invalid, invalid_length) || !evaluated || !rows_fit(left_sizes, most_sizes, sizeof *left_sizes)
        || !readable(left, most) || !readable(asked, room) || !needed)
        return WAKOTEHU_NULL;
    if (has_unknown(flags))
        return WAKOTEHU_FLAGS;
    return (wakotehu_code)ffi_eval_script(
        AT(bytes, length), length, input, AT(script, script_length), script_length, flags, AT(sizes, count), count,
        AT(elements, elements_length), elements_length, AT(valid, valid_length), valid_length,
        AT(invalid, invalid_length), invalid_length, line ? line : &unasked, evaluated, INTO(left_sizes, most_sizes),
        most_sizes, INTO(left, most), most, INTO(asked, room), room, needed);
}

static const struct {
    const char *name, *text;
} script_errors[] = {
    [WAKOTEHU_SCRIPT_OK] = {"OK", "No error"},
    [WAKOTEHU_SCRIPT_UNKNOWN_ERROR] = {"UNKNOWN_ERROR", "unknown error"},
    [WAKOTEHU_SCRIPT_EVAL_FALSE] =
        {"EVAL_FALSE", "Script evaluated without error but finished with a false/empty top stack element"},
    [WAKOTEHU_SCRIPT_OP_RETURN] = {"OP_RETURN", "OP_RETURN was encountered"},
    [WAKOTEHU_SCRIPT_SCRIPT_SIZE] = {"SCRIPT_SIZE", "Script is too big"},
    [WAKOTEHU_SCRIPT_PUSH_SIZE] = {"PUSH_SIZE", "Push value size limit exceeded"},
    [WAKOTEHU_SCRIPT_OP_COUNT] = {"OP_COUNT", "Operation limit exceeded"},
    [WAKOTEHU_SCRIPT_STACK_SIZE] = {"STACK_SIZE", "Stack size limit exceeded"},
    [WAKOTEHU_SCRIPT_SIG_COUNT] = {"SIG_COUNT", "Signature count negative or greater than pubkey count"},
    [WAKOTEHU_SCRIPT_PUBKEY_COUNT] = {"PUBKEY_COUNT", "Pubkey count negative or limit exceeded"},
    [WAKOTEHU_SCRIPT_VERIFY] = {"VERIFY", "Script failed an OP_VERIFY operation"},
    [WAKOTEHU_SCRIPT_EQUALVERIFY] = {"EQUALVERIFY", "Script failed an OP_EQUALVERIFY operation"},
    [WAKOTEHU_SCRIPT_CHECKMULTISIGVERIFY] = {"CHECKMULTISIGVERIFY",
                                             "Script failed an OP_CHECKMULTISIGVERIFY operation"},
    [WAKOTEHU_SCRIPT_CHECKSIGVERIFY] = {"CHECKSIGVERIFY", "Script failed an OP_CHECKSIGVERIFY operation"},
    [WAKOTEHU_SCRIPT_NUMEQUALVERIFY] = {"NUMEQUALVERIFY", "Script failed an OP_NUMEQUALVERIFY operation"},
    [WAKOTEHU_SCRIPT_BAD_OPCODE] = {"BAD_OPCODE", "Opcode missing or not understood"},
    [WAKOTEHU_SCRIPT_DISABLED_OPCODE] = {"DISABLED_OPCODE", "Attempted to use a disabled opcode"},
    [WAKOTEHU_SCRIPT_INVALID_STACK_OPERATION] = {"INVALID_STACK_OPERATION",
                                                 "Operation not valid with the current stack size"},
    [WAKOTEHU_SCRIPT_INVALID_ALTSTACK_OPERATION] = {"INVALID_ALTSTACK_OPERATION",
                                                    "Operation not valid with the current altstack size"},
    [WAKOTEHU_SCRIPT_UNBALANCED_CONDITIONAL] = {"UNBALANCED_CONDITIONAL", "Invalid OP_IF construction"},
    [WAKOTEHU_SCRIPT_NEGATIVE_LOCKTIME] = {"NEGATIVE_LOCKTIME", "Negative locktime"},
    [WAKOTEHU_SCRIPT_UNSATISFIED_LOCKTIME] = {"UNSATISFIED_LOCKTIME", "Locktime requirement not satisfied"},
    [WAKOTEHU_SCRIPT_SIG_DER] = {"SIG_DER", "Non-canonical DER signature"},
    [WAKOTEHU_SCRIPT_SIG_PUSHONLY] = {"SIG_PUSHONLY", "Only push operators allowed in signatures"},
    [WAKOTEHU_SCRIPT_SIG_NULLDUMMY] = {"SIG_NULLDUMMY", "Dummy CHECKMULTISIG argument must be zero"},
};

enum { SCRIPT_ERRORS = sizeof script_errors / sizeof *script_errors };

const char *wakotehu_script_error_name(uint32_t error) {
    return error < SCRIPT_ERRORS && script_errors[error].name ? script_errors[error].name : "";
}

const char *wakotehu_script_error_text(uint32_t error) {
    return error < SCRIPT_ERRORS && script_errors[error].text ? script_errors[error].text : "";
}

wakotehu_code wakotehu_table_read(const char *table, size_t length, uint64_t *line) {
    uint64_t unasked;
    if (!readable(table, length))
        return WAKOTEHU_NULL;
    return (wakotehu_code)ffi_table(AT(table, length), length, line ? line : &unasked);
}

wakotehu_code wakotehu_table_has(const char *table, size_t length, const uint8_t *key, size_t key_length,
                                 const uint8_t *signature, size_t signature_length, const uint8_t *digest,
                                 uint64_t *line, uint32_t *yes) {
    uint64_t unasked;
    if (!readable(table, length) || !readable(key, key_length) || !readable(signature, signature_length) || !digest
        || !yes)
        return WAKOTEHU_NULL;
    return (wakotehu_code)ffi_table_has(AT(table, length), length, AT(key, key_length), key_length,
                                        AT(signature, signature_length), signature_length, digest,
                                        line ? line : &unasked, yes);
}

wakotehu_code wakotehu_table_add(char *table, size_t room, size_t *length, const uint8_t *key, size_t key_length,
                                 const uint8_t *signature, size_t signature_length, const uint8_t *digest) {
    uint64_t added = 0;
    if (!readable(table, room) || !length || *length > room || !readable(key, key_length)
        || !readable(signature, signature_length) || !digest)
        return WAKOTEHU_NULL;
    size_t left = room - *length;
    uint32_t code = ffi_table_line(AT(key, key_length), key_length, AT(signature, signature_length), signature_length,
                                   digest, left ? (uint8_t *)table + *length : nothing, left, &added);
    if (code == WAKOTEHU_OK)
        *length += added;
    return (wakotehu_code)code;
}

static wakotehu_code hash(void (*call)(const uint8_t *, size_t, uint8_t *), const uint8_t *bytes, size_t length,
                          uint8_t *digest) {
    if (!readable(bytes, length) || !digest)
        return WAKOTEHU_NULL;
    call(AT(bytes, length), length, digest);
    return WAKOTEHU_OK;
}

wakotehu_code wakotehu_sha1(const uint8_t *bytes, size_t length, uint8_t *digest) {
    return hash(ffi_sha1, bytes, length, digest);
}

wakotehu_code wakotehu_sha256(const uint8_t *bytes, size_t length, uint8_t *digest) {
    return hash(ffi_sha256, bytes, length, digest);
}

wakotehu_code wakotehu_ripemd160(const uint8_t *bytes, size_t length, uint8_t *digest) {
    return hash(ffi_ripemd160, bytes, length, digest);
}

wakotehu_code wakotehu_hash160(const uint8_t *bytes, size_t length, uint8_t *digest) {
    return hash(ffi_hash160, bytes, length, digest);
}

wakotehu_code wakotehu_double_sha(const uint8_t *bytes, size_t length, uint8_t *digest) {
    return hash(ffi_double_sha, bytes, length, digest);
}

wakotehu_code wakotehu_show_id(const uint8_t *id, char *digits) {
    if (!id || !digits)
        return WAKOTEHU_NULL;
    ffi_id_show(id, (uint8_t *)digits);
    return WAKOTEHU_OK;
}

wakotehu_code wakotehu_read_id(const char *text, size_t length, uint8_t *id) {
    if (!readable(text, length) || !id)
        return WAKOTEHU_NULL;
    return (wakotehu_code)ffi_id_read(AT(text, length), length, id);
}
