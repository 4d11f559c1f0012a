/*
 * The calls that users make. This file is trusted: nothing proves it. It checks its arguments, names chainstates,
 * transactions and sets of coins by numbers, and lets one call at a time into each, or any that read a transaction; the
 * work is done by the proved functions ffi_*, of crates/ffi.
 *
 * What it owes them: each pointer points to what its type says and to nothing that another argument points to; a slot
 * is zero bytes at first and is written by them alone; one call at a time uses a slot, and the next one sees all that
 * it wrote (the words below are read and written in one order by all threads). What is in a slot may go from thread
 * to thread: crates/ffi has the prover show it. Several calls get copies of a transaction's slot at once: crates/ffi shows that
 * threads may share it, and that each leaves it as it was; that none writes to it meanwhile rests on its calls, which only
 * borrow it.
 */
#include "params.h"
#include "wakotehu.h"

#include <stdatomic.h>
#include <stdbool.h>
#include <stdlib.h>
#include <string.h>

/* ---- the proved functions. A parameter of no bytes, the allocator, isn't passed. */

struct slot {
    bool full;
    void *at; /* read and written by the proved functions alone */
};

struct place {
    uint8_t id[32];
    uint32_t index;
};

struct bytes {
    const void *at;
    size_t length;
};

/* What is asked of an input, and what is told of it. */
struct question {
    uint64_t input;
    struct bytes spent, valid, invalid;
    uint32_t flags;
};

/* The same by verdicts that are kept. */
struct known_question {
    uint64_t input;
    struct bytes spent;
    uint32_t flags;
};

struct told {
    uint64_t line, count;
    uint32_t error;
};

/* What is asked of all inputs, and what is told of them. */
struct all_asked {
    struct bytes scripts, sizes, valid, invalid;
    uint32_t flags;
};

struct all_told {
    uint64_t line, count, input;
    uint32_t error;
};

uint32_t ffi_set_height(wakotehu_params *params, const uint8_t *name, size_t length, uint32_t height);
uint32_t ffi_open(struct slot *slot, const wakotehu_params *params, const uint8_t *table, size_t length,
                  uint64_t *line);
uint32_t ffi_open_by_need(struct slot *slot, const wakotehu_params *params);
uint32_t ffi_want(struct slot *slot, uint64_t index, uint8_t *line, size_t length, uint64_t *needed);
uint32_t ffi_learn(struct slot *slot, const uint8_t *key, size_t key_length, const uint8_t *signature,
                   size_t signature_length, const uint8_t *digest, uint32_t valid);
uint32_t ffi_close(struct slot *slot);
uint32_t ffi_submit(struct slot *slot, const uint8_t *bytes, size_t length, uint64_t now, wakotehu_answer *answer);
uint32_t ffi_judge(struct slot *slot, const uint8_t *bytes, size_t length, uint64_t now, wakotehu_answer *answer);
uint32_t ffi_copy(struct slot *slot, struct slot *other);
uint32_t ffi_invalidate(struct slot *slot, const uint8_t *id, wakotehu_answer *answer);
uint32_t ffi_reconsider(struct slot *slot, const uint8_t *id, wakotehu_answer *answer);
uint32_t ffi_precious(struct slot *slot, const uint8_t *id, wakotehu_answer *answer);
uint32_t ffi_best(struct slot *slot, uint8_t *id, uint64_t *height);
uint32_t ffi_tip(struct slot *slot, uint64_t index, wakotehu_tip *tip);
uint32_t ffi_coin(struct slot *slot, const struct place *at, wakotehu_coin *coin, uint8_t *script, size_t length);
uint32_t ffi_coin_after(struct slot *slot, uint32_t above, struct place *at, wakotehu_coin *coin, uint8_t *script,
                        size_t length);
uint32_t ffi_kept_block(struct slot *slot, const uint8_t *id, uint8_t *bytes, size_t length, uint64_t *needed);
uint32_t ffi_id_at(struct slot *slot, uint64_t height, uint8_t *id);
uint32_t ffi_ancestor(struct slot *slot, const uint8_t *id, uint64_t height, uint8_t *ancestor);
uint32_t ffi_fork(struct slot *slot, const uint8_t *one, const uint8_t *other, uint8_t *fork);
uint32_t ffi_header(struct slot *slot, const uint8_t *id, wakotehu_header_shown *shown);
uint32_t ffi_spent(struct slot *slot, const uint8_t *id, wakotehu_coin *coins, size_t most, uint8_t *scripts,
                   size_t room, wakotehu_spent_size *size);

/* Where a block is connected. */
struct setting {
    struct bytes medians;
    wakotehu_params params;
    uint32_t height, cutoff;
};

struct inputs_told {
    int64_t fee;
    uint32_t reason;
};

uint32_t ffi_utxo_open(struct slot *slot);
uint32_t ffi_utxo_close(struct slot *slot);
uint32_t ffi_utxo_put(struct slot *slot, const struct place *at, const wakotehu_coin *coin, const uint8_t *script,
                      size_t length);
uint32_t ffi_utxo_coin(struct slot *slot, const struct place *at, wakotehu_coin *coin, uint8_t *script, size_t length);
uint32_t ffi_utxo_coin_after(struct slot *slot, uint32_t above, struct place *at, wakotehu_coin *coin, uint8_t *script,
                             size_t length);
uint32_t ffi_utxo_learn(struct slot *slot, const uint8_t *key, size_t key_length, const uint8_t *signature,
                        size_t signature_length, const uint8_t *digest, uint32_t valid);
uint32_t ffi_utxo_want(struct slot *slot, uint64_t index, uint8_t *line, size_t length, uint64_t *needed);
uint32_t ffi_utxo_spent(struct slot *slot, wakotehu_coin *coins, size_t most, uint8_t *scripts, size_t room,
                        wakotehu_spent_size *size);
uint32_t ffi_connect(struct slot *slot, const uint8_t *bytes, size_t length, const struct setting *setting,
                     wakotehu_fault *fault);
uint32_t ffi_disconnect(struct slot *slot);
uint32_t ffi_check_tx_inputs(struct slot *slot, const uint8_t *bytes, size_t length, uint32_t height,
                             struct inputs_told *told);

uint32_t ffi_tx_check(const uint8_t *bytes, size_t length, uint32_t *reason);
uint32_t ffi_tx_read(struct slot *slot, const uint8_t *bytes, size_t length, uint64_t *used);
uint32_t ffi_tx_read_whole(struct slot *slot, const uint8_t *bytes, size_t length);
uint32_t ffi_tx_free(struct slot *slot);
uint32_t ffi_tx_verify_input(struct slot *slot, const struct question *question, struct told *told, uint8_t *asked,
                             size_t room);
uint32_t ffi_tx_verify(struct slot *slot, const struct all_asked *question, struct all_told *told, uint8_t *asked,
                       size_t room);
uint32_t ffi_tx_verify_input_known(struct slot *slot, struct slot *set, const struct known_question *question,
                                   struct told *told, uint8_t *asked, size_t room);

_Static_assert(sizeof(struct slot) == 16 && offsetof(struct slot, at) == 8, "as Slot, TxSlot and UtxoSlot of crates/ffi");
_Static_assert(sizeof(struct question) == 64 && offsetof(struct question, flags) == 56, "as InputQuestion");
_Static_assert(sizeof(struct known_question) == 32 && offsetof(struct known_question, flags) == 24, "as KnownQuestion");
_Static_assert(sizeof(struct told) == 24 && offsetof(struct told, error) == 16, "as InputTold");
_Static_assert(sizeof(struct all_asked) == 72 && offsetof(struct all_asked, flags) == 64, "as AllQuestion");
_Static_assert(sizeof(struct all_told) == 32 && offsetof(struct all_told, error) == 24, "as AllTold");
_Static_assert(sizeof(wakotehu_params) == 24 && offsetof(wakotehu_params, nulldummy) == 16, "as Heights");
_Static_assert(sizeof(struct setting) == 48 && offsetof(struct setting, cutoff) == 44, "as BlockSetting");
_Static_assert(sizeof(struct inputs_told) == 16 && offsetof(struct inputs_told, reason) == 8, "as InputsTold");
_Static_assert(sizeof(wakotehu_fault) == 24 && offsetof(wakotehu_fault, reason) == 16, "as Fault");
_Static_assert(sizeof(struct place) == 36, "as Place");
_Static_assert(sizeof(wakotehu_answer) == 24, "as Answer");
_Static_assert(sizeof(wakotehu_tip) == 56 && offsetof(wakotehu_tip, status) == 48, "as ShownTip");
_Static_assert(sizeof(wakotehu_coin) == 24, "as ShownCoin");
_Static_assert(sizeof(wakotehu_header_shown) == 96 && offsetof(wakotehu_header_shown, height) == 80, "as ShownHeader");
_Static_assert(sizeof(wakotehu_spent_size) == 16, "as ShownSpent");

/* ---- handles. A handle has its kind in its highest bits but two; below it the number of an opening, and below that the
 * place: in one byte that of a chainstate or of a set of coins, in two that of a transaction. The word of a place is the number
 * of its last opening, and below it in 16 bits how many calls read it, and in two what it is. Places are never given back.
 *
 * A transaction never changes, so calls share it: each gets a copy of its slot, from which the proved functions take the
 * box and into which they put it back; they only read what is in it. */

enum { FREE = 0, OPEN = 1, IN_USE = 2 };
enum { NUMBER_BITS = 44, KIND_AT = 60, MOST_READERS = 65535 };

struct held {
    _Atomic uint64_t word;
    struct slot slot;
};

static struct held chains[WAKOTEHU_MOST], sets[WAKOTEHU_MOST], parsed[WAKOTEHU_MOST_TRANSACTIONS];

_Static_assert(WAKOTEHU_MOST == 1 << 8 && WAKOTEHU_MOST_TRANSACTIONS == 1 << 16, "a place is a byte of a handle, or two");

enum kind { CHAIN = 1, SET = 2, TRANSACTION = 3 };

/* The places of a kind, and in how many bits of a handle one is named. */
static const struct places {
    struct held *all;
    unsigned bits;
} places_of[] = {[CHAIN] = {chains, 8}, [SET] = {sets, 8}, [TRANSACTION] = {parsed, 16}};

static uint64_t word_of(uint64_t number, uint64_t readers, uint64_t state) { return number << 18 | readers << 2 | state; }

static uint64_t number_in(uint64_t word) { return word >> 18; }

static uint64_t readers_in(uint64_t word) { return word >> 2 & MOST_READERS; }

static wakotehu_handle handle_of(enum kind kind, uint64_t number, uint64_t place) {
    return (uint64_t)kind << KIND_AT | number << places_of[kind].bits | place;
}

static uint64_t place_in(enum kind kind, wakotehu_handle handle) { return handle & ((1u << places_of[kind].bits) - 1); }

/* The place that a handle of this kind names, and the number of its opening. */
static struct held *held_at(enum kind kind, wakotehu_handle handle) {
    return &places_of[kind].all[place_in(kind, handle)];
}

static uint64_t opening_in(enum kind kind, wakotehu_handle handle) {
    return (handle & (((uint64_t)1 << KIND_AT) - 1)) >> places_of[kind].bits;
}

/* Why a handle isn't one of this kind, or WAKOTEHU_OK: it was given out as one of another kind, or never. */
static wakotehu_code look_at_kind(enum kind kind, wakotehu_handle handle) {
    uint64_t found = handle >> KIND_AT;
    if (found < CHAIN || found > TRANSACTION)
        return WAKOTEHU_CLOSED;
    uint64_t number = opening_in((enum kind)found, handle);
    if (number == 0 || number > number_in(atomic_load(&held_at((enum kind)found, handle)->word)))
        return WAKOTEHU_CLOSED;
    return found == (uint64_t)kind ? WAKOTEHU_OK : WAKOTEHU_HANDLE;
}

/* Lets this call alone into what a handle names, or says why not. */
static wakotehu_code enter_alone(enum kind kind, wakotehu_handle handle) {
    wakotehu_code code = look_at_kind(kind, handle);
    if (code != WAKOTEHU_OK)
        return code;
    uint64_t number = opening_in(kind, handle), found = word_of(number, 0, OPEN);
    if (atomic_compare_exchange_strong(&held_at(kind, handle)->word, &found, word_of(number, 0, IN_USE)))
        return WAKOTEHU_OK;
    return number_in(found) == number && (found & 3) != FREE ? WAKOTEHU_BUSY : WAKOTEHU_CLOSED;
}

/* Lets the next call in, and hands the code on. */
static wakotehu_code leave_alone(enum kind kind, wakotehu_handle handle, uint32_t code) {
    atomic_store(&held_at(kind, handle)->word, word_of(opening_in(kind, handle), 0, OPEN));
    return (wakotehu_code)code;
}

/* Gives a place back whose memory was given back. */
static wakotehu_code leave_free(enum kind kind, wakotehu_handle handle, uint32_t code) {
    atomic_store(&held_at(kind, handle)->word, word_of(opening_in(kind, handle), 0, FREE));
    return (wakotehu_code)code;
}

/* Lets this call into a transaction beside others that read it, with a slot of its own, or says why not. */
static wakotehu_code enter_shared(wakotehu_tx tx, struct slot *own) {
    wakotehu_code code = look_at_kind(TRANSACTION, tx);
    if (code != WAKOTEHU_OK)
        return code;
    struct held *held = held_at(TRANSACTION, tx);
    uint64_t number = opening_in(TRANSACTION, tx), found = atomic_load(&held->word);
    do {
        /* One that is in use is on its way out. */
        if (number_in(found) != number || (found & 3) != OPEN)
            return WAKOTEHU_CLOSED;
        if (readers_in(found) == MOST_READERS)
            return WAKOTEHU_BUSY;
    } while (!atomic_compare_exchange_weak(&held->word, &found, word_of(number, readers_in(found) + 1, OPEN)));
    *own = held->slot;
    return WAKOTEHU_OK;
}

static wakotehu_code leave_shared(wakotehu_tx tx, uint32_t code) {
    atomic_fetch_sub(&held_at(TRANSACTION, tx)->word, word_of(0, 1, 0));
    return (wakotehu_code)code;
}

/* Lets this call into the chainstate of a handle. */
static wakotehu_code enter(wakotehu_handle handle) { return enter_alone(CHAIN, handle); }

static struct slot *slot_of(wakotehu_handle handle) { return &held_at(CHAIN, handle)->slot; }

static wakotehu_code leave(wakotehu_handle handle, uint32_t code) { return leave_alone(CHAIN, handle, code); }

/* ---- what the caller gives */

static const uint8_t no_bytes[1];

/* Bytes that can be read: of none, some address that isn't null. */
static bool readable(const void *bytes, size_t length) { return (bytes || !length) && length <= PTRDIFF_MAX; }

/* ---- opening and closing */

/* What is opened: by a table, or by need, or as another one is; or a set of coins. */
struct opening {
    enum kind kind;
    const wakotehu_params *params;
    const uint8_t *table;
    size_t length;
    uint64_t *line;
    bool by_need;
    struct slot *copied; /* null where it is no copy */
};

static uint32_t open_slot(struct slot *slot, const struct opening *asked) {
    if (asked->kind == SET)
        return ffi_utxo_open(slot);
    if (asked->copied)
        return ffi_copy(asked->copied, slot);
    if (asked->by_need)
        return ffi_open_by_need(slot, asked->params);
    return ffi_open(slot, asked->params, asked->table, asked->length, asked->line);
}

/* The next opening in a place of a kind, for this call alone; 0 where the place isn't free. */
static uint64_t take_place(enum kind kind, uint64_t place) {
    struct held *held = &places_of[kind].all[place];
    uint64_t word = atomic_load(&held->word), number = number_in(word) + 1;
    if ((word & 3) != FREE || number >> NUMBER_BITS != 0)
        return 0;
    return atomic_compare_exchange_strong(&held->word, &word, word_of(number, 0, IN_USE)) ? number : 0;
}

/* Opens in the first place that is free. */
static wakotehu_code open_place(wakotehu_handle *handle, const struct opening *asked) {
    for (uint64_t place = 0; place < WAKOTEHU_MOST; place++) {
        uint64_t number = take_place(asked->kind, place);
        if (number == 0)
            continue;
        wakotehu_handle made = handle_of(asked->kind, number, place);
        uint32_t code = open_slot(&held_at(asked->kind, made)->slot, asked);
        if (code != WAKOTEHU_OK)
            return leave_free(asked->kind, made, code);
        *handle = made;
        return leave_alone(asked->kind, made, code);
    }
    return WAKOTEHU_TOO_MANY;
}

wakotehu_params *wakotehu_params_new(const wakotehu_heights *heights) {
    wakotehu_params *made = heights ? malloc(sizeof *made) : NULL;
    if (made)
        *made = params_of(heights);
    return made;
}

void wakotehu_params_free(wakotehu_params *params) { free(params); }

wakotehu_code wakotehu_params_set(wakotehu_params *params, const char *name, uint32_t height) {
    if (!params || !name)
        return WAKOTEHU_NULL;
    size_t length = strlen(name);
    return (wakotehu_code)ffi_set_height(params, length ? (const uint8_t *)name : no_bytes, length, height);
}

wakotehu_code wakotehu_open_with(wakotehu_handle *handle, const wakotehu_params *params, const char *table, size_t length,
                                 uint64_t *line) {
    uint64_t unasked;
    if (!handle || !params || !readable(table, length))
        return WAKOTEHU_NULL;
    const uint8_t *bytes = length ? (const uint8_t *)table : no_bytes;
    return open_place(handle, &(struct opening){CHAIN, params, bytes, length, line ? line : &unasked, false, NULL});
}

wakotehu_code wakotehu_open_by_need_with(wakotehu_handle *handle, const wakotehu_params *params) {
    if (!handle || !params)
        return WAKOTEHU_NULL;
    return open_place(handle, &(struct opening){CHAIN, params, no_bytes, 0, NULL, true, NULL});
}

wakotehu_code wakotehu_open(wakotehu_handle *handle, const wakotehu_heights *heights, const char *table,
                            size_t length, uint64_t *line) {
    if (!heights)
        return WAKOTEHU_NULL;
    wakotehu_params params = params_of(heights);
    return wakotehu_open_with(handle, &params, table, length, line);
}

wakotehu_code wakotehu_open_by_need(wakotehu_handle *handle, const wakotehu_heights *heights) {
    if (!heights)
        return WAKOTEHU_NULL;
    wakotehu_params params = params_of(heights);
    return wakotehu_open_by_need_with(handle, &params);
}

wakotehu_code wakotehu_copy(wakotehu_handle handle, wakotehu_handle *copy) {
    if (!copy)
        return WAKOTEHU_NULL;
    wakotehu_code code = enter(handle);
    if (code != WAKOTEHU_OK)
        return code;
    return leave(handle, open_place(copy, &(struct opening){CHAIN, NULL, no_bytes, 0, NULL, false, slot_of(handle)}));
}

wakotehu_code wakotehu_close(wakotehu_handle handle) {
    wakotehu_code code = enter(handle);
    if (code != WAKOTEHU_OK)
        return code;
    return leave_free(CHAIN, handle, ffi_close(slot_of(handle)));
}

/* ---- commands */

wakotehu_code wakotehu_submit(wakotehu_handle handle, const uint8_t *bytes, size_t length, uint64_t now,
                              wakotehu_answer *answer) {
    if (!readable(bytes, length) || !answer)
        return WAKOTEHU_NULL;
    wakotehu_code code = enter(handle);
    if (code != WAKOTEHU_OK)
        return code;
    return leave(handle, ffi_submit(slot_of(handle), length ? bytes : no_bytes, length, now, answer));
}

wakotehu_code wakotehu_judge(wakotehu_handle handle, const uint8_t *bytes, size_t length, uint64_t now,
                             wakotehu_answer *answer) {
    if (!readable(bytes, length) || !answer)
        return WAKOTEHU_NULL;
    wakotehu_code code = enter(handle);
    if (code != WAKOTEHU_OK)
        return code;
    return leave(handle, ffi_judge(slot_of(handle), length ? bytes : no_bytes, length, now, answer));
}

static wakotehu_code mark(wakotehu_handle handle, const uint8_t *id, wakotehu_answer *answer,
                          uint32_t (*call)(struct slot *, const uint8_t *, wakotehu_answer *)) {
    uint8_t copy[32];
    if (!id || !answer)
        return WAKOTEHU_NULL;
    wakotehu_code code = enter(handle);
    if (code != WAKOTEHU_OK)
        return code;
    memcpy(copy, id, sizeof copy);
    return leave(handle, call(slot_of(handle), copy, answer));
}

wakotehu_code wakotehu_invalidate(wakotehu_handle handle, const uint8_t *id, wakotehu_answer *answer) {
    return mark(handle, id, answer, ffi_invalidate);
}

wakotehu_code wakotehu_reconsider(wakotehu_handle handle, const uint8_t *id, wakotehu_answer *answer) {
    return mark(handle, id, answer, ffi_reconsider);
}

wakotehu_code wakotehu_precious(wakotehu_handle handle, const uint8_t *id, wakotehu_answer *answer) {
    return mark(handle, id, answer, ffi_precious);
}

/* ---- signatures by need */

/* Which signature is wanted, of a chainstate or of a set of coins. */
typedef uint32_t (*want_at)(struct slot *, uint64_t, uint8_t *, size_t, uint64_t *);

/* Hands on the lines of the wanted signatures. */
static uint32_t wants(struct slot *slot, want_at want, wakotehu_want_call call, void *context) {
    uint8_t small[1024], *room = small;
    size_t length = sizeof small;
    uint32_t code = WAKOTEHU_OK;
    for (uint64_t n = 0; code == WAKOTEHU_OK; n++) {
        uint64_t needed = 0;
        code = want(slot, n, room, length, &needed);
        if (code == WAKOTEHU_TOO_SMALL) {
            uint8_t *larger = malloc(needed);
            if (!larger) {
                code = WAKOTEHU_MEMORY;
                break;
            }
            if (room != small)
                free(room);
            room = larger;
            length = needed;
            code = want(slot, n, room, length, &needed);
        }
        if (code == WAKOTEHU_UNKNOWN)
            code = call(context, (const char *)room, needed) != 0 ? WAKOTEHU_NONE : WAKOTEHU_OK;
    }
    if (room != small)
        free(room);
    return code == WAKOTEHU_NONE ? WAKOTEHU_OK : code;
}

wakotehu_code wakotehu_wants(wakotehu_handle handle, wakotehu_want_call call, void *context) {
    if (!call)
        return WAKOTEHU_NULL;
    wakotehu_code code = enter(handle);
    return code != WAKOTEHU_OK ? code : leave(handle, wants(slot_of(handle), ffi_want, call, context));
}

/* Puts the lines one after the other as far as there is room, and counts the bytes of all. */
static uint32_t want_lines(struct slot *slot, want_at want, uint8_t *lines, size_t room, size_t *needed) {
    uint8_t none[1];
    size_t filled = 0;
    uint32_t code = WAKOTEHU_UNKNOWN;
    for (uint64_t n = 0; code == WAKOTEHU_UNKNOWN || code == WAKOTEHU_TOO_SMALL; n++) {
        uint64_t length = 0;
        size_t left = filled < room ? room - filled : 0;
        code = want(slot, n, left ? lines + filled : none, left, &length);
        filled += length;
    }
    if (code != WAKOTEHU_NONE)
        return code;
    *needed = filled;
    return filled <= room ? WAKOTEHU_OK : WAKOTEHU_TOO_SMALL;
}

wakotehu_code wakotehu_want_lines(wakotehu_handle handle, char *lines, size_t room, size_t *needed) {
    if (!readable(lines, room) || !needed)
        return WAKOTEHU_NULL;
    wakotehu_code code = enter(handle);
    return code != WAKOTEHU_OK ? code
                               : leave(handle, want_lines(slot_of(handle), ffi_want, (uint8_t *)lines, room, needed));
}

wakotehu_code wakotehu_learn(wakotehu_handle handle, const uint8_t *key, size_t key_length, const uint8_t *signature,
                             size_t signature_length, const uint8_t *digest, int valid) {
    if (!readable(key, key_length) || !readable(signature, signature_length) || !digest)
        return WAKOTEHU_NULL;
    wakotehu_code code = enter(handle);
    if (code != WAKOTEHU_OK)
        return code;
    return leave(handle, ffi_learn(slot_of(handle), key_length ? key : no_bytes, key_length,
                                   signature_length ? signature : no_bytes, signature_length, digest, valid != 0));
}

/* ---- reads */

static wakotehu_code best(wakotehu_handle handle, uint8_t *id, uint64_t *height) {
    wakotehu_code code = enter(handle);
    return code != WAKOTEHU_OK ? code : leave(handle, ffi_best(slot_of(handle), id, height));
}

wakotehu_code wakotehu_best(wakotehu_handle handle, uint8_t *id) {
    uint64_t height = 0;
    return id ? best(handle, id, &height) : WAKOTEHU_NULL;
}

wakotehu_code wakotehu_height(wakotehu_handle handle, uint64_t *height) {
    uint8_t id[32] = {0};
    return height ? best(handle, id, height) : WAKOTEHU_NULL;
}

wakotehu_code wakotehu_tip_at(wakotehu_handle handle, size_t place, wakotehu_tip *tip) {
    if (!tip)
        return WAKOTEHU_NULL;
    wakotehu_code code = enter(handle);
    if (code != WAKOTEHU_OK)
        return code;
    return leave(handle, ffi_tip(slot_of(handle), place, tip));
}

wakotehu_code wakotehu_coin_at(wakotehu_handle handle, const uint8_t *id, uint32_t index, wakotehu_coin *coin,
                               uint8_t *script, size_t length) {
    struct place at;
    uint8_t none[1];
    if (!id || !coin || !readable(script, length))
        return WAKOTEHU_NULL;
    wakotehu_code code = enter(handle);
    if (code != WAKOTEHU_OK)
        return code;
    memcpy(at.id, id, sizeof at.id);
    at.index = index;
    return leave(handle, ffi_coin(slot_of(handle), &at, coin, length ? script : none, length));
}

wakotehu_code wakotehu_block(wakotehu_handle handle, const uint8_t *id, uint8_t *bytes, size_t length,
                             size_t *needed) {
    uint8_t none[1];
    uint64_t told = 0;
    if (!id || !needed || !readable(bytes, length))
        return WAKOTEHU_NULL;
    wakotehu_code code = enter(handle);
    if (code != WAKOTEHU_OK)
        return code;
    uint32_t found = ffi_kept_block(slot_of(handle), id, length ? bytes : none, length, &told);
    *needed = told;
    return leave(handle, found);
}

/* ---- where blocks stand, and what they spent */

wakotehu_code wakotehu_id_at(wakotehu_handle handle, uint64_t height, uint8_t *id) {
    if (!id)
        return WAKOTEHU_NULL;
    wakotehu_code code = enter(handle);
    return code != WAKOTEHU_OK ? code : leave(handle, ffi_id_at(slot_of(handle), height, id));
}

wakotehu_code wakotehu_header(wakotehu_handle handle, const uint8_t *id, wakotehu_header_shown *header) {
    if (!id || !header)
        return WAKOTEHU_NULL;
    wakotehu_code code = enter(handle);
    return code != WAKOTEHU_OK ? code : leave(handle, ffi_header(slot_of(handle), id, header));
}

wakotehu_code wakotehu_ancestor(wakotehu_handle handle, const uint8_t *id, uint64_t height, uint8_t *ancestor) {
    if (!id || !ancestor)
        return WAKOTEHU_NULL;
    wakotehu_code code = enter(handle);
    return code != WAKOTEHU_OK ? code : leave(handle, ffi_ancestor(slot_of(handle), id, height, ancestor));
}

wakotehu_code wakotehu_fork(wakotehu_handle handle, const uint8_t *one, const uint8_t *other, uint8_t *fork) {
    if (!one || !other || !fork)
        return WAKOTEHU_NULL;
    wakotehu_code code = enter(handle);
    return code != WAKOTEHU_OK ? code : leave(handle, ffi_fork(slot_of(handle), one, other, fork));
}

wakotehu_code wakotehu_spent(wakotehu_handle handle, const uint8_t *id, wakotehu_coin *coins, size_t most,
                             uint8_t *scripts, size_t room, wakotehu_spent_size *size) {
    wakotehu_coin no_coins[1];
    uint8_t none[1];
    if (!id || !size || !readable(coins, most) || most > PTRDIFF_MAX / sizeof *coins || !readable(scripts, room))
        return WAKOTEHU_NULL;
    wakotehu_code code = enter(handle);
    if (code != WAKOTEHU_OK)
        return code;
    return leave(handle, ffi_spent(slot_of(handle), id, most ? coins : no_coins, most, room ? scripts : none, room,
                                   size));
}

/* ---- all coins */

/* A coin, with room for its script. */
struct listed {
    struct place at;
    wakotehu_coin coin;
    uint8_t *script;
    size_t length;
};

/* The coin at the least outpoint above another, of a chainstate or of a set of coins. */
typedef uint32_t (*coin_after)(struct slot *, uint32_t, struct place *, wakotehu_coin *, uint8_t *, size_t);

/* The coin above the one that was listed last, or the first one. */
static uint32_t next_coin(struct slot *slot, coin_after after, uint32_t above, struct listed *listed) {
    uint32_t code = after(slot, above, &listed->at, &listed->coin, listed->script, listed->length);
    if (code != WAKOTEHU_TOO_SMALL)
        return code;
    uint8_t *larger = realloc(listed->script, listed->coin.script);
    if (!larger)
        return WAKOTEHU_MEMORY;
    listed->script = larger;
    listed->length = listed->coin.script;
    return after(slot, above, &listed->at, &listed->coin, listed->script, listed->length);
}

static uint32_t each_coin(struct slot *slot, coin_after after, struct listed *listed, wakotehu_coin_call call,
                          void *context) {
    uint32_t code = next_coin(slot, after, 0, listed);
    while (code == WAKOTEHU_OK && call(context, listed->at.id, listed->at.index, &listed->coin, listed->script) == 0)
        code = next_coin(slot, after, 1, listed);
    return code == WAKOTEHU_NONE ? WAKOTEHU_OK : code;
}

static uint32_t coins(struct slot *slot, coin_after after, wakotehu_coin_call call, void *context) {
    struct listed listed = {.script = malloc(64), .length = 64};
    uint32_t found = listed.script ? each_coin(slot, after, &listed, call, context) : WAKOTEHU_MEMORY;
    free(listed.script);
    return found;
}

wakotehu_code wakotehu_coins(wakotehu_handle handle, wakotehu_coin_call call, void *context) {
    if (!call)
        return WAKOTEHU_NULL;
    wakotehu_code code = enter(handle);
    return code != WAKOTEHU_OK ? code : leave(handle, coins(slot_of(handle), ffi_coin_after, call, context));
}

/* ---- transactions that are read once */

/* Where a free place is looked for first: it was freed last, or stands behind the one that was taken last. */
static _Atomic uint64_t next_parsed;

static uint32_t read_tx(struct slot *slot, const uint8_t *bytes, size_t length, size_t *used) {
    uint64_t told = 0;
    if (!used)
        return ffi_tx_read_whole(slot, bytes, length);
    uint32_t code = ffi_tx_read(slot, bytes, length, &told);
    if (code == WAKOTEHU_OK)
        *used = (size_t)told;
    return code;
}

wakotehu_code wakotehu_tx_read(const uint8_t *bytes, size_t length, size_t *used, wakotehu_tx *tx) {
    if (!readable(bytes, length) || !tx)
        return WAKOTEHU_NULL;
    uint64_t first = atomic_load(&next_parsed);
    for (uint64_t n = 0; n < WAKOTEHU_MOST_TRANSACTIONS; n++) {
        uint64_t place = (first + n) % WAKOTEHU_MOST_TRANSACTIONS, number = take_place(TRANSACTION, place);
        if (number == 0)
            continue;
        wakotehu_tx made = handle_of(TRANSACTION, number, place);
        uint32_t code = read_tx(&held_at(TRANSACTION, made)->slot, length ? bytes : no_bytes, length, used);
        if (code != WAKOTEHU_OK)
            return leave_free(TRANSACTION, made, code);
        atomic_store(&next_parsed, place + 1);
        *tx = made;
        return leave_alone(TRANSACTION, made, code);
    }
    return WAKOTEHU_TOO_MANY;
}

wakotehu_code wakotehu_tx_free(wakotehu_tx tx) {
    wakotehu_code code = enter_alone(TRANSACTION, tx);
    if (code != WAKOTEHU_OK)
        return code;
    code = leave_free(TRANSACTION, tx, ffi_tx_free(&held_at(TRANSACTION, tx)->slot));
    atomic_store(&next_parsed, place_in(TRANSACTION, tx));
    return code;
}

/* Whether flags have a bit that is no rule's. */
static bool has_unknown(uint32_t flags) {
    return flags & ~(uint32_t)(WAKOTEHU_VERIFY_P2SH | WAKOTEHU_VERIFY_DERSIG | WAKOTEHU_VERIFY_NULLDUMMY
                               | WAKOTEHU_VERIFY_CHECKLOCKTIMEVERIFY | WAKOTEHU_VERIFY_CHECKSEQUENCEVERIFY);
}

static struct bytes bytes_of(const void *at, size_t length) { return (struct bytes){length ? at : no_bytes, length}; }

wakotehu_code wakotehu_tx_verify_input(wakotehu_tx tx, uint64_t input, const uint8_t *spent, size_t spent_length,
                                       uint32_t flags, const char *valid, size_t valid_length, const char *invalid,
                                       size_t invalid_length, uint64_t *line, uint32_t *error, char *asked, size_t room,
                                       size_t *needed) {
    struct question question = {input, bytes_of(spent, spent_length), bytes_of(valid, valid_length),
                                bytes_of(invalid, invalid_length), flags};
    struct told told = {0, 0, 0};
    uint8_t none[1];
    if (!readable(spent, spent_length) || !readable(valid, valid_length) || !readable(invalid, invalid_length) || !error
        || !readable(asked, room) || !needed)
        return WAKOTEHU_NULL;
    if (has_unknown(flags))
        return WAKOTEHU_FLAGS;
    struct slot own;
    wakotehu_code code = enter_shared(tx, &own);
    if (code != WAKOTEHU_OK)
        return code;
    code = leave_shared(tx, ffi_tx_verify_input(&own, &question, &told, room ? (uint8_t *)asked : none, room));
    if (code == WAKOTEHU_OK)
        *error = told.error;
    if (code == WAKOTEHU_UNKNOWN || code == WAKOTEHU_TOO_SMALL)
        *needed = told.count;
    if (code == WAKOTEHU_BAD_TABLE && line)
        *line = told.line;
    return code;
}

wakotehu_code wakotehu_tx_verify(wakotehu_tx tx, const uint8_t *scripts, size_t length, const size_t *sizes, size_t count,
                                 uint32_t flags, const char *valid, size_t valid_length, const char *invalid,
                                 size_t invalid_length, uint64_t *line, uint64_t *input, uint32_t *error, char *asked,
                                 size_t room, size_t *needed) {
    static const uint64_t no_sizes[1];
    struct all_asked question = {bytes_of(scripts, length), {count ? sizes : no_sizes, count},
                                 bytes_of(valid, valid_length), bytes_of(invalid, invalid_length), flags};
    struct all_told told = {0, 0, 0, 0};
    uint8_t none[1];
    if (!readable(scripts, length) || (!sizes && count) || count > PTRDIFF_MAX / sizeof *sizes
        || !readable(valid, valid_length) || !readable(invalid, invalid_length) || !input || !error
        || !readable(asked, room) || !needed)
        return WAKOTEHU_NULL;
    if (has_unknown(flags))
        return WAKOTEHU_FLAGS;
    struct slot own;
    wakotehu_code code = enter_shared(tx, &own);
    if (code != WAKOTEHU_OK)
        return code;
    code = leave_shared(tx, ffi_tx_verify(&own, &question, &told, room ? (uint8_t *)asked : none, room));
    if (code == WAKOTEHU_OK) {
        *input = told.input;
        *error = told.error;
    }
    if (code == WAKOTEHU_UNKNOWN || code == WAKOTEHU_TOO_SMALL)
        *needed = told.count;
    if (code == WAKOTEHU_BAD_TABLE && line)
        *line = told.line;
    return code;
}

/* ---- coins that are given */

static wakotehu_code enter_set(wakotehu_utxo utxo) { return enter_alone(SET, utxo); }

static struct slot *set_of(wakotehu_utxo utxo) { return &held_at(SET, utxo)->slot; }

static wakotehu_code leave_set(wakotehu_utxo utxo, uint32_t code) { return leave_alone(SET, utxo, code); }

static struct place place_of(const uint8_t *id, uint32_t index) {
    struct place at = {.index = index};
    memcpy(at.id, id, sizeof at.id);
    return at;
}

wakotehu_code wakotehu_utxo_open(wakotehu_utxo *utxo) {
    return utxo ? open_place(utxo, &(struct opening){.kind = SET}) : WAKOTEHU_NULL;
}

wakotehu_code wakotehu_utxo_close(wakotehu_utxo utxo) {
    wakotehu_code code = enter_set(utxo);
    if (code != WAKOTEHU_OK)
        return code;
    return leave_free(SET, utxo, ffi_utxo_close(set_of(utxo)));
}

wakotehu_code wakotehu_utxo_put(wakotehu_utxo utxo, const uint8_t *id, uint32_t index, const wakotehu_coin *coin,
                                const uint8_t *script) {
    if (!id || !coin || !readable(script, coin->script))
        return WAKOTEHU_NULL;
    struct place at = place_of(id, index);
    wakotehu_code code = enter_set(utxo);
    if (code != WAKOTEHU_OK)
        return code;
    return leave_set(utxo, ffi_utxo_put(set_of(utxo), &at, coin, coin->script ? script : no_bytes, coin->script));
}

wakotehu_code wakotehu_utxo_coin_at(wakotehu_utxo utxo, const uint8_t *id, uint32_t index, wakotehu_coin *coin,
                                    uint8_t *script, size_t length) {
    uint8_t none[1];
    if (!id || !coin || !readable(script, length))
        return WAKOTEHU_NULL;
    struct place at = place_of(id, index);
    wakotehu_code code = enter_set(utxo);
    if (code != WAKOTEHU_OK)
        return code;
    return leave_set(utxo, ffi_utxo_coin(set_of(utxo), &at, coin, length ? script : none, length));
}

wakotehu_code wakotehu_utxo_coins(wakotehu_utxo utxo, wakotehu_coin_call call, void *context) {
    if (!call)
        return WAKOTEHU_NULL;
    wakotehu_code code = enter_set(utxo);
    return code != WAKOTEHU_OK ? code : leave_set(utxo, coins(set_of(utxo), ffi_utxo_coin_after, call, context));
}

wakotehu_code wakotehu_utxo_spent(wakotehu_utxo utxo, wakotehu_coin *rows, size_t most, uint8_t *scripts, size_t room,
                                  wakotehu_spent_size *size) {
    wakotehu_coin no_row;
    uint8_t none[1];
    if ((!rows && most) || most > PTRDIFF_MAX / sizeof *rows || !readable(scripts, room) || !size)
        return WAKOTEHU_NULL;
    wakotehu_code code = enter_set(utxo);
    if (code != WAKOTEHU_OK)
        return code;
    return leave_set(utxo,
                     ffi_utxo_spent(set_of(utxo), most ? rows : &no_row, most, room ? scripts : none, room, size));
}

wakotehu_code wakotehu_utxo_wants(wakotehu_utxo utxo, wakotehu_want_call call, void *context) {
    if (!call)
        return WAKOTEHU_NULL;
    wakotehu_code code = enter_set(utxo);
    return code != WAKOTEHU_OK ? code : leave_set(utxo, wants(set_of(utxo), ffi_utxo_want, call, context));
}

wakotehu_code wakotehu_utxo_want_lines(wakotehu_utxo utxo, char *lines, size_t room, size_t *needed) {
    if (!readable(lines, room) || !needed)
        return WAKOTEHU_NULL;
    wakotehu_code code = enter_set(utxo);
    return code != WAKOTEHU_OK
               ? code
               : leave_set(utxo, want_lines(set_of(utxo), ffi_utxo_want, (uint8_t *)lines, room, needed));
}

wakotehu_code wakotehu_utxo_learn(wakotehu_utxo utxo, const uint8_t *key, size_t key_length, const uint8_t *signature,
                                  size_t signature_length, const uint8_t *digest, int valid) {
    if (!readable(key, key_length) || !readable(signature, signature_length) || !digest)
        return WAKOTEHU_NULL;
    wakotehu_code code = enter_set(utxo);
    if (code != WAKOTEHU_OK)
        return code;
    return leave_set(utxo, ffi_utxo_learn(set_of(utxo), key_length ? key : no_bytes, key_length,
                                          signature_length ? signature : no_bytes, signature_length, digest, valid != 0));
}

wakotehu_code wakotehu_connect(wakotehu_utxo utxo, const uint8_t *block, size_t length, const wakotehu_setting *setting,
                               wakotehu_fault *fault) {
    if (!setting)
        return WAKOTEHU_NULL;
    wakotehu_params params = params_of(&setting->heights);
    return wakotehu_connect_with(utxo, block, length, setting, &params, fault);
}

wakotehu_code wakotehu_connect_with(wakotehu_utxo utxo, const uint8_t *block, size_t length, const wakotehu_setting *setting,
                                    const wakotehu_params *params, wakotehu_fault *fault) {
    static const uint32_t no_medians[1];
    if (!readable(block, length) || !setting || !params || !fault || (!setting->medians && setting->count)
        || setting->count > PTRDIFF_MAX / sizeof *setting->medians)
        return WAKOTEHU_NULL;
    struct setting own = {{setting->count ? setting->medians : no_medians, setting->count}, *params, setting->height,
                          setting->cutoff};
    wakotehu_code code = enter_set(utxo);
    if (code != WAKOTEHU_OK)
        return code;
    return leave_set(utxo, ffi_connect(set_of(utxo), length ? block : no_bytes, length, &own, fault));
}

wakotehu_code wakotehu_disconnect(wakotehu_utxo utxo) {
    wakotehu_code code = enter_set(utxo);
    return code != WAKOTEHU_OK ? code : leave_set(utxo, ffi_disconnect(set_of(utxo)));
}

wakotehu_code wakotehu_tx_verify_input_known(wakotehu_tx tx, wakotehu_utxo known, uint64_t input, const uint8_t *spent,
                                             size_t spent_length, uint32_t flags, uint32_t *error, char *asked,
                                             size_t room, size_t *needed) {
    struct known_question question = {input, bytes_of(spent, spent_length), flags};
    struct told told = {0, 0, 0};
    uint8_t none[1];
    if (!readable(spent, spent_length) || !error || !readable(asked, room) || !needed)
        return WAKOTEHU_NULL;
    if (has_unknown(flags))
        return WAKOTEHU_FLAGS;
    struct slot own;
    wakotehu_code code = enter_shared(tx, &own);
    if (code != WAKOTEHU_OK)
        return code;
    code = enter_set(known);
    if (code == WAKOTEHU_OK)
        code = leave_set(known, ffi_tx_verify_input_known(&own, set_of(known), &question, &told,
                                                          room ? (uint8_t *)asked : none, room));
    code = leave_shared(tx, code);
    if (code == WAKOTEHU_OK)
        *error = told.error;
    if (code == WAKOTEHU_UNKNOWN || code == WAKOTEHU_TOO_SMALL)
        *needed = told.count;
    return code;
}

/* By Bitcoin Core's rule of sizes too, where `sized`. */
static wakotehu_code check_inputs(wakotehu_utxo utxo, const struct bytes *tx, uint32_t height, bool sized, uint32_t *reason,
                                  int64_t *fee) {
    struct inputs_told told = {0, 0};
    wakotehu_code code = enter_set(utxo);
    if (code != WAKOTEHU_OK)
        return code;
    uint32_t found = sized ? ffi_tx_check(tx->at, tx->length, &told.reason) : WAKOTEHU_OK;
    if (found == WAKOTEHU_OK && told.reason == 0)
        found = ffi_check_tx_inputs(set_of(utxo), tx->at, tx->length, height, &told);
    code = leave_set(utxo, found);
    if (code == WAKOTEHU_OK) {
        *reason = told.reason;
        *fee = told.fee;
    }
    return code;
}

wakotehu_code wakotehu_check_tx_inputs(wakotehu_utxo utxo, const uint8_t *bytes, size_t length, uint32_t height,
                                       uint32_t *reason, int64_t *fee) {
    struct bytes tx = bytes_of(bytes, length);
    return readable(bytes, length) && reason && fee ? check_inputs(utxo, &tx, height, false, reason, fee) : WAKOTEHU_NULL;
}

wakotehu_code wakotehu_check_transaction_inputs(wakotehu_utxo utxo, const uint8_t *bytes, size_t length, uint32_t height,
                                                uint32_t *reason, int64_t *fee) {
    struct bytes tx = bytes_of(bytes, length);
    return readable(bytes, length) && reason && fee ? check_inputs(utxo, &tx, height, true, reason, fee) : WAKOTEHU_NULL;
}

/* ---- words */

const char *wakotehu_reason_text(uint32_t reason) {
    static const char *const texts[] = {
        "", "high-hash", "bad-txnmrklroot", "bad-txns-duplicate", "bad-blk-length", "bad-cb-missing",
        "bad-cb-multiple", "bad-txns-vin-empty", "bad-txns-vout-empty", "bad-txns-vout-negative",
        "bad-txns-vout-toolarge", "bad-txns-txouttotal-toolarge", "bad-txns-inputs-duplicate", "bad-cb-length",
        "bad-txns-prevout-null", "bad-blk-sigops", "prev-blk-not-found", "bad-prevblk", "bad-diffbits",
        "time-too-old", "time-too-new", "bad-version", "bad-txns-nonfinal", "bad-cb-height", "bad-txns-BIP30",
        "bad-txns-inputs-missingorspent", "bad-txns-premature-spend-of-coinbase", "bad-txns-in-belowout",
        "bad-cb-amount", "blk-bad-inputs", "bad-txns-oversize",
    };
    return reason < sizeof texts / sizeof *texts ? texts[reason] : "";
}

const char *wakotehu_reply_text(uint32_t reply) {
    static const char *const texts[] = {
        "", "accepted", "inconclusive", "duplicate", "duplicate-invalid", "duplicate-inconclusive", "rejected",
        "decode-failed", "tree-full", "done", "not-found", "genesis",
    };
    return reply < sizeof texts / sizeof *texts ? texts[reply] : "";
}

#define TEXT(number) #number
#define VERSION(major, minor) TEXT(major) "." TEXT(minor)

const char *wakotehu_version(void) {
#ifdef WAKOTEHU_UNPROVED
    return VERSION(WAKOTEHU_VERSION_MAJOR, WAKOTEHU_VERSION_MINOR) " unproved";
#else
    return VERSION(WAKOTEHU_VERSION_MAJOR, WAKOTEHU_VERSION_MINOR);
#endif
}

const char *wakotehu_code_text(wakotehu_code code) {
    switch (code) {
    case WAKOTEHU_OK: return "it is done";
    case WAKOTEHU_MEMORY: return "there was no memory, and nothing changed";
    case WAKOTEHU_CLOSED: return "no chainstate or transaction has this handle";
    case WAKOTEHU_BAD_TABLE: return "a line of the table can't be read";
    case WAKOTEHU_NONE: return "there is no such thing";
    case WAKOTEHU_TOO_SMALL: return "the room is too small";
    case WAKOTEHU_BUSY: return "another call is using the handle";
    case WAKOTEHU_NULL: return "a pointer is null, or a length is too large";
    case WAKOTEHU_TOO_MANY: return "too many chainstates or transactions are open";
    case WAKOTEHU_HANDLE: return "the handle is of another kind";
    case WAKOTEHU_FLAGS: return "a bit of the flags is no rule's";
    case WAKOTEHU_SHORT: return "the bytes end too early";
    case WAKOTEHU_LONG_FORM: return "a count is spelled in more bytes than it needs";
    case WAKOTEHU_TOO_LARGE: return "a count is above 33554432";
    case WAKOTEHU_EXTRA: return "bytes stand after the block, the header or the transaction";
    case WAKOTEHU_NO_INPUT: return "there is no such input";
    case WAKOTEHU_MISMATCH: return "another number of them is wanted";
    case WAKOTEHU_FOREIGN: return "there is no record";
    case WAKOTEHU_CUT: return "the record ends early";
    case WAKOTEHU_TOO_LONG: return "the record is too long";
    case WAKOTEHU_UNKNOWN: return "whether a signature is valid isn't known";
    case WAKOTEHU_CONTRADICTION: return "a signature is said to be valid and not to be";
    case WAKOTEHU_WANTS: return "signatures have to be found out first";
    case WAKOTEHU_ASKED_TOO_SMALL: return "the room for the line of a signature is too small";
    }
    return "";
}
