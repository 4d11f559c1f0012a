/*
 * Wakotehu: a chainstate with Bitcoin Core's rules on regtest before segregated witness, proved.
 *
 * A chainstate is named by a handle, which is a number. Each call takes the handle first and answers a code:
 * WAKOTEHU_OK, or why it did nothing. No call crashes or ends the program, whatever handle it is given.
 *
 *   - A handle is used by one call at a time, by any thread: a call on a handle that another call is using answers
 *     WAKOTEHU_BUSY and does nothing. Calls on different handles run side by side, and calls that ask one transaction.
 *   - A handle that was closed, or never opened, is answered WAKOTEHU_CLOSED, and one of another kind (a chainstate's, a set's
 *     or a transaction's) WAKOTEHU_HANDLE. No number is given out twice, to whatever kind.
 *   - A null pointer where one has to be is answered WAKOTEHU_NULL. Pointers have to point to what the call says: that
 *     can't be tested. What a call writes and what it reads may not overlap.
 *   - WAKOTEHU_MEMORY: there was no memory, and nothing changed.
 *   - Where a call doesn't answer WAKOTEHU_OK, what its pointers lead to stays as it was, but for what is said of a code.
 *   - All memory that the caller gives stays the caller's. The library hands out none: there is nothing to free but the
 *     handles, by wakotehu_close and wakotehu_tx_free.
 *   - An id is 32 bytes in the order in which they are hashed and sent; programs print them the other way round.
 *   - Moments are seconds since 1970, values are satoshis. Lengths, rooms and what is needed are size_t; a struct's are uint64_t.
 *   - No call may be made by a signal handler, or by the child of a fork of a process with threads.
 */
#ifndef WAKOTEHU_H
#define WAKOTEHU_H

#include <stddef.h>
#include <stdint.h>

#ifdef __cplusplus
extern "C" {
#endif

/* The version of this header. The library of another WAKOTEHU_VERSION_MAJOR has another soname. */
#define WAKOTEHU_VERSION_MAJOR 0
#define WAKOTEHU_VERSION_MINOR 2

/* The library's version, as "0.2". A library that was compiled without its proofs has the word "unproved" behind it. */
const char *wakotehu_version(void);

/* A chainstate. 0 is never one. */
typedef uint64_t wakotehu_handle;

/* What a call answers. */
typedef enum {
    WAKOTEHU_OK = 0,
    WAKOTEHU_MEMORY = 1,    /* there was no memory, and nothing changed */
    WAKOTEHU_CLOSED = 2,    /* no chainstate, or no transaction, has this handle */
    WAKOTEHU_BAD_TABLE = 3, /* a line of the table can't be read */
    WAKOTEHU_NONE = 4,      /* there is no such coin, tip or block */
    WAKOTEHU_TOO_SMALL = 5, /* the room is too small; what is needed was told */
    WAKOTEHU_BUSY = 7,      /* another call is using the handle */
    WAKOTEHU_NULL = 8,      /* a pointer is null, or a length is above 2^63 - 1 */
    WAKOTEHU_TOO_MANY = 9,  /* WAKOTEHU_MOST chainstates are open, or WAKOTEHU_MOST_TRANSACTIONS transactions kept */
    WAKOTEHU_HANDLE = 10,   /* the handle is, or was, one of another kind */
    WAKOTEHU_FLAGS = 11,    /* a bit of the flags is no rule's, or a field of them is neither 0 nor 1 */
    WAKOTEHU_SHORT = 20,    /* the bytes end too early */
    WAKOTEHU_LONG_FORM = 21, /* a count is spelled in more bytes than it needs */
    WAKOTEHU_TOO_LARGE = 22, /* a count is above 33,554,432 */
    WAKOTEHU_EXTRA = 23,    /* bytes stand after the block, the header or the transaction */
    WAKOTEHU_NO_INPUT = 24, /* the transaction has no input of this number */
    WAKOTEHU_MISMATCH = 25, /* another number of them is wanted */
    WAKOTEHU_FOREIGN = 26,  /* no record of a blk file, and not zero bytes alone */
    WAKOTEHU_CUT = 27,      /* the record ends early */
    WAKOTEHU_TOO_LONG = 28, /* the record says a length above 33,554,432 */
    WAKOTEHU_UNKNOWN = 29,  /* the scripts ask for a signature of which nothing is known */
    WAKOTEHU_CONTRADICTION = 30, /* one signature is said to be valid and not to be */
    WAKOTEHU_WANTS = 31,    /* signatures have to be found out first: see wakotehu_open_by_need */
    WAKOTEHU_ASKED_TOO_SMALL = 32 /* of wakotehu_eval_script: the room for a line is too small; what is needed was told */
} wakotehu_code;

/* So many chainstates can be open at once. */
#define WAKOTEHU_MOST 256

/* The heights from which soft forks are in force (regtest: 1 each); csv is BIPs 68, 112 and 113. */
typedef struct {
    uint32_t bip34, bip65, bip66, csv;
} wakotehu_heights;

/* Heights of soft forks by name, also of those that wakotehu_heights has no room for. One that isn't set is never in force. */
typedef struct wakotehu_params wakotehu_params;

/* The reply to a command. */
typedef enum {
    WAKOTEHU_ACCEPTED = 1,               /* the block is the active one */
    WAKOTEHU_INCONCLUSIVE = 2,           /* the block is kept, and another is the active one */
    WAKOTEHU_DUPLICATE = 3,              /* it is kept before, and was found valid */
    WAKOTEHU_DUPLICATE_INVALID = 4,      /* it is kept before, and a block of its branch is marked */
    WAKOTEHU_DUPLICATE_INCONCLUSIVE = 5, /* it is kept before, and was never looked at whole */
    WAKOTEHU_REJECTED = 6,               /* it breaks a rule: the reason says which */
    WAKOTEHU_DECODE_FAILED = 7,          /* the bytes are no block */
    WAKOTEHU_TREE_FULL = 8,              /* no more blocks can be kept */
    WAKOTEHU_DONE = 9,                   /* of invalidate, reconsider and precious */
    WAKOTEHU_NOT_FOUND = 10,             /* no such block is kept */
    WAKOTEHU_GENESIS = 11                /* the genesis block is never marked */
} wakotehu_reply;

/* A reply. Of a rejection `reason` is a number from 1 to 29; where it is 29, `transaction` and `input` count from 0
 * and name the input whose script isn't accepted. All else is 0. */
typedef struct {
    uint32_t reply;
    uint32_t reason;
    uint64_t transaction;
    uint64_t input;
} wakotehu_answer;

/* What is known of a tip (Bitcoin Core's getchaintips). */
typedef enum {
    WAKOTEHU_ACTIVE = 1,
    WAKOTEHU_INVALID = 2,
    WAKOTEHU_VALID_FORK = 3,
    WAKOTEHU_VALID_HEADERS = 4
} wakotehu_status;

/* A tip: its height, and how many blocks of its branch aren't on the active one. */
typedef struct {
    uint8_t id[32];
    uint64_t height;
    uint64_t length;
    uint32_t status;
} wakotehu_tip;

/* A coin: its value, how many bytes its script has, its block's height, and 1 where a coinbase made it. */
typedef struct {
    int64_t value;
    uint64_t script;
    uint32_t height;
    uint32_t coinbase;
} wakotehu_coin;

/* A block that is kept: its header as it is hashed, its height, and its confirmations: 1 of the active block, one more of
 * each block below it, and -1 of a block that isn't on the active branch (Bitcoin Core's getblockheader). */
typedef struct {
    uint8_t header[80];
    uint64_t height;
    int64_t confirmations;
} wakotehu_header_shown;

/* How many coins a block spent, and how many bytes their scripts have together. */
typedef struct {
    uint64_t coins, scripts;
} wakotehu_spent_size;

/* Opens a chainstate that has the genesis block alone, and writes its handle.
 * table: lines of valid signatures, each a key, a signature without its hash type and a digest of 64 digits (not
 *        reversed), in lower-case hexadecimal, parted by spaces; null where length is 0. It is copied.
 * line:  where the answer is WAKOTEHU_BAD_TABLE, the number, from 1, of the first line that can't be read; may be null.
 * Each opened chainstate has to be given back by wakotehu_close. */
wakotehu_code wakotehu_open(wakotehu_handle *handle, const wakotehu_heights *heights, const char *table,
                            size_t length, uint64_t *line);

/* The same, but no table says which signatures are valid: they are verified by need. A command whose scripts ask for
 * signatures of which nothing is known is answered WAKOTEHU_WANTS. It is no command then: nothing has changed. The caller
 * asks by wakotehu_wants or wakotehu_want_lines for all at which a script of a tried block stops, finds out whether they are
 * valid, hands the verdicts in by wakotehu_learn, and makes the same call again. No verdict changes a reply that was
 * given. */
wakotehu_code wakotehu_open_by_need(wakotehu_handle *handle, const wakotehu_heights *heights);

/* New heights that are these, to be given back by wakotehu_params_free; null where heights is or there is no memory. */
wakotehu_params *wakotehu_params_new(const wakotehu_heights *heights);
void wakotehu_params_free(wakotehu_params *params);

/* Sets the height from which a soft fork is in force. Its name: bip34, bip65 or cltv, bip66 or dersig, csv, nulldummy or
 * bip147; WAKOTEHU_NONE where there is none of this name. */
wakotehu_code wakotehu_params_set(wakotehu_params *params, const char *name, uint32_t height);

/* wakotehu_open and wakotehu_open_by_need under these heights, which may be given back behind the call. */
wakotehu_code wakotehu_open_with(wakotehu_handle *handle, const wakotehu_params *params, const char *table, size_t length,
                                 uint64_t *line);
wakotehu_code wakotehu_open_by_need_with(wakotehu_handle *handle, const wakotehu_params *params);

/* Opens a chainstate that is the same as another one, and writes its handle: blocks are shared, coins and verdicts on
 * signatures are copied. From then on each goes its own way. It has to be given back by wakotehu_close too. */
wakotehu_code wakotehu_copy(wakotehu_handle handle, wakotehu_handle *copy);

/* Who is called for a signature that has to be found out: with its line, as in a table, of `length` bytes. It lives as
 * long as the call. Any other answer than 0 ends the walk. For the handle, and for calls that don't return, see
 * wakotehu_coin_call. */
typedef int (*wakotehu_want_call)(void *context, const char *line, size_t length);

/* Calls `call` once for each signature at which a script of the last command stopped, where that was answered
 * WAKOTEHU_WANTS; else for none. `context` is handed on. A signature may come more than once. */
wakotehu_code wakotehu_wants(wakotehu_handle handle, wakotehu_want_call call, void *context);

/* Writes the lines of these signatures, each behind a newline, to the front of `lines`, of `room` bytes, and how many
 * bytes they are. That is told where the room is too small as well (WAKOTEHU_TOO_SMALL). Where the answer isn't
 * WAKOTEHU_OK, what stands in `lines` means nothing. lines may be null where room is 0. A signature may come more than
 * once. */
wakotehu_code wakotehu_want_lines(wakotehu_handle handle, char *lines, size_t room, size_t *needed);

/* Hands in whether a signature is valid (`valid` isn't 0): of a key, a signature without its hash type, and a digest of 32
 * bytes. A verdict that is known stays for ever: another one is refused by WAKOTEHU_CONTRADICTION, and changes nothing. Of
 * a chainstate that has a table all is known. */
wakotehu_code wakotehu_learn(wakotehu_handle handle, const uint8_t *key, size_t key_length, const uint8_t *signature,
                             size_t signature_length, const uint8_t *digest, int valid);

/* Closes a chainstate and gives its memory back. */
wakotehu_code wakotehu_close(wakotehu_handle handle);

/* Submits the block of these bytes (Bitcoin Core's submitblock). now: the moment, in seconds since 1970. The bytes are
 * copied. */
wakotehu_code wakotehu_submit(wakotehu_handle handle, const uint8_t *bytes, size_t length, uint64_t now,
                              wakotehu_answer *answer);

/* The answer that wakotehu_submit would give now. No step is taken: the block isn't kept. By need it may be answered
 * WAKOTEHU_WANTS, as a submission. */
wakotehu_code wakotehu_judge(wakotehu_handle handle, const uint8_t *bytes, size_t length, uint64_t now,
                             wakotehu_answer *answer);

/* Marks a block as invalid; takes the marks from a block, its ancestors and its descendants; prefers a block to all
 * that are as high (Bitcoin Core's invalidateblock, reconsiderblock, preciousblock). id: 32 bytes. */
wakotehu_code wakotehu_invalidate(wakotehu_handle handle, const uint8_t *id, wakotehu_answer *answer);
wakotehu_code wakotehu_reconsider(wakotehu_handle handle, const uint8_t *id, wakotehu_answer *answer);
wakotehu_code wakotehu_precious(wakotehu_handle handle, const uint8_t *id, wakotehu_answer *answer);

/* The active block's id (32 bytes) and its height. */
wakotehu_code wakotehu_best(wakotehu_handle handle, uint8_t *id);
wakotehu_code wakotehu_height(wakotehu_handle handle, uint64_t *height);

/* A tip by its place in the list of tips, from 0: by height downwards, then as they came. WAKOTEHU_NONE past the
 * end. */
wakotehu_code wakotehu_tip_at(wakotehu_handle handle, size_t place, wakotehu_tip *tip);

/* The coin at an outpoint: the id of a transaction (32 bytes) and the output's number, from 0. WAKOTEHU_NONE where
 * there is none. The first bytes of `script`, of `length` bytes, become the coin's script; where it is too short
 * nothing is written there, the coin's fields are, and the answer is WAKOTEHU_TOO_SMALL. script may be null where
 * length is 0. */
wakotehu_code wakotehu_coin_at(wakotehu_handle handle, const uint8_t *id, uint32_t index, wakotehu_coin *coin,
                               uint8_t *script, size_t length);

/* The bytes of a block that is kept, and how many there are (`needed`); WAKOTEHU_NONE, and 0, where there is none, and
 * for the genesis block. The first of `bytes`, of `length` bytes, become the block; where it is too short nothing is written
 * there, and the answer is WAKOTEHU_TOO_SMALL. bytes may be null where length is 0. Kept are the blocks that were
 * accepted or inconclusive, and those that were refused over the coins (they come again as duplicate-invalid). Of a
 * block that was refused by itself or by its place nothing is kept. */
wakotehu_code wakotehu_block(wakotehu_handle handle, const uint8_t *id, uint8_t *bytes, size_t length, size_t *needed);

/* Where blocks stand. These calls take every block that is kept, on whatever branch it is: valid, invalid, or never looked at
 * whole; the genesis block too, at height 0. WAKOTEHU_NONE of an id that isn't kept. No call of these takes memory.
 *
 * Which blocks a step took back and which it connected needs no call of its own: with the best block of before and the one
 * of now, wakotehu_fork gives the last block of both branches. Those of the old branch above it were taken back, the
 * highest first, and those of the new one connected, the lowest first; bytes 4 to 35 of a header are the id of the block
 * below it. A kept block never goes, and its branch never changes. */

/* The id (32 bytes) of the active branch's block at a height (getblockhash). WAKOTEHU_NONE above the active block. It takes
 * the same time at each height. */
wakotehu_code wakotehu_id_at(wakotehu_handle handle, uint64_t height, uint8_t *id);

/* The header of a block, its height and its confirmations. */
wakotehu_code wakotehu_header(wakotehu_handle handle, const uint8_t *id, wakotehu_header_shown *header);

/* The id of the block at a height of the branch of another block, which is on its own branch. WAKOTEHU_NONE above that block.
 * It walks down the branch. */
wakotehu_code wakotehu_ancestor(wakotehu_handle handle, const uint8_t *id, uint64_t height, uint8_t *ancestor);

/* The id of the last block that the branches of two blocks share: of one block twice that block, and never more than
 * either. It walks down both branches. */
wakotehu_code wakotehu_fork(wakotehu_handle handle, const uint8_t *one, const uint8_t *other, uint8_t *fork);

/* The coins that a block of the active branch spent, in the order of its transactions and of their inputs (what Bitcoin
 * Core's rev files have); the coinbase spends none. The first of `coins`, with room for `most`, become the coins, and the
 * first of `scripts`, of `room` bytes, their scripts, one after the other: coins[0].script bytes, coins[1].script bytes, ..
 * `size` is how many there are; where a room is too small nothing but that is written, and the answer is
 * WAKOTEHU_TOO_SMALL. coins and scripts may be null where most and room are 0. Of the genesis block there are none.
 * WAKOTEHU_NONE of a block that isn't on the active branch, whatever it spent before, and of an id that isn't kept. */
wakotehu_code wakotehu_spent(wakotehu_handle handle, const uint8_t *id, wakotehu_coin *coins, size_t most,
                             uint8_t *scripts, size_t room, wakotehu_spent_size *size);

/* Who is called for a coin: with the id of its transaction (32 bytes), the output's number, the coin, and coin->script
 * bytes of its script. What is pointed to lives as long as the call. Any other answer than 0 ends the walk. The handle
 * is in use meanwhile: a call on it answers WAKOTEHU_BUSY, and calls on other handles go on. It has to return: one that
 * leaves by longjmp, by a C++ exception or by ending its thread leaves the handle in use for ever, and memory is lost.
 * So catch what may be thrown, answer 1, and throw it again when wakotehu_coins has returned. */
typedef int (*wakotehu_coin_call)(void *context, const uint8_t *id, uint32_t index, const wakotehu_coin *coin,
                                  const uint8_t *script);

/* Calls `call` once for each coin, by rising outpoints: by the bytes of the id as they are hashed, then by the index.
 * `context` is passed on. Where there is no memory, WAKOTEHU_MEMORY is answered, and some coins may have been told. */
wakotehu_code wakotehu_coins(wakotehu_handle handle, wakotehu_coin_call call, void *context);

/* ---- Coins that are given: blocks and transactions over a set of coins of the caller's own, apart from any chainstate.
 * Such a set has no blocks below it: it takes the caller's word for where a block stands.
 *
 * One call at a time uses a set, as a handle. Signatures are verified by need, as of wakotehu_open_by_need. */
typedef uint64_t wakotehu_utxo;

/* Where a block is connected: its height; the median time past of its parent; the medians time past of its parent's branch
 * by height, that of genesis first; and from which heights soft forks are in force. A relative lock by time (BIP 68) counts
 * from the median of the block below the coin that it spends: of this height where the set doesn't have the coin, since the
 * block makes it then. Only those have to be given. The parent's may be left out where all below it are there: it is `cutoff`.
 * medians may be null where count is 0. */
typedef struct {
    const uint32_t *medians;
    size_t count;
    wakotehu_heights heights;
    uint32_t height, cutoff;
} wakotehu_setting;

/* The first rule that a block breaks, 0 where it breaks none; of "blk-bad-inputs" (29) the transaction and the input, from
 * 0, whose script isn't accepted, else 0. */
typedef struct {
    uint64_t transaction, input;
    uint32_t reason;
} wakotehu_fault;

/* Opens a set without coins. Each has to be given back by wakotehu_utxo_close. At most WAKOTEHU_MOST are open at once. */
wakotehu_code wakotehu_utxo_open(wakotehu_utxo *utxo);
wakotehu_code wakotehu_utxo_close(wakotehu_utxo utxo);

/* Puts a coin in, in the place of one at the same outpoint: the id of a transaction (32 bytes) and the output's number.
 * script: coin->script bytes, which are copied; null where they are none. Values aren't looked at: they count as they are.
 * The block that was connected last can't be taken back any more. */
wakotehu_code wakotehu_utxo_put(wakotehu_utxo utxo, const uint8_t *id, uint32_t index, const wakotehu_coin *coin,
                                const uint8_t *script);

/* The coin at an outpoint, and all coins, as wakotehu_coin_at and wakotehu_coins have those of a chainstate. */
wakotehu_code wakotehu_utxo_coin_at(wakotehu_utxo utxo, const uint8_t *id, uint32_t index, wakotehu_coin *coin,
                                    uint8_t *script, size_t length);
wakotehu_code wakotehu_utxo_coins(wakotehu_utxo utxo, wakotehu_coin_call call, void *context);

/* Connects the block of these bytes (Bitcoin Core's CheckBlock and ConnectBlock): the first rule that it breaks by itself,
 * or over the coins, its scripts last. Where it breaks none the set has the coins after it; else nothing has changed. What
 * a block may break by its place, under its parent, isn't asked (wakotehu_block_place). Bytes that are no block are
 * answered as by wakotehu_read_block. WAKOTEHU_MISMATCH where a relative lock counts from a median that isn't given: nothing
 * else of the block is looked at then. WAKOTEHU_WANTS where signatures have to be found out first: by wakotehu_utxo_wants,
 * wakotehu_utxo_want_lines and wakotehu_utxo_learn, which are as those of a chainstate. */
wakotehu_code wakotehu_connect(wakotehu_utxo utxo, const uint8_t *block, size_t length, const wakotehu_setting *setting,
                               wakotehu_fault *fault);

/* The same under these heights, and not those of the setting. */
wakotehu_code wakotehu_connect_with(wakotehu_utxo utxo, const uint8_t *block, size_t length, const wakotehu_setting *setting,
                                    const wakotehu_params *params, wakotehu_fault *fault);

/* Takes back the block that was connected last (DisconnectBlock): the set has the coins from before it. WAKOTEHU_NONE where
 * no block was connected, where it was taken back already, and where a coin was put in since. */
wakotehu_code wakotehu_disconnect(wakotehu_utxo utxo);

/* The coins that this block spent, its undo data, as wakotehu_spent has them of an active one. */
wakotehu_code wakotehu_utxo_spent(wakotehu_utxo utxo, wakotehu_coin *coins, size_t most, uint8_t *scripts, size_t room,
                                  wakotehu_spent_size *size);

wakotehu_code wakotehu_utxo_wants(wakotehu_utxo utxo, wakotehu_want_call call, void *context);
wakotehu_code wakotehu_utxo_want_lines(wakotehu_utxo utxo, char *lines, size_t room, size_t *needed);
wakotehu_code wakotehu_utxo_learn(wakotehu_utxo utxo, const uint8_t *key, size_t key_length, const uint8_t *signature,
                                  size_t signature_length, const uint8_t *digest, int valid);

/* What the transaction at the front of these bytes gives as its fee in a block of this height, in satoshis, or the first
 * rule that it breaks by itself or by the coins that it spends (CheckTransaction, CheckTxInputs): missing, too young, worth
 * less than it pays. reason is 0 where it breaks none, and else fee is. A fee that 64 bits can't say is the nearest one that
 * they can. A coinbase spends nothing, so its fee is what it pays, below 0. Locks and scripts aren't asked. WAKOTEHU_TOO_LARGE
 * where it has more than 1,000,000 inputs and outputs, which no block has room for. */
wakotehu_code wakotehu_check_tx_inputs(wakotehu_utxo utxo, const uint8_t *bytes, size_t length, uint32_t height,
                                       uint32_t *reason, int64_t *fee);

/* The same by Bitcoin Core's rule of sizes too: the rules of wakotehu_check_transaction come first. */
wakotehu_code wakotehu_check_transaction_inputs(wakotehu_utxo utxo, const uint8_t *bytes, size_t length, uint32_t height,
                                                uint32_t *reason, int64_t *fee);

/* Bitcoin Core's word for a reason, as "bad-cb-amount"; "blk-bad-inputs" for 29; "" for a number that is no reason's.
 * The text lives as long as the program. */
const char *wakotehu_reason_text(uint32_t reason);

/* The word for a reply, as "accepted", "duplicate-invalid" or "not-found"; "rejected" for WAKOTEHU_REJECTED; "" for a
 * number that is no reply's. */
const char *wakotehu_reply_text(uint32_t reply);

/* A sentence for a code. */
const char *wakotehu_code_text(wakotehu_code code);

/* ---- The rules by themselves. These calls need no chainstate, and may be made from any threads at once. They keep nothing,
 * except for a transaction that wakotehu_tx_read reads.
 * `yes` and flags are 1 or 0. */

/* A transaction, but for its parts: its id, its bytes, how many inputs and outputs it has, its signature operations
 * (each script counted plainly), whether it is a coinbase, and the number of the first rule that it breaks by itself (7
 * to 14, see wakotehu_reason_text), 0 where there is none. */
typedef struct {
    uint8_t id[32];
    uint64_t size, inputs, outputs, sigops;
    int32_t version;
    uint32_t lock_time, coinbase, reason;
} wakotehu_transaction;

/* An input: the output that it spends, how many bytes its script has, and its sequence number. And an output. */
typedef struct {
    uint8_t id[32];
    uint64_t script;
    uint32_t index, sequence;
} wakotehu_input;

typedef struct {
    int64_t value;
    uint64_t script;
} wakotehu_output;

/* From where the relative lock of an input counts: its coin's height, and the median time past of the block before. */
typedef struct {
    uint32_t height, median;
} wakotehu_start;

/* A block, but for its transactions: its id, the fields of its header, the Merkle root of its transactions and whether
 * another list has that root too (twin), its bytes, how many transactions it has, whether its id meets regtest's
 * target, and the number of the first rule that it breaks by itself (1 to 15), 0 where there is none. */
typedef struct {
    uint8_t id[32], parent[32], root[32], merkle[32];
    uint64_t size, transactions;
    int32_t version;
    uint32_t time, bits, nonce, twin, target, reason;
} wakotehu_block_shown;

/* A header by itself: its id, and its fields. */
typedef struct {
    uint8_t id[32], parent[32], root[32];
    int32_t version;
    uint32_t time, bits, nonce;
} wakotehu_header_fields;

/* A transaction of a block: its id, and how many outputs it has. */
typedef struct {
    uint8_t id[32];
    uint64_t outputs;
} wakotehu_made;

/* An opcode: how many bytes it has, how many of these it pushes (the last ones), and its number. */
typedef struct {
    uint64_t length, pushed;
    uint32_t number;
} wakotehu_opcode;

/* A script: its signature operations counted plainly and accurately, and whether it is wholly readable and only pushes,
 * pays to a script's hash (BIP 16), and can never be spent. */
typedef struct {
    uint64_t plain, accurate;
    uint32_t push_only, p2sh, unspendable;
} wakotehu_script_shown;

/* Which rules of scripts are in force: BIP 66, BIP 65, BIP 112. BIP 16 always is: calls that take bits
 * (WAKOTEHU_VERIFY_P2SH and others) can do without it. */
typedef struct {
    uint32_t dersig, cltv, csv;
} wakotehu_flags;

/* Reads the transaction at the front of the bytes; `size` says how many it takes. */
wakotehu_code wakotehu_read_transaction(const uint8_t *bytes, size_t length, wakotehu_transaction *shown);

/* The first rule that the transaction at the front breaks by itself, 0 where there is none, as wakotehu_read_transaction tells
 * it, and by Bitcoin Core's rule of sizes too (CheckTransaction): one of more than 1,000,000 bytes that has inputs and outputs
 * is refused by "bad-txns-oversize" (30). A block refuses it by its own size. */
wakotehu_code wakotehu_check_transaction(const uint8_t *bytes, size_t length, uint32_t *reason);

/* The parts of the transaction at the front: its inputs, its outputs, and their scripts one after the other (those of the
 * inputs first). wakotehu_read_transaction says how many inputs and outputs there are, and its `size` is room enough for
 * the scripts. WAKOTEHU_TOO_SMALL where one of the rooms is too small: then nothing is written to any. A pointer may be
 * null where its room is 0. */
wakotehu_code wakotehu_transaction_parts(const uint8_t *bytes, size_t length, wakotehu_input *inputs,
                                         size_t most_inputs, wakotehu_output *outputs, size_t most_outputs,
                                         uint8_t *scripts, size_t most_scripts);

/* The bytes of the transaction of these parts, at the front of `bytes`, of `most` bytes, and how many they are; that is
 * told where the room is too small as well (WAKOTEHU_TOO_SMALL). WAKOTEHU_MISMATCH where the scripts have another length
 * than the rows say. What is written is read again where no list and no script is above 33,554,432. */
wakotehu_code wakotehu_write_transaction(int32_t version, uint32_t lock_time, const wakotehu_input *inputs,
                                         size_t input_count, const wakotehu_output *outputs, size_t output_count,
                                         const uint8_t *scripts, size_t scripts_length, uint8_t *bytes, size_t most,
                                         size_t *length);

/* Whether the transaction at the front may stand in a block of a height; cutoff: the median time past of the block's
 * parent (Bitcoin Core's IsFinalTx). */
wakotehu_code wakotehu_is_final(const uint8_t *bytes, size_t length, uint32_t height, uint32_t cutoff, uint32_t *yes);

/* Whether its relative locks are met there (BIP 68): a start for each input, else WAKOTEHU_MISMATCH. */
wakotehu_code wakotehu_locks_met(const uint8_t *bytes, size_t length, const wakotehu_start *starts, size_t count,
                                 uint32_t height, uint32_t cutoff, uint32_t *yes);

/* Reads the block that all the bytes spell. */
wakotehu_code wakotehu_read_block(const uint8_t *bytes, size_t length, wakotehu_block_shown *shown);

/* Reads the header that the 80 bytes are; WAKOTEHU_SHORT of fewer bytes, WAKOTEHU_EXTRA of more. */
wakotehu_code wakotehu_read_header(const uint8_t *bytes, size_t length, wakotehu_header_fields *header);

/* How many bytes the block at the front takes; the others are left. */
wakotehu_code wakotehu_block_size(const uint8_t *bytes, size_t length, size_t *size);

/* Its transactions, in order, at the front of `rows`, and how many they are, which is told where the room is too small
 * as well; WAKOTEHU_NONE where the bytes are no block. */
wakotehu_code wakotehu_block_transactions(const uint8_t *bytes, size_t length, wakotehu_made *rows, size_t most,
                                          size_t *count);

/* The number of the first rule that a block breaks by its place (18 to 23), 0 where there is none: at a height, with its
 * parent's median time past, at a moment. */
wakotehu_code wakotehu_block_place(const uint8_t *bytes, size_t length, uint32_t height, uint32_t median, uint64_t now,
                                   const wakotehu_heights *heights, uint32_t *reason);

/* The same under these heights. */
wakotehu_code wakotehu_block_place_with(const uint8_t *bytes, size_t length, uint32_t height, uint32_t median, uint64_t now,
                                        const wakotehu_params *params, uint32_t *reason);

/* How many bytes the block has of the record at the front of a blk file's bytes, behind the record's first 8.
 * WAKOTEHU_NONE at the end: zero bytes alone. */
wakotehu_code wakotehu_record(const uint8_t *bytes, size_t length, size_t *block);

/* The root of the Merkle tree of `count` ids, 32 bytes each, one after the other (Bitcoin Core's ComputeMerkleRoot, whose
 * `mutated` is `twin`: another list of ids has this root too). The root of no ids is 32 zero bytes. */
wakotehu_code wakotehu_merkle(const uint8_t *ids, size_t count, uint8_t *root, uint32_t *twin);

/* The target that the bits of a header spell, and its faults: it has a sign, or more than 256 bits, of which the lowest are
 * told (Bitcoin Core's SetCompact). A target is a number in 32 bytes, the lowest first, as Bitcoin Core's uint256 is kept;
 * so is the work below. */
wakotehu_code wakotehu_read_bits(uint32_t bits, uint8_t *target, uint32_t *negative, uint32_t *overflow);

/* The bits of a target, with the sign's bit where `negative` isn't 0 (Bitcoin Core's GetCompact). They spell its three highest
 * bytes, or two where the third would begin with the sign's bit; what is below is lost. */
wakotehu_code wakotehu_write_bits(const uint8_t *target, uint32_t negative, uint32_t *bits);

/* How many hashes a header with these bits takes on average, as a chain's work is counted (Bitcoin Core's GetBlockProof):
 * 2^256 / (target + 1), and 0 where the target is 0 or has a fault. */
wakotehu_code wakotehu_work(uint32_t bits, uint8_t *work);

/* The new coins of a block of this height on regtest, in satoshis. */
int64_t wakotehu_subsidy(uint32_t height);

/* Whether an id meets regtest's target. */
wakotehu_code wakotehu_meets_target(const uint8_t *id, uint32_t *yes);

/* The median of 1 to 11 times (Bitcoin Core's GetMedianTimePast), else WAKOTEHU_MISMATCH. */
wakotehu_code wakotehu_median(const uint32_t *times, size_t count, uint32_t *median);

/* The opcode at the front of a script; WAKOTEHU_NONE where none is: what is left is nothing, or a push cut short. */
wakotehu_code wakotehu_next_opcode(const uint8_t *script, size_t length, wakotehu_opcode *shown);

/* A script's kind and signature operations. */
wakotehu_code wakotehu_script(const uint8_t *script, size_t length, wakotehu_script_shown *shown);

/* The signature operations of the inner script of an input script and the script that it spends (BIP 16). */
wakotehu_code wakotehu_p2sh_sigops(const uint8_t *input, size_t length, const uint8_t *spent, size_t spent_length,
                                   uint64_t *count);

/* The number that at most `most` bytes (and at most 8) spell (CScriptNum); WAKOTEHU_NONE where there are more. */
wakotehu_code wakotehu_read_number(const uint8_t *bytes, size_t length, size_t most, int64_t *value);

/* A number's shortest spelling, of at most 9 bytes; `count` is written where the room is too small as well. */
wakotehu_code wakotehu_number_bytes(int64_t value, uint8_t *bytes, size_t length, size_t *count);

/* Whether a signature with its hash type is strictly encoded (BIP 66), or has no byte. */
wakotehu_code wakotehu_strict_signature(const uint8_t *bytes, size_t length, uint32_t *yes);

/* The 32 bytes that a signature of an input signs, for a code and a hash type of four bytes (Bitcoin Core's SignatureHash
 * before segregated witness): each OP_CODESEPARATOR is taken out of the code, and a push that is cut short at its end
 * stays. The signature itself is taken out by the caller. */
wakotehu_code wakotehu_signature_digest(const uint8_t *bytes, size_t length, uint64_t input, const uint8_t *code,
                                        size_t code_length, uint32_t kind, uint8_t *digest);

/* The same for the code just as it is given, with each OP_CODESEPARATOR in it: no signature of Bitcoin's signs that where
 * there is one. */
wakotehu_code wakotehu_signature_digest_as_given(const uint8_t *bytes, size_t length, uint64_t input,
                                                 const uint8_t *code, size_t code_length, uint32_t kind,
                                                 uint8_t *digest);

/* Whether an input of the transaction at the front of the bytes may spend a script (Bitcoin Core's VerifyScript). table:
 * lines of valid signatures, as wakotehu_open takes them, and read anew by each call; line: as there, may be null. */
wakotehu_code wakotehu_verify(const uint8_t *bytes, size_t length, uint64_t input, const uint8_t *spent,
                              size_t spent_length, const wakotehu_flags *flags, const char *table,
                              size_t table_length, uint64_t *line, uint32_t *accepted);

/* The same by what is known so far: the signatures of one table are valid, those of another aren't, and of all others
 * nothing is known. WAKOTEHU_OK: the verdict, which is the same whatever else is valid. WAKOTEHU_UNKNOWN: the scripts come
 * to a signature of which nothing is known. Its line is put at the front of `asked`, of `room` bytes, as
 * wakotehu_table_add puts it behind a table: find out whether it is valid, put the line behind one table or the other, and
 * call again. `needed` is how many bytes the line has, at most WAKOTEHU_MOST_ASKED; where `room` is less, nothing is
 * written there, and the answer is WAKOTEHU_TOO_SMALL. WAKOTEHU_CONTRADICTION: a triple is in both tables.
 * WAKOTEHU_BAD_TABLE: `line` is of the first table or, where that can be read, of the second; may be null. */
wakotehu_code wakotehu_verify_known(const uint8_t *bytes, size_t length, uint64_t input, const uint8_t *spent,
                                    size_t spent_length, const wakotehu_flags *flags, const char *valid,
                                    size_t valid_length, const char *invalid, size_t invalid_length, uint64_t *line,
                                    uint32_t *accepted, char *asked, size_t room, size_t *needed);

/* An element that a script pushes has at most 520 bytes, so no line of a key, a signature and a digest is longer, unless a
 * stack that is given to wakotehu_eval_script has longer ones. */
#define WAKOTEHU_MOST_ASKED 2145

/* Why a script fails: Bitcoin Core's names and numbers (ScriptError) of the rules before segregated witness. */
typedef enum {
    WAKOTEHU_SCRIPT_OK = 0,
    WAKOTEHU_SCRIPT_UNKNOWN_ERROR = 1, /* an element is too long to be a number */
    WAKOTEHU_SCRIPT_EVAL_FALSE = 2, /* the top isn't true at the end, or there is none */
    WAKOTEHU_SCRIPT_OP_RETURN = 3, /* an OP_RETURN is executed */
    WAKOTEHU_SCRIPT_SCRIPT_SIZE = 4, /* the script has more than 10,000 bytes */
    WAKOTEHU_SCRIPT_PUSH_SIZE = 5, /* a push has more than 520 bytes */
    WAKOTEHU_SCRIPT_OP_COUNT = 6, /* more than 201 opcodes above OP_16 and keys */
    WAKOTEHU_SCRIPT_STACK_SIZE = 7, /* both stacks have more than 1,000 elements */
    WAKOTEHU_SCRIPT_SIG_COUNT = 8, /* of a CHECKMULTISIG */
    WAKOTEHU_SCRIPT_PUBKEY_COUNT = 9, /* of a CHECKMULTISIG */
    WAKOTEHU_SCRIPT_VERIFY = 10,
    WAKOTEHU_SCRIPT_EQUALVERIFY = 11,
    WAKOTEHU_SCRIPT_CHECKMULTISIGVERIFY = 12,
    WAKOTEHU_SCRIPT_CHECKSIGVERIFY = 13,
    WAKOTEHU_SCRIPT_NUMEQUALVERIFY = 14,
    WAKOTEHU_SCRIPT_BAD_OPCODE = 15, /* also a push that is cut short */
    WAKOTEHU_SCRIPT_DISABLED_OPCODE = 16,
    WAKOTEHU_SCRIPT_INVALID_STACK_OPERATION = 17, /* too few elements */
    WAKOTEHU_SCRIPT_INVALID_ALTSTACK_OPERATION = 18, /* the same */
    WAKOTEHU_SCRIPT_UNBALANCED_CONDITIONAL = 19,
    WAKOTEHU_SCRIPT_NEGATIVE_LOCKTIME = 20,
    WAKOTEHU_SCRIPT_UNSATISFIED_LOCKTIME = 21,
    WAKOTEHU_SCRIPT_SIG_DER = 23, /* a signature isn't strictly encoded (BIP 66) */
    WAKOTEHU_SCRIPT_SIG_PUSHONLY = 25, /* of a script hash's input script (BIP 16) */
    WAKOTEHU_SCRIPT_SIG_NULLDUMMY = 27 /* the element more that a CHECKMULTISIG takes isn't empty (BIP 147) */
} wakotehu_script_error;

/* A failure's name, as EVAL_FALSE, and Bitcoin Core's text for it; "OK" and "No error" of 0, "" of a number that is none. */
const char *wakotehu_script_error_name(uint32_t error);
const char *wakotehu_script_error_text(uint32_t error);

/* Rules of scripts by Bitcoin Core's bits, for the calls below: BIP 16, BIP 66, BIP 147, BIP 65, BIP 112. Another bit is
 * answered WAKOTEHU_FLAGS. */
#define WAKOTEHU_VERIFY_P2SH 1
#define WAKOTEHU_VERIFY_DERSIG 4
#define WAKOTEHU_VERIFY_NULLDUMMY 16
#define WAKOTEHU_VERIFY_CHECKLOCKTIMEVERIFY 512
#define WAKOTEHU_VERIFY_CHECKSEQUENCEVERIFY 1024

/* wakotehu_verify_known with the name of the failure: `error` is WAKOTEHU_SCRIPT_OK where the input may spend the script. */
wakotehu_code wakotehu_verify_script(const uint8_t *bytes, size_t length, uint64_t input, const uint8_t *spent,
                                     size_t spent_length, uint32_t flags, const char *valid, size_t valid_length,
                                     const char *invalid, size_t invalid_length, uint64_t *line, uint32_t *error,
                                     char *asked, size_t room, size_t *needed);

/* A transaction that is read once, so that each of its inputs can be asked for without reading it again. It is named by a
 * handle, a number; 0 is never one. It never changes, so up to 65,535 calls may ask it at once, from any threads. Only
 * wakotehu_tx_free has it alone: it answers WAKOTEHU_BUSY while another call asks it, and gives nothing back then. */
typedef uint64_t wakotehu_tx;

/* So many can be kept at once. */
#define WAKOTEHU_MOST_TRANSACTIONS 65536

/* Reads a transaction and writes its handle. Where `used` is null, all the bytes have to be the transaction:
 * WAKOTEHU_EXTRA where some stand behind it (Bitcoin Core's TX_SIZE_MISMATCH). Else it is the one at the front, and `used`
 * becomes the number of its bytes. The bytes are copied. Of one with 32 inputs or more the hasher's states at every 16th
 * input are kept (as Bitcoin Core's PrecomputedTransactionData for segregated witness), which shorten later digests. Each transaction has to be given back by wakotehu_tx_free. */
wakotehu_code wakotehu_tx_read(const uint8_t *bytes, size_t length, size_t *used, wakotehu_tx *tx);

/* wakotehu_verify_script for an input of a transaction that was read. */
wakotehu_code wakotehu_tx_verify_input(wakotehu_tx tx, uint64_t input, const uint8_t *spent, size_t spent_length,
                                       uint32_t flags, const char *valid, size_t valid_length, const char *invalid,
                                       size_t invalid_length, uint64_t *line, uint32_t *error, char *asked, size_t room,
                                       size_t *needed);

/* The same of all inputs at once: the first that may not spend its script, and the number of its failure; `error` is
 * WAKOTEHU_SCRIPT_OK, and `input` 0, where each may. Eight digests are hashed at once, and a table is read once for all, so
 * this costs less than a call for each. scripts: those that the inputs spend, one after the other, sizes[n] bytes
 * each. WAKOTEHU_MISMATCH where there is no size for each input, or the bytes are more or fewer. Inputs behind one that is
 * refused, or that asks for a signature of which nothing is known, aren't looked at. */
wakotehu_code wakotehu_tx_verify(wakotehu_tx tx, const uint8_t *scripts, size_t length, const size_t *sizes, size_t count,
                                 uint32_t flags, const char *valid, size_t valid_length, const char *invalid,
                                 size_t invalid_length, uint64_t *line, uint64_t *input, uint32_t *error, char *asked,
                                 size_t room, size_t *needed);

/* wakotehu_tx_verify_input by the verdicts that a set of coins has learnt (wakotehu_utxo_learn), so that no table is read. The
 * set's coins aren't asked. The set is used by this call alone meanwhile. */
wakotehu_code wakotehu_tx_verify_input_known(wakotehu_tx tx, wakotehu_utxo known, uint64_t input, const uint8_t *spent,
                                             size_t spent_length, uint32_t flags, uint32_t *error, char *asked,
                                             size_t room, size_t *needed);

/* Gives a transaction's memory back. WAKOTEHU_BUSY while another call asks it: call again. */
wakotehu_code wakotehu_tx_free(wakotehu_tx tx);

/* What a script left: how many elements its stack has, and how many bytes these have together; `error` is why it failed, or
 * WAKOTEHU_SCRIPT_UNKNOWN_ERROR where it didn't run to its end, and then the others are 0. */
typedef struct {
    uint64_t elements, size;
    uint32_t error;
} wakotehu_evaluated;

/* Runs one script on a stack (Bitcoin Core's EvalScript), with signatures of an input of the transaction at the front of
 * the bytes. A stack is the lengths of its elements, from the bottom up, and their bytes one after the other; else
 * WAKOTEHU_MISMATCH. The stack that is left is put at the front of `left_sizes`, with room for `most_sizes`, and of
 * `left`, with room for `most` bytes. Where one is too small neither is written and the answer is WAKOTEHU_TOO_SMALL:
 * `evaluated` says how much is needed, at most 1,000 elements unless the script has no opcode. Signatures are known as for
 * wakotehu_verify_known. A line that is longer than `room` is answered WAKOTEHU_ASKED_TOO_SMALL: the script hasn't run to its
 * end, and `needed` says how long the line is. `evaluated` is written at each code. */
wakotehu_code wakotehu_eval_script(const uint8_t *bytes, size_t length, uint64_t input, const uint8_t *script,
                                   size_t script_length, uint32_t flags, const size_t *sizes, size_t count,
                                   const uint8_t *elements, size_t elements_length, const char *valid,
                                   size_t valid_length, const char *invalid, size_t invalid_length, uint64_t *line,
                                   wakotehu_evaluated *evaluated, size_t *left_sizes, size_t most_sizes,
                                   uint8_t *left, size_t most, char *asked, size_t room, size_t *needed);

/* A table of valid signatures is its text. Whether each line can be read, else WAKOTEHU_BAD_TABLE and the line's number,
 * from 1 (line may be null). */
wakotehu_code wakotehu_table_read(const char *table, size_t length, uint64_t *line);

/* Whether a table has a key, a signature without its hash type, and a digest of 32 bytes. */
wakotehu_code wakotehu_table_has(const char *table, size_t length, const uint8_t *key, size_t key_length,
                                 const uint8_t *signature, size_t signature_length, const uint8_t *digest,
                                 uint64_t *line, uint32_t *yes);

/* Adds them: a line is put behind the first `length` of the table's `room` bytes, and `length` grows by its bytes, at
 * most 2 * (key_length + signature_length) + 69. Where there is no room for it, WAKOTEHU_TOO_SMALL, and nothing
 * changes. */
wakotehu_code wakotehu_table_add(char *table, size_t room, size_t *length, const uint8_t *key, size_t key_length,
                                 const uint8_t *signature, size_t signature_length, const uint8_t *digest);

/* SHA-1, RIPEMD-160 and HASH160 (20 bytes), SHA-256 and SHA-256 twice (32 bytes). */
wakotehu_code wakotehu_sha1(const uint8_t *bytes, size_t length, uint8_t *digest);
wakotehu_code wakotehu_ripemd160(const uint8_t *bytes, size_t length, uint8_t *digest);
wakotehu_code wakotehu_hash160(const uint8_t *bytes, size_t length, uint8_t *digest);
wakotehu_code wakotehu_sha256(const uint8_t *bytes, size_t length, uint8_t *digest);
wakotehu_code wakotehu_double_sha(const uint8_t *bytes, size_t length, uint8_t *digest);

/* The 64 digits of an id as programs print it, without a zero byte at the end; and the id of 64 digits, else
 * WAKOTEHU_NONE. */
wakotehu_code wakotehu_show_id(const uint8_t *id, char *digits);
wakotehu_code wakotehu_read_id(const char *text, size_t length, uint8_t *id);

#ifdef __cplusplus
}
#endif
#endif
