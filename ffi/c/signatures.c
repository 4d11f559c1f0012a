/*
 * Which signatures are valid, by libsecp256k1. Nothing proves this file: that verdicts are right rests on it.
 *
 * Lines are looked at whole before any is tested, so those who test them meet digits alone.
 */
#define _POSIX_C_SOURCE 200809L
#include "wakotehu-secp256k1.h"

#include <pthread.h>
#include <secp256k1.h>
#include <signal.h>
#include <stdbool.h>
#include <stdlib.h>
#include <string.h>

/* A thread is used for each so many lines: with fewer, starting it costs more than it saves. */
enum { FOR_EACH_THREAD = 4 };

/* ---- lines */

/* So many bytes as lower-case hexadecimal. */
struct word {
    const char *digits;
    size_t length;
};

/* A line: a key, a signature without its hash type, and a digest of 32 bytes. */
struct triple {
    struct word key, signature, digest;
};

/* What is left of the lines. */
struct rest {
    const char *at, *end;
};

static bool is_digit(char digit) { return (digit >= '0' && digit <= '9') || (digit >= 'a' && digit <= 'f'); }

static unsigned value_of(char digit) { return (unsigned)(digit <= '9' ? digit - '0' : digit - 'a' + 10); }

static unsigned char byte_at(struct word word, size_t place) {
    return (unsigned char)(value_of(word.digits[2 * place]) << 4 | value_of(word.digits[2 * place + 1]));
}

static void copy(struct word word, size_t from, size_t length, unsigned char *bytes) {
    for (size_t n = 0; n < length; n++)
        bytes[n] = byte_at(word, from + n);
}

/* Reads a word, which is `-` for no bytes. */
static bool read_word(struct rest *rest, struct word *word) {
    const char *begins = rest->at;
    if (begins < rest->end && *begins == '-') {
        *word = (struct word){begins, 0};
        rest->at++;
        return true;
    }
    while (rest->at < rest->end && is_digit(*rest->at))
        rest->at++;
    *word = (struct word){begins, (size_t)(rest->at - begins) / 2};
    return rest->at > begins && (rest->at - begins) % 2 == 0;
}

static bool read_sign(struct rest *rest, char sign) {
    if (rest->at == rest->end || *rest->at != sign)
        return false;
    rest->at++;
    return true;
}

/* Whether a line is left. Empty ones are skipped. */
static bool has_line(struct rest *rest) {
    while (read_sign(rest, '\n'))
        ;
    return rest->at < rest->end;
}

static bool read_line(struct rest *rest, struct triple *triple) {
    return read_word(rest, &triple->key) && read_sign(rest, ' ') && read_word(rest, &triple->signature)
           && read_sign(rest, ' ') && read_word(rest, &triple->digest) && triple->digest.length == 32
           && (rest->at == rest->end || *rest->at == '\n');
}

static wakotehu_code look_at(struct rest rest, size_t count) {
    struct triple triple;
    size_t found = 0;
    for (; has_line(&rest); found++)
        if (!read_line(&rest, &triple))
            return WAKOTEHU_BAD_TABLE;
    return found == count ? WAKOTEHU_OK : WAKOTEHU_MISMATCH;
}

/* ---- signatures */

/* Reads the number at a place of a signature, as 32 bytes, and moves the place behind it. Its length may be spelled in
 * more bytes than it needs, and zeros may stand in front. */
static bool read_number(struct word word, size_t *place, unsigned char *number) {
    size_t at = *place, length;
    if (at >= word.length || word.length - at < 2 || byte_at(word, at) != 2)
        return false;
    length = byte_at(word, at + 1);
    at += 2;
    if (length & 128) {
        size_t wide = length & 127;
        if (wide > word.length - at)
            return false;
        /* A length above the signature's own is none, so it is never cut to the width of a size_t. */
        for (length = 0; wide > 0 && length <= word.length; wide--)
            length = length << 8 | byte_at(word, at++);
    }
    if (length > word.length - at)
        return false;
    *place = at + length;
    for (; length > 0 && byte_at(word, at) == 0; length--)
        at++;
    if (length > 32)
        return false;
    memset(number, 0, 32 - length);
    copy(word, at, length, number + 32 - length);
    return true;
}

/* The two numbers of a signature, read as leniently as Bitcoin Core does: neither the length of the whole nor what
 * stands behind the numbers means anything. */
static bool read_signature(struct word word, unsigned char *numbers) {
    size_t place;
    if (word.length < 2 || byte_at(word, 0) != 0x30)
        return false;
    place = 2 + (byte_at(word, 1) & 128 ? byte_at(word, 1) & 127 : 0);
    return read_number(word, &place, numbers) && read_number(word, &place, numbers + 32);
}

static bool is_valid(const struct triple *triple) {
    const secp256k1_context *context = secp256k1_context_static;
    unsigned char key[65], numbers[64], digest[32];
    secp256k1_pubkey parsed;
    secp256k1_ecdsa_signature signature;
    if (triple->key.length > sizeof key || !read_signature(triple->signature, numbers))
        return false;
    copy(triple->key, 0, triple->key.length, key);
    copy(triple->digest, 0, sizeof digest, digest);
    if (!secp256k1_ec_pubkey_parse(context, &parsed, key, triple->key.length)
        || !secp256k1_ecdsa_signature_parse_compact(context, &signature, numbers))
        return false;
    secp256k1_ecdsa_signature_normalize(context, &signature, &signature);
    return secp256k1_ecdsa_verify(context, &signature, digest, &parsed);
}

static void test_alone(struct rest rest, uint8_t *valid) {
    struct triple triple;
    while (has_line(&rest) && read_line(&rest, &triple))
        *valid++ = is_valid(&triple);
}

/* ---- threads */

/* Lines that several threads test: each takes the next one that none has taken. The last that leaves gives the round
 * back; only those that took a line read what the caller gave. */
struct round {
    pthread_mutex_t lock;
    pthread_cond_t done;
    size_t taken, tested, count, users;
    uint8_t *valid;
    struct triple triples[];
};

static struct round *round_of(struct rest rest, uint8_t *valid, size_t count) {
    struct round *round;
    if (count > (SIZE_MAX - sizeof *round) / sizeof *round->triples)
        return NULL;
    round = malloc(sizeof *round + count * sizeof *round->triples);
    if (!round)
        return NULL;
    round->taken = round->tested = 0;
    round->count = count;
    round->users = 1;
    round->valid = valid;
    for (size_t n = 0; n < count; n++)
        /* They were looked at, so this happens only where another thread writes into them. */
        if (!has_line(&rest) || !read_line(&rest, &round->triples[n])) {
            free(round);
            return NULL;
        }
    if (pthread_mutex_init(&round->lock, NULL) == 0) {
        if (pthread_cond_init(&round->done, NULL) == 0)
            return round;
        pthread_mutex_destroy(&round->lock);
    }
    free(round);
    return NULL;
}

/* Tests lines until none is left. The round is locked before and afterwards. */
static void test(struct round *round) {
    while (round->taken < round->count) {
        size_t place = round->taken++;
        pthread_mutex_unlock(&round->lock);
        bool verdict = is_valid(&round->triples[place]);
        pthread_mutex_lock(&round->lock);
        round->valid[place] = verdict;
        if (++round->tested == round->count)
            pthread_cond_signal(&round->done);
    }
}

/* Unlocks the round. */
static void leave(struct round *round) {
    bool last = --round->users == 0;
    pthread_mutex_unlock(&round->lock);
    if (!last)
        return;
    pthread_cond_destroy(&round->done);
    pthread_mutex_destroy(&round->lock);
    free(round);
}

static void *help(void *given) {
    struct round *round = given;
    pthread_mutex_lock(&round->lock);
    test(round);
    leave(round);
    return NULL;
}

/* Starts so many threads, or fewer where it can't. They let no signals in. */
static void start(struct round *round, size_t helpers) {
    pthread_attr_t detached;
    pthread_t started;
    sigset_t all, before;
    if (pthread_attr_init(&detached) != 0)
        return;
    sigfillset(&all);
    if (pthread_attr_setdetachstate(&detached, PTHREAD_CREATE_DETACHED) == 0
        && pthread_sigmask(SIG_SETMASK, &all, &before) == 0) {
        pthread_mutex_lock(&round->lock);
        round->users += helpers;
        pthread_mutex_unlock(&round->lock);
        while (helpers > 0 && pthread_create(&started, &detached, help, round) == 0)
            helpers--;
        pthread_mutex_lock(&round->lock);
        round->users -= helpers;
        pthread_mutex_unlock(&round->lock);
        pthread_sigmask(SIG_SETMASK, &before, NULL);
    }
    pthread_attr_destroy(&detached);
}

/* Tests lines by several threads; false where there is no memory for that. */
static bool test_together(struct rest rest, size_t threads, uint8_t *valid, size_t count) {
    struct round *round = round_of(rest, valid, count);
    if (!round)
        return false;
    start(round, threads - 1);
    pthread_mutex_lock(&round->lock);
    test(round);
    while (round->tested < round->count)
        pthread_cond_wait(&round->done, &round->lock);
    leave(round);
    return true;
}

wakotehu_code wakotehu_secp256k1_verdicts(const char *lines, size_t length, size_t threads, uint8_t *valid,
                                          size_t count) {
    struct rest rest = {lines, lines};
    if ((!lines && length > 0) || (!valid && count > 0) || length > PTRDIFF_MAX)
        return WAKOTEHU_NULL;
    if (length > 0)
        rest.end += length;
    wakotehu_code code = look_at(rest, count);
    if (code != WAKOTEHU_OK)
        return code;
    secp256k1_selftest();
    if (threads > count / FOR_EACH_THREAD)
        threads = count / FOR_EACH_THREAD;
    if (threads < 2 || !test_together(rest, threads, valid, count))
        test_alone(rest, valid);
    return WAKOTEHU_OK;
}
