/* What libsecp256k1 takes for triples, without Python: measure_need.py compiles this and asks it.
 *
 *     measure_need COUNT <LINES
 *
 * Each line has a key, a signature of two numbers of 32 bytes, and a digest, in hexadecimal. For each COUNT lines it
 * prints by the clock and of the processor how many microseconds one thread takes to read keys and signatures and to
 * test them, and how many are valid. */
#define _POSIX_C_SOURCE 199309L
#include <secp256k1.h>
#include <stdio.h>
#include <stdlib.h>
#include <time.h>

struct triple {
    unsigned char key[65], signature[64], digest[32];
    size_t length;
};

static size_t read_hex(const char *text, unsigned char *bytes, size_t most) {
    size_t length = 0;
    for (unsigned byte; length < most && sscanf(text + 2 * length, "%2x", &byte) == 1; length++)
        bytes[length] = (unsigned char)byte;
    return length;
}

static double now(clockid_t which) {
    struct timespec at;
    clock_gettime(which, &at);
    return 1e6 * (double)at.tv_sec + 1e-3 * (double)at.tv_nsec;
}

static int is_valid(const secp256k1_context *context, const struct triple *triple) {
    secp256k1_pubkey key;
    secp256k1_ecdsa_signature signature;
    if (!secp256k1_ec_pubkey_parse(context, &key, triple->key, triple->length)
        || !secp256k1_ecdsa_signature_parse_compact(context, &signature, triple->signature))
        return 0;
    secp256k1_ecdsa_signature_normalize(context, &signature, &signature);
    return secp256k1_ecdsa_verify(context, &signature, triple->digest, &key);
}

int main(int argc, char **argv) {
    size_t count = argc > 1 ? strtoul(argv[1], NULL, 10) : 20, filled = 0;
    struct triple *triples = calloc(count, sizeof *triples);
    secp256k1_context *context = secp256k1_context_create(SECP256K1_CONTEXT_VERIFY);
    char key[131], signature[129], digest[65];
    while (triples && context && scanf("%130s %128s %64s", key, signature, digest) == 3) {
        struct triple *next = &triples[filled++];
        next->length = read_hex(key, next->key, 65);
        if (read_hex(signature, next->signature, 64) != 64 || read_hex(digest, next->digest, 32) != 32)
            return 1;
        if (filled < count)
            continue;
        int valid = 0;
        double clock = now(CLOCK_MONOTONIC), spent = now(CLOCK_PROCESS_CPUTIME_ID);
        for (size_t n = 0; n < count; n++)
            valid += is_valid(context, &triples[n]);
        spent = now(CLOCK_PROCESS_CPUTIME_ID) - spent;
        printf("%.1f %.1f %d\n", now(CLOCK_MONOTONIC) - clock, spent, valid);
        fflush(stdout);
        filled = 0;
    }
    return 0;
}
