/* Whether inputs may spend, with real signatures: the first payment, and scripts that ask for it and for others, with
 * each allocation refused in turn, nulls and hostile lengths. Linked with --wrap=malloc,--wrap=calloc,--wrap=realloc,
 * --wrap=free. Prints nothing where all is well. */
#include <stdio.h>
#include <stdlib.h>
#include <string.h>
#include <wakotehu-secp256k1.h>

static long left = -1; /* so many allocations until one is refused; below 0: none is */
static long asked;     /* so many were asked for */
static long live;      /* so many pieces of memory are in use */

void *__real_malloc(size_t size);
void *__real_calloc(size_t count, size_t size);
void *__real_realloc(void *old, size_t size);
void __real_free(void *old);

static int is_refused(void) {
    asked++;
    return left >= 0 && left-- == 0;
}

static void *counted(void *made) {
    live += made != NULL;
    return made;
}

void *__wrap_malloc(size_t size) { return is_refused() ? NULL : counted(__real_malloc(size)); }

void *__wrap_calloc(size_t count, size_t size) { return is_refused() ? NULL : counted(__real_calloc(count, size)); }

void *__wrap_realloc(void *old, size_t size) {
    if (is_refused())
        return NULL;
    return old ? __real_realloc(old, size) : counted(__real_realloc(old, size));
}

void __wrap_free(void *old) {
    live -= old != NULL;
    __real_free(old);
}

#define EXPECT(holds)                                                          \
    do {                                                                       \
        if (!(holds)) {                                                        \
            fprintf(stderr, "%s:%d: %s\n", __FILE__, __LINE__, #holds);        \
            exit(1);                                                           \
        }                                                                      \
    } while (0)

/* The transaction f4184fc5.. in block 170, and the script of the coin that it spends. */
#define SIGNED                                                                                                         \
    "304402204e45e16932b8af514961a1d3a1a25fdf3f4f7732e9d624c6c61548ab5fb8cd410220181522ec8eca07de4860a4acdd12909d831c" \
    "c56cbbac4622082221a8768d1d0901"
#define KEY                                                                                                            \
    "0411db93e1dcdb8a016b49840f8c53bc1eb68a382e97b1482ecad7b148a6909a5cb2e0eaddfb84ccf9744464f82e160bfa9b8b64f9d4c03f" \
    "999b8643f656b412a3"
#define FRONT "0100000001c997a5e56e104102fa209c6a852dd90660a20b2d9c352423edce25857fcd370400000000"
#define BACK                                                                                                           \
    "ffffffff0200ca9a3b00000000434104ae1a62fe09c5f51b13905f07f06b99a2f7159b2225f374cd378d71302fa28414e7aab37397f554a7" \
    "df5f142c21c1b7303b8a0626f1baded5c72a704f7e6cd84cac00286bee0000000043410411db93e1dcdb8a016b49840f8c53bc1eb68a382e" \
    "97b1482ecad7b148a6909a5cb2e0eaddfb84ccf9744464f82e160bfa9b8b64f9d4c03f999b8643f656b412a3ac00000000"
#define PAYMENT FRONT "4847" SIGNED BACK
#define SPENT "41" KEY "ac"
/* The key of the secret 1. */
#define OTHER "02" "79be667ef9dcbbac55a06295ce870b07029bfcdb2dce28d959f2815b16f81798"

static const wakotehu_flags all = {1, 1, 1}, none = {0, 0, 0};

struct bytes {
    uint8_t *at;
    size_t length;
};

/* In memory of just so many bytes, so that the sanitizer sees a read behind its end. */
static struct bytes decoded(const char *text) {
    struct bytes made = {NULL, strlen(text) / 2};
    made.at = __real_malloc(made.length ? made.length : 1);
    EXPECT(made.at);
    for (size_t n = 0; n < made.length; n++) {
        unsigned byte;
        EXPECT(sscanf(text + 2 * n, "%2x", &byte) == 1);
        made.at[n] = (uint8_t)byte;
    }
    return made;
}

/* The verdict, 0 or 1; each allocation is refused first, which is told and leaves nothing behind. */
static uint32_t verdict(const char *payment, const char *spent, const wakotehu_flags *flags, long *allocations) {
    struct bytes tx = decoded(payment), script = decoded(spent);
    uint32_t accepted = 7;
    for (*allocations = 0;; ++*allocations) {
        left = *allocations;
        asked = 0;
        wakotehu_code code = wakotehu_secp256k1_verify(tx.at, tx.length, 0, script.at, script.length, flags, &accepted);
        EXPECT(live == 0);
        if (code == WAKOTEHU_OK)
            break;
        EXPECT(code == WAKOTEHU_MEMORY && accepted == 7 && left == -1);
    }
    EXPECT(asked == *allocations && accepted < 2);
    left = -1;
    __real_free(tx.at);
    __real_free(script.at);
    return accepted;
}

static void verdicts(void) {
    static const struct row {
        const char *payment, *spent;
        uint32_t accepted;
    } rows[] = {
        {PAYMENT, SPENT, 1},
        /* Another key, other outputs, no signature, and another key that must not fit. */
        {PAYMENT, "21" OTHER "ac", 0},
        {FRONT "4847" SIGNED "ffffffff" "01" "0000000000000000" "00" "00000000", SPENT, 0},
        {FRONT "0100" BACK, SPENT, 0},
        {PAYMENT, "21" OTHER "ac91", 1},
        /* Three keys are asked about. The digest is of another code, so none fits. */
        {PAYMENT, "76" "41" KEY "ac75" "76" "21" OTHER "ac75" "41" KEY "ac91", 1},
        {PAYMENT, "76" "41" KEY "ac75" "76" "21" OTHER "ac75" "41" KEY "ac", 0},
        /* No signature is asked for. */
        {PAYMENT, "51", 1},
        {PAYMENT, "00", 0},
        /* The code begins behind the separator, so the signature signs what follows it. */
        {PAYMENT, "76a97551ab7541" KEY "ac", 0},
        {PAYMENT, "61ab41" KEY "ac", 1},
    };
    long allocations, fewest = 1000, most = 0;
    for (size_t n = 0; n < sizeof rows / sizeof *rows; n++) {
        uint32_t found = verdict(rows[n].payment, rows[n].spent, &all, &allocations);
        if (found != rows[n].accepted)
            fprintf(stderr, "row %zu\n", n);
        EXPECT(found == rows[n].accepted);
        fewest = allocations < fewest ? allocations : fewest;
        most = allocations > most ? allocations : most;
    }
    /* What was found out is kept by allocations of its own. */
    EXPECT(most >= fewest + 3);
}

/* The name of a failure; 99 where there is no memory, and nothing is left behind. */
static uint32_t failure(const char *payment, const char *spent, uint32_t flags) {
    struct bytes tx = decoded(payment), script = decoded(spent);
    uint32_t error = 99;
    wakotehu_code code = wakotehu_secp256k1_verify_script(tx.at, tx.length, 0, script.at, script.length, flags, &error);
    EXPECT(live == 0 && code == (left < 0 && error == 99 ? WAKOTEHU_MEMORY : WAKOTEHU_OK));
    __real_free(tx.at);
    __real_free(script.at);
    return error;
}

/* By Bitcoin Core's names. */
static void failures(void) {
    /* The hash of the script 6a, OP_RETURN, is OpenSSL's. */
    static const char hashed[] = "a914" "41c98a140039816273e50db317422c11c2bfcc88" "87";
    static const struct row {
        const char *payment, *spent;
        uint32_t flags, error;
    } rows[] = {
        {PAYMENT, SPENT, 5, WAKOTEHU_SCRIPT_OK},
        {PAYMENT, "21" OTHER "ac", 5, WAKOTEHU_SCRIPT_EVAL_FALSE},
        {PAYMENT, "21" OTHER "ad51", 5, WAKOTEHU_SCRIPT_CHECKSIGVERIFY},
        {PAYMENT, "76" "41" KEY "ac69" "ac", 5, WAKOTEHU_SCRIPT_VERIFY},
        {PAYMENT, "00", 5, WAKOTEHU_SCRIPT_EVAL_FALSE},
        {PAYMENT, "6a", 5, WAKOTEHU_SCRIPT_OP_RETURN},
        {FRONT "020130" BACK, SPENT, 5, WAKOTEHU_SCRIPT_SIG_DER},
        {FRONT "020130" BACK, SPENT, 1, WAKOTEHU_SCRIPT_EVAL_FALSE},
        {FRONT "02016a" BACK, hashed, 1, WAKOTEHU_SCRIPT_OP_RETURN},
        {FRONT "02016a" BACK, hashed, 4, WAKOTEHU_SCRIPT_OK},
    };
    for (size_t n = 0; n < sizeof rows / sizeof *rows; n++) {
        uint32_t found = 99;
        for (long allowed = 0; found == 99; allowed++)
            left = allowed, found = failure(rows[n].payment, rows[n].spent, rows[n].flags);
        left = -1;
        if (found != rows[n].error)
            fprintf(stderr, "row %zu: %u\n", n, found);
        EXPECT(found == rows[n].error);
    }
}

/* One signature by sixty keys, each asked for once; some of them are on the curve. */
static void many(void) {
    static char spent[60 * 74 + 3];
    size_t at = 0;
    uint32_t accepted = 7;
    for (int n = 0; n < 60; n++)
        at += (size_t)sprintf(spent + at, "76" "21" "02%064x" "ac75", n + 1);
    sprintf(spent + at, "51");
    struct bytes tx = decoded(PAYMENT), script = decoded(spent);
    EXPECT(wakotehu_secp256k1_verify(tx.at, tx.length, 0, script.at, script.length, &all, &accepted) == WAKOTEHU_OK);
    EXPECT(accepted == 1 && live == 0);
    __real_free(tx.at);
    __real_free(script.at);
}

static void refusals(void) {
    struct bytes tx = decoded(PAYMENT), script = decoded(SPENT);
    uint32_t accepted = 7;
    EXPECT(wakotehu_secp256k1_verify(NULL, 1, 0, script.at, script.length, &all, &accepted) == WAKOTEHU_NULL);
    EXPECT(wakotehu_secp256k1_verify(tx.at, tx.length, 0, NULL, 1, &all, &accepted) == WAKOTEHU_NULL);
    EXPECT(wakotehu_secp256k1_verify(tx.at, tx.length, 0, script.at, script.length, NULL, &accepted) == WAKOTEHU_NULL);
    EXPECT(wakotehu_secp256k1_verify(tx.at, tx.length, 0, script.at, script.length, &all, NULL) == WAKOTEHU_NULL);
    EXPECT(wakotehu_secp256k1_verify(tx.at, SIZE_MAX, 0, script.at, script.length, &all, &accepted) == WAKOTEHU_NULL);
    EXPECT(wakotehu_secp256k1_verify(tx.at, tx.length, 0, script.at, SIZE_MAX, &all, &accepted) == WAKOTEHU_NULL);
    for (size_t cut = 0; cut < tx.length; cut++)
        EXPECT(wakotehu_secp256k1_verify(tx.at, cut, 0, script.at, script.length, &all, &accepted) == WAKOTEHU_SHORT);
    for (uint64_t input = 1; input != 0; input <<= 1)
        EXPECT(wakotehu_secp256k1_verify(tx.at, tx.length, input, script.at, script.length, &all, &accepted)
               == WAKOTEHU_NO_INPUT);
    EXPECT(accepted == 7 && live == 0);
    uint32_t error = 7;
    EXPECT(wakotehu_secp256k1_verify_script(NULL, 1, 0, script.at, script.length, 5, &error) == WAKOTEHU_NULL);
    EXPECT(wakotehu_secp256k1_verify_script(tx.at, tx.length, 0, NULL, 1, 5, &error) == WAKOTEHU_NULL);
    EXPECT(wakotehu_secp256k1_verify_script(tx.at, tx.length, 0, script.at, script.length, 5, NULL) == WAKOTEHU_NULL);
    EXPECT(wakotehu_secp256k1_verify_script(tx.at, 9, 0, script.at, script.length, 5, &error) == WAKOTEHU_SHORT);
    EXPECT(wakotehu_secp256k1_verify_script(tx.at, tx.length, 1, script.at, script.length, 5, &error) == WAKOTEHU_NO_INPUT);
    EXPECT(error == 7 && live == 0);
    /* Nothing is a script too. The element that the input pushed is true. */
    EXPECT(wakotehu_secp256k1_verify(tx.at, tx.length, 0, NULL, 0, &none, &accepted) == WAKOTEHU_OK && accepted == 1);
    __real_free(tx.at);
    __real_free(script.at);
}

int main(void) {
    verdicts();
    failures();
    many();
    refusals();
    return 0;
}
