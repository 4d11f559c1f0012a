/* Which signatures are valid: the first payment's signature, spelled in many ways, by one thread and by several, with
 * memory and threads refused, at once and after a fork, and lines of random bytes. Linked with --wrap of malloc, free,
 * pthread_create, pthread_mutex_init, pthread_cond_init, pthread_attr_init, pthread_attr_setdetachstate and
 * pthread_sigmask. */
#define _POSIX_C_SOURCE 200809L
#include <pthread.h>
#include <signal.h>
#include <stdatomic.h>
#include <stdio.h>
#include <stdlib.h>
#include <string.h>
#include <sys/wait.h>
#include <time.h>
#include <unistd.h>
#include <wakotehu-secp256k1.h>

#define EXPECT(holds)                                                          \
    do {                                                                       \
        if (!(holds)) {                                                        \
            fprintf(stderr, "%s:%d: %s\n", __FILE__, __LINE__, #holds);        \
            exit(1);                                                           \
        }                                                                      \
    } while (0)

/* ---- what is refused: all calls of a kind after the first ones */

enum kind { NOTHING, MEMORY, THREAD, LOCK, CONDITION, ATTRIBUTES, DETACHED, MASK };
static enum kind refused = NOTHING;
static long allowed;
static atomic_long live, started, allocations;

static int is_refused(enum kind kind) { return kind == refused && allowed-- <= 0; }

void *__real_malloc(size_t size);
void __real_free(void *old);
int __real_pthread_create(pthread_t *made, const pthread_attr_t *how, void *(*run)(void *), void *given);
int __real_pthread_mutex_init(pthread_mutex_t *made, const pthread_mutexattr_t *how);
int __real_pthread_cond_init(pthread_cond_t *made, const pthread_condattr_t *how);
int __real_pthread_attr_init(pthread_attr_t *made);
int __real_pthread_attr_setdetachstate(pthread_attr_t *changed, int state);
int __real_pthread_sigmask(int how, const sigset_t *set, sigset_t *before);

void *__wrap_malloc(size_t size) {
    void *made = is_refused(MEMORY) ? NULL : __real_malloc(size);
    live += made != NULL;
    allocations++;
    return made;
}

void __wrap_free(void *old) {
    live -= old != NULL;
    __real_free(old);
}

int __wrap_pthread_create(pthread_t *made, const pthread_attr_t *how, void *(*run)(void *), void *given) {
    int code = is_refused(THREAD) ? 11 : __real_pthread_create(made, how, run, given);
    started += code == 0;
    return code;
}

int __wrap_pthread_mutex_init(pthread_mutex_t *made, const pthread_mutexattr_t *how) {
    return is_refused(LOCK) ? 12 : __real_pthread_mutex_init(made, how);
}

int __wrap_pthread_cond_init(pthread_cond_t *made, const pthread_condattr_t *how) {
    return is_refused(CONDITION) ? 12 : __real_pthread_cond_init(made, how);
}

int __wrap_pthread_attr_init(pthread_attr_t *made) {
    return is_refused(ATTRIBUTES) ? 12 : __real_pthread_attr_init(made);
}

int __wrap_pthread_attr_setdetachstate(pthread_attr_t *changed, int state) {
    return is_refused(DETACHED) ? 22 : __real_pthread_attr_setdetachstate(changed, state);
}

int __wrap_pthread_sigmask(int how, const sigset_t *set, sigset_t *before) {
    return is_refused(MASK) ? 22 : __real_pthread_sigmask(how, set, before);
}

/* ---- the signature of the transaction f4184fc5.. in block 170 */

#define X "11db93e1dcdb8a016b49840f8c53bc1eb68a382e97b1482ecad7b148a6909a5c"
#define Y "b2e0eaddfb84ccf9744464f82e160bfa9b8b64f9d4c03f999b8643f656b412a3"
#define R "4e45e16932b8af514961a1d3a1a25fdf3f4f7732e9d624c6c61548ab5fb8cd41"
#define S "181522ec8eca07de4860a4acdd12909d831cc56cbbac4622082221a8768d1d09"
#define DIGEST "7a05c6145f10101e9d6325494245adf1297d80f8f38d4d576d57cdba220bcb19"
/* The order of the curve, and the order less S. */
#define ORDER "fffffffffffffffffffffffffffffffebaaedce6af48a03bbfd25e8cd0364141"
#define HIGH "e7eadd137135f821b79f5b5322ed6f6137921779f39c5a19b7b03ce459a92438"
#define KEY "04" X Y
#define SIGNED "30440220" R "0220" S

static const struct row {
    const char *line;
    uint8_t valid;
} rows[] = {
    {KEY " " SIGNED " " DIGEST, 1},
    {KEY " " SIGNED " 8a05c6145f10101e9d6325494245adf1297d80f8f38d4d576d57cdba220bcb19", 0},
    {KEY " 30450220" R "022100" HIGH " " DIGEST, 1},
    {KEY " 30440220" R "0220" HIGH " " DIGEST, 1},
    /* Keys: compressed, of the other sign, hybrid, and none. */
    {"03" X " " SIGNED " " DIGEST, 1},
    {"02" X " " SIGNED " " DIGEST, 0},
    {"07" X Y " " SIGNED " " DIGEST, 1},
    {"06" X Y " " SIGNED " " DIGEST, 0},
    {"05" X Y " " SIGNED " " DIGEST, 0},
    {"04" X " " SIGNED " " DIGEST, 0},
    {"04" X X " " SIGNED " " DIGEST, 0},
    {KEY "00 " SIGNED " " DIGEST, 0},
    {"- " SIGNED " " DIGEST, 0},
    {"04 " SIGNED " " DIGEST, 0},
    /* The length of the whole isn't looked at, and may be spelled in more bytes; nor is what stands behind. */
    {KEY " 30000220" R "0220" S " " DIGEST, 1},
    {KEY " 307f0220" R "0220" S " " DIGEST, 1},
    {KEY " 30800220" R "0220" S " " DIGEST, 1},
    {KEY " 3081440220" R "0220" S " " DIGEST, 1},
    {KEY " 3083ffffff0220" R "0220" S " " DIGEST, 1},
    {KEY " " SIGNED "00 " DIGEST, 1},
    {KEY " " SIGNED SIGNED " " DIGEST, 1},
    {KEY " 30810220" R "0220" S " " DIGEST, 0},
    {KEY " 30ff0220" R "0220" S " " DIGEST, 0},
    /* Numbers with zeros in front, and lengths of more bytes. */
    {KEY " 3045022100" R "0220" S " " DIGEST, 1},
    {KEY " 304a0223000000" R "0223000000" S " " DIGEST, 1},
    {KEY " 3046028120" R "028120" S " " DIGEST, 1},
    {KEY " 304f0289000000000000000020" R "02820020" S " " DIGEST, 1},
    {KEY " 304f0289010000000000000020" R "0220" S " " DIGEST, 0},
    {KEY " 304e0288ffffffffffffffff" R "0220" S " " DIGEST, 0},
    {KEY " 304e02880100000000000020" R "0220" S " " DIGEST, 0},
    {KEY " 304602ff" R "0220" S " " DIGEST, 0},
    {KEY " 3045022101" R "0220" S " " DIGEST, 0},
    {KEY " 30440221" R "0220" S " " DIGEST, 0},
    {KEY " 30440220" R "0221" S " " DIGEST, 0},
    /* Numbers that are none, zero, or the order. */
    {KEY " 302402800220" S " " DIGEST, 0},
    {KEY " 302402000220" S " " DIGEST, 0},
    {KEY " 30250201000220" S " " DIGEST, 0},
    {KEY " 30240220" R "0200 " DIGEST, 0},
    {KEY " 30250220" R "020100 " DIGEST, 0},
    {KEY " 3045022100" ORDER "0220" S " " DIGEST, 0},
    {KEY " 30450220" R "022100" ORDER " " DIGEST, 0},
    /* Other tags, and less than a signature. */
    {KEY " 31440220" R "0220" S " " DIGEST, 0},
    {KEY " 30440320" R "0220" S " " DIGEST, 0},
    {KEY " 30440220" R "0320" S " " DIGEST, 0},
    {KEY " - " DIGEST, 0},
    {KEY " 30 " DIGEST, 0},
    {"- - " DIGEST, 0},
};

enum { ROWS = sizeof rows / sizeof *rows, LONGEST = 600 };

/* What is answered to lines that stand in memory of just so many bytes, which is given back at once: so the sanitizer
 * sees whoever reads behind them, or too late. */
static wakotehu_code asked(const char *text, size_t length, size_t threads, uint8_t *valid, size_t count) {
    char *lines = __real_malloc(length ? length : 1);
    EXPECT(lines);
    memcpy(lines, text, length);
    wakotehu_code code = wakotehu_secp256k1_verdicts(lines, length, threads, valid, count);
    __real_free(lines);
    return code;
}

/* So many of the lines in turn, from one on, and their verdicts. */
static size_t fill(char *text, uint8_t *verdicts, size_t count, size_t from) {
    size_t length = 0;
    for (size_t n = 0; n < count; n++) {
        const struct row *row = &rows[(from + n) % ROWS];
        text[length++] = '\n';
        memcpy(text + length, row->line, strlen(row->line));
        length += strlen(row->line);
        verdicts[n] = row->valid;
    }
    return length;
}

/* Whether the verdicts on so many lines are right. */
static int is_right(size_t count, size_t threads, size_t from) {
    char *text = __real_malloc(count * LONGEST + 1);
    uint8_t *right = __real_malloc(count + 1), *valid = __real_malloc(count + 1);
    EXPECT(text && right && valid);
    memset(valid, 7, count + 1);
    size_t length = fill(text, right, count, from);
    int good = asked(text, length, threads, valid, count) == WAKOTEHU_OK && memcmp(valid, right, count) == 0
               && valid[count] == 7;
    __real_free(text);
    __real_free(right);
    __real_free(valid);
    return good;
}

/* Threads that begin late give rounds back late. */
static void all_is_given_back(void) {
    for (int n = 0; live != 0 && n < 6000; n++)
        nanosleep(&(struct timespec){0, 10000000}, NULL);
    EXPECT(live == 0);
}

static void spellings(void) {
    uint8_t valid;
    for (size_t n = 0; n < ROWS; n++) {
        const char *line = rows[n].line;
        EXPECT(strlen(line) < LONGEST);
        valid = 7;
        EXPECT(asked(line, strlen(line), 1, &valid, 1) == WAKOTEHU_OK);
        if (valid != rows[n].valid)
            fprintf(stderr, "row %zu: %s\n", n, line);
        EXPECT(valid == rows[n].valid);
    }
    /* No front of a signature is one. */
    for (size_t cut = 1; cut < strlen(SIGNED) / 2; cut++) {
        char line[LONGEST];
        int length = snprintf(line, sizeof line, "%s %.*s %s\n", KEY, (int)(2 * cut), SIGNED, DIGEST);
        EXPECT(asked(line, (size_t)length, 1, &valid, 1) == WAKOTEHU_OK && valid == 0);
    }
}

static void threads(void) {
    for (size_t threads = 0; threads <= 9; threads++)
        for (size_t count = 0; count <= 60; count += count < 10 ? 1 : 25)
            EXPECT(is_right(count, threads, 7 * count));
    EXPECT(is_right(1000, 4, 0) && is_right(40, SIZE_MAX, 0));
    /* Lines, threads, and how many are started: for eight lines and more, one for each four. */
    static const size_t rounds[][3] = {
        {7, 4, 0}, {8, 4, 1}, {11, 4, 1}, {12, 2, 1}, {12, 9, 2}, {40, 1, 0}, {40, 4, 3},
    };
    for (size_t n = 0; n < sizeof rounds / sizeof *rounds; n++) {
        long before = started;
        EXPECT(is_right(rounds[n][0], rounds[n][1], 0) && started - before == (long)rounds[n][2]);
    }
}

/* Whatever is refused, the others do its work. Of locks and the like one is asked for, of masks two: the one before is
 * put back. */
static void refusals(void) {
    for (enum kind kind = MEMORY; kind <= DETACHED; kind++)
        for (long n = 0; n < 4; n++) {
            long before = started, asked_for = allocations;
            allowed = n;
            refused = kind;
            EXPECT(is_right(40, 4, (size_t)n));
            refused = NOTHING;
            EXPECT(allocations - asked_for == 1);
            EXPECT(started - before == (kind == THREAD ? n : n == 0 ? 0 : 3));
        }
    long before = started;
    allowed = 0;
    refused = MASK;
    EXPECT(is_right(40, 4, 0) && started == before);
    refused = NOTHING;
    sigset_t now;
    EXPECT(is_right(40, 4, 0) && pthread_sigmask(SIG_SETMASK, NULL, &now) == 0 && !sigismember(&now, SIGINT));
}

static void bad_lines(void) {
    uint8_t valid[2] = {7, 7};
    static const char *const bad[] = {
        "x", " ", "-", "- -", "- - ", "- - -", "- - 00", "- - " DIGEST "0", "- - " DIGEST "00", "- - " DIGEST " ",
        "- - " DIGEST "\r", " - - " DIGEST, "-  - " DIGEST, "-- - " DIGEST, "0 - " DIGEST, "- 0 " DIGEST,
        "0- - " DIGEST, "-\t- " DIGEST, "- A0 " DIGEST, "- 0g " DIGEST, "#", "- - " DIGEST "#", "- - " DIGEST "\n-",
    };
    for (size_t n = 0; n < sizeof bad / sizeof *bad; n++)
        EXPECT(asked(bad[n], strlen(bad[n]), 1, valid, 1) == WAKOTEHU_BAD_TABLE && valid[0] == 7);
    EXPECT(asked("- - " DIGEST, strlen("- - " DIGEST) + 1, 1, valid, 1) == WAKOTEHU_BAD_TABLE);
    const char *line = rows[0].line;
    for (size_t cut = 1; cut < strlen(line); cut++)
        EXPECT(asked(line, cut, 1, valid, 1) == WAKOTEHU_BAD_TABLE && valid[0] == 7);
    EXPECT(asked(line, strlen(line), 1, valid, 0) == WAKOTEHU_MISMATCH);
    EXPECT(asked(line, strlen(line), 1, valid, 2) == WAKOTEHU_MISMATCH && valid[0] == 7);
    EXPECT(asked("", 0, 1, valid, 1) == WAKOTEHU_MISMATCH);
    EXPECT(wakotehu_secp256k1_verdicts(NULL, 0, 4, NULL, 0) == WAKOTEHU_OK);
    EXPECT(wakotehu_secp256k1_verdicts(NULL, 1, 4, valid, 0) == WAKOTEHU_NULL);
    EXPECT(wakotehu_secp256k1_verdicts(line, strlen(line), 4, NULL, 1) == WAKOTEHU_NULL);
    EXPECT(wakotehu_secp256k1_verdicts(line, SIZE_MAX, 4, valid, 1) == WAKOTEHU_NULL);
    /* Empty lines are none. */
    const char *two = "\n\n- - " DIGEST "\n\n- - " DIGEST "\n\n";
    EXPECT(asked(two, strlen(two), 1, valid, 2) == WAKOTEHU_OK && valid[0] == 0 && valid[1] == 0);
}

/* Digits changed, and sometimes any bytes: one thread and several say the same. */
static void random_lines(void) {
    uint8_t one[20], all[20];
    int read = 0, valid = 0;
    srand(3);
    for (int n = 0; n < 1000; n++) {
        static char text[20 * LONGEST];
        size_t length = fill(text, one, 20, (size_t)rand());
        for (int changes = rand() % 12; changes > 0; changes--) {
            size_t at = (size_t)rand() % length;
            if (n % 10 == 0)
                text[at] = (char)rand();
            else if (text[at] && strchr("0123456789abcdef", text[at]))
                text[at] = "0123456789abcdef"[rand() % 16];
        }
        wakotehu_code code = asked(text, length, 1, one, 20);
        EXPECT(asked(text, length, 5, all, 20) == code);
        EXPECT(code != WAKOTEHU_OK || memcmp(one, all, 20) == 0);
        read += code == WAKOTEHU_OK;
        for (int place = 0; code == WAKOTEHU_OK && place < 20; place++)
            valid += one[place];
    }
    EXPECT(read > 800 && read < 1000 && valid > 1000);
}

static void *many(void *given) {
    for (size_t n = 0; n < 20; n++)
        EXPECT(is_right(30, 4, n));
    return given;
}

static void at_once(void) {
    pthread_t callers[4];
    for (int n = 0; n < 4; n++)
        EXPECT(__real_pthread_create(&callers[n], NULL, many, NULL) == 0);
    for (int n = 0; n < 4; n++)
        EXPECT(pthread_join(callers[n], NULL) == 0);
}

static void after_a_fork(void) {
    int status = 1;
    EXPECT(is_right(40, 4, 0));
    pid_t child = fork();
    if (child == 0)
        _exit(is_right(40, 4, 0) && is_right(40, 4, 0) ? 0 : 1);
    EXPECT(child > 0 && waitpid(child, &status, 0) == child && status == 0);
    EXPECT(is_right(40, 4, 0));
}

int main(void) {
    spellings();
    threads();
    all_is_given_back();
    refusals();
    all_is_given_back();
    bad_lines();
    random_lines();
    at_once();
    after_a_fork();
    all_is_given_back();
    return 0;
}
