/* Judges inputs of one transaction again and again, which bench/boundary counts the instructions of:
 *
 *     boundary KIND INPUTS learn 0 >LINES        finds the lines of signatures that each input asks for
 *     boundary KIND INPUTS WAY TIMES <LINES
 *
 * KIND is what each input spends: `adds` (2 ADD 4 NUMEQUAL), `key-hash`, or `two-of-three` by its first key and its last. WAY
 * is `known` (so many calls of wakotehu_tx_verify_input_known, by verdicts that were learnt before), `own` (of
 * wakotehu_tx_verify_input, with the input's own lines), `whole` (with those of all inputs), `all` (of wakotehu_tx_verify), and
 * `rattle` and `rattle-all`, which are one by one and all at once in Rattle alone. Prints
 * how many inputs were accepted in all. */
#include <stdio.h>
#include <stdlib.h>
#include <string.h>
#include <wakotehu.h>

enum { KEY = 33, SIGNATURE = 70, FLAGS = 1 | 4 | 512 | 1024 };
static const uint8_t adds[] = {0x52, 0x93, 0x54, 0x9c};

struct text {
    uint8_t *at;
    size_t length, room;
};

struct bytes {
    const void *at;
    size_t length;
};

/* As AllQuestion of crates/ffi. */
struct question {
    struct bytes scripts, sizes, valid, invalid;
    uint32_t flags;
};

uint64_t ffi_boundary(const uint8_t *bytes, size_t length, const struct question *question, uint64_t times, uint32_t alone);

/* What each input spends, and its own lines of both tables, as places in the text of all. */
struct spent {
    size_t script, from[2], to[2];
};

static size_t inputs;
static int is_adds, is_multisig;
static struct text tx, scripts, tables[2];
static struct spent *spent;
static uint64_t *sizes;
static wakotehu_tx handle;

static void require(int holds, const char *what) {
    if (holds)
        return;
    fprintf(stderr, "boundary: %s\n", what);
    exit(1);
}

static void add(struct text *to, const void *bytes, size_t length) {
    while (to->length + length > to->room) {
        to->at = realloc(to->at, to->room = 2 * to->room + length);
        require(to->at != NULL, "out of memory");
    }
    memcpy(to->at + to->length, bytes, length);
    to->length += length;
}

static void add_byte(struct text *to, uint8_t byte) { add(to, &byte, 1); }

/* Bytes of an input's key or signature; a signature is valid where its last byte is the key's. */
static void add_key(struct text *to, size_t input, uint8_t mark) {
    uint8_t key[KEY] = {2, (uint8_t)input, (uint8_t)(input >> 8)};
    key[KEY - 1] = mark;
    add_byte(to, KEY), add(to, key, KEY);
}

static void add_signature(struct text *to, size_t input, uint8_t mark) {
    uint8_t signature[SIGNATURE + 1] = {0x30, 68, 2, 32, 1, (uint8_t)input, (uint8_t)(input >> 8)};
    signature[36] = 2, signature[37] = 32, signature[38] = 1;
    signature[SIGNATURE - 1] = mark, signature[SIGNATURE] = 1;
    add_byte(to, sizeof signature), add(to, signature, sizeof signature);
}

static void add_own_script(struct text *to, size_t input) {
    struct text own = {0};
    if (is_adds)
        add_byte(&own, 0x52);
    else if (is_multisig)
        add_byte(&own, 0), add_signature(&own, input, 1), add_signature(&own, input, 3);
    else
        add_signature(&own, input, 1), add_key(&own, input, 1);
    add_byte(to, (uint8_t)own.length), add(to, own.at, own.length);
    free(own.at);
}

static void add_spent(size_t input) {
    struct text key = {0};
    uint8_t hash[20];
    spent[input].script = scripts.length;
    if (is_adds)
        add(&scripts, adds, sizeof adds);
    else if (is_multisig) {
        add_byte(&scripts, 0x52);
        for (uint8_t mark = 1; mark <= 3; mark++)
            add_key(&scripts, input, mark);
        add(&scripts, "\x53\xae", 2);
    } else {
        add_key(&key, input, 1);
        wakotehu_hash160(key.at + 1, KEY, hash);
        add(&scripts, "\x76\xa9\x14", 3), add(&scripts, hash, 20), add(&scripts, "\x88\xac", 2);
        free(key.at);
    }
    sizes[input] = scripts.length - spent[input].script;
}

static void make_transaction(void) {
    static const uint8_t zeros[32];
    add(&tx, "\x01\0\0\0\xfd", 5), add_byte(&tx, (uint8_t)inputs), add_byte(&tx, (uint8_t)(inputs >> 8));
    if (inputs < 253) /* a count of one byte */
        tx.length = 4, add_byte(&tx, (uint8_t)inputs);
    for (size_t n = 0; n < inputs; n++) {
        add(&tx, zeros, 31), add_byte(&tx, 7);
        add_byte(&tx, (uint8_t)n), add_byte(&tx, (uint8_t)(n >> 8)), add(&tx, zeros, 2);
        add_own_script(&tx, n), add(&tx, "\xff\xff\xff\xff", 4);
        add_spent(n);
    }
    add(&tx, "\x02", 1);
    for (int n = 0; n < 2; n++)
        add(&tx, "\x01\0\0\0\0\0\0\0\x19\x76\xa9\x14", 12), add(&tx, zeros, 20), add(&tx, "\x88\xac", 2);
    add(&tx, zeros, 4);
}

/* Judges an input by its own lines or by all; `asked` is the line that is wanted. */
static wakotehu_code judge(size_t input, int whole, char *asked, uint64_t *needed) {
    const struct spent *own = &spent[input];
    const char *at[2];
    size_t length[2];
    for (int valid = 0; valid < 2; valid++) {
        at[valid] = (char *)tables[valid].at + (whole ? 0 : own->from[valid]);
        length[valid] = whole ? tables[valid].length : own->to[valid] - own->from[valid];
    }
    uint32_t error = 99;
    wakotehu_code code =
        wakotehu_tx_verify_input(handle, input, scripts.at + own->script, sizes[input], FLAGS, at[1], length[1], at[0],
                                 length[0], NULL, &error, asked, asked ? 1024 : 0, needed);
    require(code == WAKOTEHU_UNKNOWN || (code == WAKOTEHU_OK && error == WAKOTEHU_SCRIPT_OK), "an input isn't accepted");
    return code;
}

/* Finds the lines that an input asks for, and prints them, each behind the number of its table; "." ends them. */
static void learn(size_t input) {
    struct spent *own = &spent[input];
    char asked[1024];
    for (;;) {
        uint64_t needed = 0;
        if (judge(input, 0, asked, &needed) == WAKOTEHU_OK)
            break;
        require(needed < sizeof asked, "a line is too long");
        asked[needed] = 0;
        const char *first = strchr(asked, ' '), *second = first ? strchr(first + 1, ' ') : NULL;
        require(second != NULL, "a line has no three words");
        int valid = memcmp(first - 2, second - 2, 2) == 0;
        add(&tables[valid], asked, needed);
        own->to[valid] = tables[valid].length;
        printf("%d%s\n", valid, asked + 1);
    }
    puts(".");
}

static void read_lines(struct spent *own) {
    char line[1024];
    while (fgets(line, sizeof line, stdin) && line[0] != '.') {
        add(&tables[line[0] == '1'], line + 1, strlen(line + 1));
        own->to[line[0] == '1'] = tables[line[0] == '1'].length;
    }
}

static void prepare(int learns) {
    spent = calloc(inputs, sizeof *spent), sizes = calloc(inputs, sizeof *sizes);
    require(spent && sizes, "out of memory");
    for (int valid = 0; valid < 2; valid++)
        add(&tables[valid], "\n", 1); /* so that both have an address */
    make_transaction();
    require(wakotehu_tx_read(tx.at, tx.length, NULL, &handle) == WAKOTEHU_OK, "the transaction isn't read");
    for (size_t n = 0; n < inputs; n++) {
        for (int valid = 0; valid < 2; valid++)
            spent[n].from[valid] = spent[n].to[valid] = tables[valid].length;
        if (learns)
            learn(n);
        else
            read_lines(&spent[n]);
    }
}

static uint64_t at_once(void) {
    uint64_t input = 99, needed = 0;
    uint32_t error = 99;
    wakotehu_code code = wakotehu_tx_verify(handle, scripts.at, scripts.length, sizes, inputs, FLAGS, (char *)tables[1].at,
                                            tables[1].length, (char *)tables[0].at, tables[0].length, NULL, &input, &error,
                                            NULL, 0, &needed);
    require(code == WAKOTEHU_OK && error == WAKOTEHU_SCRIPT_OK, "an input isn't accepted");
    return inputs;
}

static uint64_t one(size_t input, int whole) {
    uint64_t needed = 0;
    require(judge(input, whole, NULL, &needed) == WAKOTEHU_OK, "a signature is unknown");
    return 1;
}

static size_t read_word(const char **at, uint8_t *bytes) {
    size_t length = 0;
    for (unsigned byte; sscanf(*at, "%2x", &byte) == 1 && **at > ' '; *at += 2)
        bytes[length++] = (uint8_t)byte;
    *at += **at == ' ' || **at == '\n';
    return length;
}

/* A set of coins that has learnt the verdicts of both tables. */
static wakotehu_utxo learnt(void) {
    wakotehu_utxo known = 0;
    require(wakotehu_utxo_open(&known) == WAKOTEHU_OK, "no set");
    for (int valid = 0; valid < 2; valid++) {
        add(&tables[valid], "", 1);
        for (const char *at = (const char *)tables[valid].at + 1; *at;) {
            uint8_t key[KEY], signature[SIGNATURE + 4], digest[32];
            size_t key_length = read_word(&at, key), length = read_word(&at, signature);
            require(read_word(&at, digest) == sizeof digest, "a line has no digest");
            require(wakotehu_utxo_learn(known, key, key_length, signature, length, digest, valid) == WAKOTEHU_OK, "not learnt");
        }
    }
    return known;
}

static uint64_t by_learnt(uint64_t times) {
    wakotehu_utxo known = learnt();
    for (uint64_t n = 0; n < times; n++) {
        size_t input = n % inputs;
        uint64_t needed = 0;
        uint32_t error = 99;
        wakotehu_code code = wakotehu_tx_verify_input_known(handle, known, input, scripts.at + spent[input].script, sizes[input],
                                                            FLAGS, &error, NULL, 0, &needed);
        require(code == WAKOTEHU_OK && error == WAKOTEHU_SCRIPT_OK, "an input isn't accepted");
    }
    return times;
}

static uint64_t accepted(const char *way, uint64_t times) {
    const struct question all = {{scripts.at, scripts.length}, {sizes, inputs}, {tables[1].at, tables[1].length},
                                 {tables[0].at, tables[0].length}, FLAGS};
    if (!strncmp(way, "rattle", 6))
        return ffi_boundary(tx.at, tx.length, &all, times, way[6] == 0);
    if (!strcmp(way, "known"))
        return by_learnt(times);
    uint64_t count = 0;
    for (uint64_t n = 0; n < times; n++)
        count += !strcmp(way, "all") ? at_once() : one(n % inputs, !strcmp(way, "whole"));
    return count;
}

int main(int count, char **words) {
    require(count == 5, "usage: boundary KIND INPUTS WAY TIMES");
    is_adds = !strcmp(words[1], "adds"), is_multisig = !strcmp(words[1], "two-of-three");
    require(is_adds || is_multisig || !strcmp(words[1], "key-hash"), "an unknown kind");
    inputs = strtoul(words[2], NULL, 10);
    require(inputs > 0 && inputs < 65536, "1 to 65535 inputs");
    int learns = !strcmp(words[3], "learn");
    prepare(learns);
    if (!learns)
        printf("%llu\n", (unsigned long long)accepted(words[3], strtoul(words[4], NULL, 10)));
    return 0;
}
