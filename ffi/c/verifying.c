/*
 * Whether an input may spend a script with real signatures: the proved verdict by need, and libsecp256k1's word on each
 * signature that it asks for. Nothing proves this file.
 */
#include "wakotehu-secp256k1.h"

#include <stdbool.h>
#include <stdlib.h>
#include <string.h>

/* Lines of signatures on which the verdict is one. */
struct lines {
    char *text;
    size_t length;
};

static bool add(struct lines *known, const char *line, size_t length) {
    char *text = realloc(known->text, known->length + length);
    if (!text)
        return false;
    memcpy(text + known->length, line, length);
    *known = (struct lines){text, known->length + length};
    return true;
}

/* What is asked of an input: whether it may spend a script, or by bits why not. */
struct question {
    const uint8_t *bytes, *spent;
    size_t length, spent_length;
    uint64_t input;
    const wakotehu_flags *flags;
    uint32_t bits;
    bool names;
};

/* By what is known: lines of signatures that aren't valid, and of those that are. */
static wakotehu_code ask(const struct question *q, const struct lines known[2], uint32_t *told, char *line, size_t *needed) {
    return q->names ? wakotehu_verify_script(q->bytes, q->length, q->input, q->spent, q->spent_length, q->bits, known[1].text,
                                             known[1].length, known[0].text, known[0].length, NULL, told, line,
                                             WAKOTEHU_MOST_ASKED, needed)
                    : wakotehu_verify_known(q->bytes, q->length, q->input, q->spent, q->spent_length, q->flags, known[1].text,
                                            known[1].length, known[0].text, known[0].length, NULL, told, line,
                                            WAKOTEHU_MOST_ASKED, needed);
}

static wakotehu_code answer(const struct question *question, uint32_t *told) {
    struct lines known[2] = {{NULL, 0}, {NULL, 0}};
    char line[WAKOTEHU_MOST_ASKED];
    uint64_t needed;
    uint8_t valid;
    wakotehu_code code;
    do {
        code = ask(question, known, told, line, &needed);
        if (code != WAKOTEHU_UNKNOWN)
            break;
        code = wakotehu_secp256k1_verdicts(line, (size_t)needed, 1, &valid, 1);
        if (code == WAKOTEHU_OK && !add(&known[valid != 0], line, (size_t)needed))
            code = WAKOTEHU_MEMORY;
    } while (code == WAKOTEHU_OK);
    free(known[0].text);
    free(known[1].text);
    return code;
}

wakotehu_code wakotehu_secp256k1_verify(const uint8_t *bytes, size_t length, uint64_t input, const uint8_t *spent,
                                        size_t spent_length, const wakotehu_flags *flags, uint32_t *accepted) {
    return answer(&(struct question){bytes, spent, length, spent_length, input, flags, 0, false}, accepted);
}

wakotehu_code wakotehu_secp256k1_verify_script(const uint8_t *bytes, size_t length, uint64_t input, const uint8_t *spent,
                                               size_t spent_length, uint32_t flags, uint32_t *error) {
    return answer(&(struct question){bytes, spent, length, spent_length, input, NULL, flags, true}, error);
}
