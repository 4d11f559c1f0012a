/* Whether an input of a transaction may spend a script: verify TRANSACTION INPUT SCRIPT, in hexadecimal but for the
 * number; without arguments an example that is accepted. */
#include "wakotehu.h"

#include <stdio.h>
#include <stdlib.h>
#include <string.h>

static size_t decode(const char *text, uint8_t *bytes, size_t most) {
    size_t length = strlen(text) / 2;
    for (size_t n = 0; n < length && n < most; n++)
        if (sscanf(text + 2 * n, "%2hhx", &bytes[n]) != 1)
            return 0;
    return length < most ? length : most;
}

int main(int count, char **words) {
    static uint8_t transaction[100000], script[10000];
    const char *example = "0100000001070707070707070707070707070707070707070707070707070707070707070700000000025152000000"
                          "000101000000000000000000000000";
    const char *text = count > 3 ? words[1] : example;
    size_t length = decode(text, transaction, sizeof transaction);
    size_t spent = decode(count > 3 ? words[3] : "93539c", script, sizeof script);
    wakotehu_flags flags = {1, 1, 1};
    uint32_t accepted = 0;
    wakotehu_code code = wakotehu_verify(transaction, length, count > 3 ? strtoull(words[2], NULL, 10) : 0, script, spent,
                                         &flags, NULL, 0, NULL, &accepted);
    if (code != WAKOTEHU_OK) {
        fprintf(stderr, "%s\n", wakotehu_code_text(code));
        return 2;
    }
    puts(accepted ? "accepted" : "refused");
    return 0;
}
