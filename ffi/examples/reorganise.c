/* Opens a chainstate, submits three blocks, of which the third makes another branch the best, and reads what is left.
 *
 *     cc reorganise.c $(pkg-config --cflags --libs wakotehu) -o reorganise
 */
#include <stdio.h>
#include <wakotehu.h>

#include "blocks.h"

static void submit(wakotehu_handle chain, const char *name, const uint8_t *block, size_t length) {
    wakotehu_answer answer;
    wakotehu_code code = wakotehu_submit(chain, block, length, 1296690000, &answer);
    printf("%s: %s %s\n", name, code ? wakotehu_code_text(code) : wakotehu_reply_text(answer.reply),
           code ? "" : wakotehu_reason_text(answer.reason));
}

static void coin(wakotehu_handle chain, const char *name, const uint8_t *id) {
    wakotehu_coin coin;
    uint8_t script[64];
    wakotehu_code code = wakotehu_coin_at(chain, id, 0, &coin, script, sizeof script);
    if (code == WAKOTEHU_OK)
        printf("%s: %lld satoshis, of height %u\n", name, (long long)coin.value, (unsigned)coin.height);
    else
        printf("%s: %s\n", name, wakotehu_code_text(code));
}

int main(void) {
    wakotehu_heights regtest = {1, 1, 1, 1};
    wakotehu_handle chain;
    uint64_t height;
    if (wakotehu_open(&chain, &regtest, NULL, 0, NULL) != WAKOTEHU_OK)
        return 1;
    submit(chain, "b1", b1, sizeof b1);
    coin(chain, "the coin of b1", b1_coinbase);
    submit(chain, "c1", c1, sizeof c1);
    submit(chain, "c2", c2, sizeof c2);
    coin(chain, "the coin of b1", b1_coinbase);
    coin(chain, "the coin of c1", c1_coinbase);
    if (wakotehu_height(chain, &height) == WAKOTEHU_OK)
        printf("height %llu\n", (unsigned long long)height);
    return wakotehu_close(chain) != WAKOTEHU_OK;
}
