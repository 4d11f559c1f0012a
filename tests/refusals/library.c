/* Makes the calls of a list at the C library, and prints what is answered; one allocation is refused in it (shim.c).
 *
 *   library NUMBER     the number of the allocation, from 1; 0 for none
 *
 * A line of the standard input is a command: `now N`, `submit HEX`, `invalidate HEX`, `reconsider HEX`, `precious HEX`, or a
 * read: `coin HEX N`, `block HEX`. After each command best block, height and tips are printed, with what the best block spent,
 * headers and forks; at the end all coins. A call that is answered WAKOTEHU_MEMORY is made again. The last line has how many allocations were refused, and how many calls
 * were answered so. Only what the library asks for counts.
 */
#include <stdio.h>
#include <stdlib.h>
#include <string.h>

#include "wakotehu.h"

static wakotehu_handle chain;
static unsigned long refused, told;
static unsigned char bytes[1 << 20];

/* Allocations count within a call, which is made again where it had no memory. */
#define CALL(call)                                              \
    do {                                                        \
        getenv("REFUSALS_ON");                                  \
        code = (call);                                          \
        refused += strtoul(getenv("REFUSALS_OFF"), NULL, 10);   \
        told += code == WAKOTEHU_MEMORY;                        \
    } while (code == WAKOTEHU_MEMORY && told < 100)

static size_t read_hex(const char *text)
{
    size_t length = 0;
    for (unsigned byte; length < sizeof bytes && sscanf(text + 2 * length, "%2x", &byte) == 1; length++)
        bytes[length] = (unsigned char)byte;
    return length;
}

static void print_hex(const uint8_t *from, size_t length)
{
    for (size_t n = 0; n < length; n++)
        printf("%02x", from[n]);
}

/* What the best block spent, and what stands at its height and at half of it. */
static void print_best(const uint8_t *id, uint64_t height)
{
    wakotehu_code code;
    wakotehu_coin coins[8];
    wakotehu_spent_size size;
    uint8_t found[32];
    CALL(wakotehu_spent(chain, id, coins, 8, bytes, sizeof bytes, &size));
    printf("spent %d %llu", code, (unsigned long long)size.coins);
    for (uint64_t n = 0; n < size.coins; n++)
        printf(" %lld %llu %u %u", (long long)coins[n].value, (unsigned long long)coins[n].script, coins[n].height,
               coins[n].coinbase);
    printf(" ");
    print_hex(bytes, size.scripts);
    CALL(wakotehu_id_at(chain, height, found));
    printf(" %d ", memcmp(found, id, sizeof found));
    CALL(wakotehu_ancestor(chain, id, height / 2, found));
    print_hex(found, sizeof found);
    printf("\n");
}

/* Where a block stands beside the best one. */
static void print_place(const uint8_t *id, const uint8_t *best)
{
    wakotehu_code code;
    wakotehu_header_shown header;
    uint8_t found[32];
    CALL(wakotehu_header(chain, id, &header));
    print_hex(header.header, sizeof header.header);
    printf(" %llu %lld ", (unsigned long long)header.height, (long long)header.confirmations);
    CALL(wakotehu_fork(chain, id, best, found));
    print_hex(found, sizeof found);
    printf("\n");
}

static void print_state(void)
{
    wakotehu_code code;
    uint8_t id[32];
    uint64_t height;
    wakotehu_tip tip;
    CALL(wakotehu_best(chain, id));
    print_hex(id, sizeof id);
    CALL(wakotehu_height(chain, &height));
    printf(" %llu\n", (unsigned long long)height);
    print_best(id, height);
    for (size_t place = 0;; place++) {
        CALL(wakotehu_tip_at(chain, place, &tip));
        if (code != WAKOTEHU_OK)
            break;
        print_hex(tip.id, sizeof tip.id);
        printf(" %llu %llu %u ", (unsigned long long)tip.height, (unsigned long long)tip.length, tip.status);
        print_place(tip.id, id);
    }
}

static int print_coin(void *context, const uint8_t *id, uint32_t index, const wakotehu_coin *coin, const uint8_t *script)
{
    (void)context;
    print_hex(id, 32);
    printf(" %u %lld %u %u ", index, (long long)coin->value, coin->height, coin->coinbase);
    print_hex(script, coin->script);
    printf("\n");
    return 0;
}

static void command(const char *word, const char *rest, uint64_t now)
{
    wakotehu_code code;
    wakotehu_answer answer = {0, 0, 0, 0};
    size_t length = read_hex(rest);
    if (!strcmp(word, "submit"))
        CALL(wakotehu_submit(chain, bytes, length, now, &answer));
    else if (!strcmp(word, "invalidate"))
        CALL(wakotehu_invalidate(chain, bytes, &answer));
    else if (!strcmp(word, "reconsider"))
        CALL(wakotehu_reconsider(chain, bytes, &answer));
    else
        CALL(wakotehu_precious(chain, bytes, &answer));
    printf("%s %d %s %s %llu\n", word, code, wakotehu_reply_text(answer.reply), wakotehu_reason_text(answer.reason),
           (unsigned long long)answer.input);
    print_state();
}

int main(int count, char **words)
{
    static char line[1 << 20], name[64];
    const wakotehu_heights regtest = {1, 1, 1, 1};
    wakotehu_code code;
    uint64_t now = 1296688602;
    snprintf(name, sizeof name, "REFUSE_%s_1", count > 1 ? words[1] : "0");
    getenv(name);
    CALL(wakotehu_open(&chain, &regtest, NULL, 0, NULL));
    while (fgets(line, sizeof line, stdin)) {
        char word[16] = "";
        int at = 0;
        if (sscanf(line, "%15s %n", word, &at) < 1)
            continue;
        if (!strcmp(word, "now"))
            now = strtoull(line + at, NULL, 10);
        else
            command(word, line + at, now);
    }
    CALL(wakotehu_coins(chain, print_coin, NULL));
    printf("coins %d\n", code);
    CALL(wakotehu_close(chain));
    printf("closed %d\nrefused %lu told %lu\n", code, refused, told);
    return 0;
}
