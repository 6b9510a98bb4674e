/* Moves money between two accounts, and prints the serial order and the balances. */
#include <inttypes.h>
#include <stdio.h>
#include <string.h>

#include "tebaldi.h"

static const char tree[] =
    "format = 1\n"
    "tables = [\"account\"]\n"
    "[[type]]\nname = \"transfer\"\n"
    "[[node]]\nname = \"root\"\ncontrol = \"locks\"\ntypes = [\"transfer\"]\n"
    "[[row]]\ntable = \"account\"\nkey = 1\nvalue = 100\n"
    "[[row]]\ntable = \"account\"\nkey = 2\nvalue = 20\n";

/* Moves an amount as one transaction of a session. Returns the kind of the last reply: TEBALDI_COMMITTED, or the first that stops it. */
static int transfer(struct tebaldi_store *store, uint8_t session, uint32_t from, uint32_t to, int64_t amount)
{
    const struct tebaldi_request requests[] = {
        {.verb = TEBALDI_BEGIN, .type = 0},
        {.verb = TEBALDI_READ, .table = 0, .key = from},
        {.verb = TEBALDI_ADD, .table = 0, .key = from, .value = -amount},
        {.verb = TEBALDI_READ, .table = 0, .key = to},
        {.verb = TEBALDI_ADD, .table = 0, .key = to, .value = amount},
        {.verb = TEBALDI_COMMIT},
    };
    struct tebaldi_reply reply = {0};
    for (size_t i = 0; i < sizeof requests / sizeof requests[0]; i++) {
        if (tebaldi_ask(store, session, &requests[i], &reply) != TEBALDI_OK)
            return 0;
        if (reply.kind == TEBALDI_AGAIN || reply.kind == TEBALDI_ABORTED || reply.kind == TEBALDI_REFUSED)
            break;
    }
    return reply.kind;
}

int main(void)
{
    struct tebaldi_store store = TEBALDI_CLOSED;
    uint8_t fault[80] = {0};
    size_t len = 0;
    if (tebaldi_open(&store, (const uint8_t *)tree, strlen(tree), fault, sizeof fault, &len) != TEBALDI_OK)
        return 1;
    bool both = transfer(&store, 1, 1, 2, 30) == TEBALDI_COMMITTED && transfer(&store, 2, 2, 1, 5) == TEBALDI_COMMITTED;
    uint32_t order[2] = {0};
    struct tebaldi_row rows[2] = {{0}};
    if (tebaldi_order(&store, order, 2, &len) != TEBALDI_OK || tebaldi_rows(&store, rows, 2, &len) != TEBALDI_OK)
        return 1;
    printf("order t%" PRIu32 " t%" PRIu32 "\n", order[0], order[1]);
    for (size_t i = 0; i < len; i++)
        printf("account %" PRIu32 " %" PRId64 "\n", rows[i].key, rows[i].value);
    tebaldi_close(&store);
    return both ? 0 : 1;
}
