/* Asks N times: transactions that read and write two rows. Under callgrind, the cost of a call beside that of the engine. */
#include <stdio.h>
#include <stdlib.h>

#include "tebaldi.h"

int main(int argc, char **argv)
{
    const struct tebaldi_request requests[] = {
        {.verb = TEBALDI_BEGIN},
        {.verb = TEBALDI_READ, .key = 1},
        {.verb = TEBALDI_WRITE, .key = 1, .value = 5},
        {.verb = TEBALDI_READ, .key = 2},
        {.verb = TEBALDI_WRITE, .key = 2, .value = 5},
        {.verb = TEBALDI_COMMIT},
    };
    unsigned long rounds = argc > 1 ? strtoul(argv[1], NULL, 10) : 1000;
    struct tebaldi_store store = TEBALDI_CLOSED;
    struct tebaldi_reply reply = {0};
    uint8_t none[1] = {0};
    size_t len = 0;
    if (tebaldi_open(&store, none, 0, none, sizeof none, &len) != TEBALDI_OK)
        return 1;
    for (unsigned long i = 0; i < rounds; i++)
        for (size_t j = 0; j < sizeof requests / sizeof requests[0]; j++)
            if (tebaldi_ask(&store, 1, &requests[j], &reply) != TEBALDI_OK)
                return 1;
    printf("last reply %u\n", reply.kind);
    tebaldi_close(&store);
    return reply.kind == TEBALDI_COMMITTED ? 0 : 1;
}
