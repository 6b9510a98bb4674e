/* Runs two conflicting transactions, and prints the replies and the history. */
#include <inttypes.h>
#include <stdio.h>

#include "tebaldi.h"

static struct tebaldi_store store = TEBALDI_CLOSED;

static void ask(uint8_t session, struct tebaldi_request request)
{
    struct tebaldi_reply reply = {0};
    uint8_t line[512] = {0};
    size_t len = 0;
    if (tebaldi_ask(&store, session, &request, &reply) == TEBALDI_OK && tebaldi_line(&store, session, &reply, line, sizeof line, &len) == TEBALDI_OK)
        fwrite(line, 1, len, stdout);
}

int main(void)
{
    static const char *const happened[] = {"", "began", "got", "put", "ready", "done", "gone", "told"};
    uint8_t none[1] = {0};
    size_t len = 0;
    /* The blank tree: a table `t` and a type `any` at one node of locks. */
    if (tebaldi_open(&store, none, 0, none, sizeof none, &len) != TEBALDI_OK)
        return 1;
    ask(1, (struct tebaldi_request){.verb = TEBALDI_BEGIN});
    ask(2, (struct tebaldi_request){.verb = TEBALDI_BEGIN});
    ask(2, (struct tebaldi_request){.verb = TEBALDI_WRITE, .key = 7, .value = 4});
    ask(1, (struct tebaldi_request){.verb = TEBALDI_READ, .key = 7});
    ask(2, (struct tebaldi_request){.verb = TEBALDI_COMMIT});
    struct tebaldi_event event = {0};
    for (size_t place = 0; tebaldi_event(&store, place, &event) == TEBALDI_OK; place++)
        printf("%zu: %s t%" PRIu32 "\n", place, happened[event.happened], event.txn);
    tebaldi_close(&store);
    return 0;
}
