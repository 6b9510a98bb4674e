/* Four threads transfer money over one store, which a mutex and a condition variable share. */
#include <inttypes.h>
#include <pthread.h>
#include <stdio.h>
#include <string.h>

#include "tebaldi.h"

enum { THREADS = 4, TRANSFERS = 50, ACCOUNTS = 3 };

static const char tree[] =
    "format = 1\ntables = [\"account\"]\n[[type]]\nname = \"transfer\"\n"
    "[[node]]\nname = \"root\"\ncontrol = \"timestamp\"\ntypes = [\"transfer\"]\n"
    "[[row]]\ntable = \"account\"\nkey = 0\nvalue = 100\n"
    "[[row]]\ntable = \"account\"\nkey = 1\nvalue = 100\n"
    "[[row]]\ntable = \"account\"\nkey = 2\nvalue = 100\n";

static struct tebaldi_store store = TEBALDI_CLOSED;
static pthread_mutex_t lock = PTHREAD_MUTEX_INITIALIZER;
static pthread_cond_t changed = PTHREAD_COND_INITIALIZER;

/* Asks, and sleeps as long as the answer is to ask again. */
static struct tebaldi_reply ask(uint8_t session, struct tebaldi_request request)
{
    struct tebaldi_reply reply = {0};
    pthread_mutex_lock(&lock);
    while (tebaldi_ask(&store, session, &request, &reply) == TEBALDI_OK && reply.kind == TEBALDI_AGAIN)
        pthread_cond_wait(&changed, &lock);
    pthread_cond_broadcast(&changed);
    pthread_mutex_unlock(&lock);
    return reply;
}

static bool transfer(uint8_t session, uint32_t from, uint32_t to)
{
    const struct tebaldi_request requests[] = {
        {.verb = TEBALDI_BEGIN},
        {.verb = TEBALDI_READ, .key = from},
        {.verb = TEBALDI_ADD, .key = from, .value = -1},
        {.verb = TEBALDI_READ, .key = to},
        {.verb = TEBALDI_ADD, .key = to, .value = 1},
        {.verb = TEBALDI_COMMIT},
    };
    struct tebaldi_reply reply = {0};
    for (size_t i = 0; i < sizeof requests / sizeof requests[0]; i++) {
        reply = ask(session, requests[i]);
        if (reply.kind == TEBALDI_ABORTED)
            return false;
    }
    return reply.kind == TEBALDI_COMMITTED;
}

static void *transfers(void *argument)
{
    uint8_t session = *(uint8_t *)argument;
    for (uint32_t i = 0; i < TRANSFERS; i++)
        while (!transfer(session, (session + i) % ACCOUNTS, (session + i + 1) % ACCOUNTS)) {
        }
    return NULL;
}

int main(void)
{
    uint8_t fault[80] = {0};
    size_t len = 0;
    if (tebaldi_open(&store, (const uint8_t *)tree, strlen(tree), fault, sizeof fault, &len) != TEBALDI_OK)
        return 1;
    pthread_t threads[THREADS];
    uint8_t sessions[THREADS];
    for (uint8_t i = 0; i < THREADS; i++) {
        sessions[i] = (uint8_t)(i + 1);
        if (pthread_create(&threads[i], NULL, transfers, &sessions[i]) != 0)
            return 1;
    }
    for (int i = 0; i < THREADS; i++)
        pthread_join(threads[i], NULL);
    uint32_t order[1] = {0};
    struct tebaldi_row rows[ACCOUNTS] = {{0}};
    size_t committed = 0;
    if (tebaldi_order(&store, order, 1, &committed) != TEBALDI_OK || tebaldi_rows(&store, rows, ACCOUNTS, &len) != TEBALDI_OK)
        return 1;
    int64_t sum = 0;
    for (size_t i = 0; i < len; i++)
        sum += rows[i].value;
    printf("committed %zu, sum %" PRId64 "\n", committed, sum);
    tebaldi_close(&store);
    return committed == THREADS * TRANSFERS && sum == 100 * ACCOUNTS ? 0 : 1;
}
