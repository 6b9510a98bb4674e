/* Refuses one block of memory after the other, asks again, and compares all that is told with a run to which none was refused. */
#include <stdio.h>
#include <stdlib.h>
#include <string.h>

#include "tebaldi.h"

/* Memory as heap.c gives it, except for the block with the number `refused`. */
struct block {
    bool is_some;
    void *at;
};
static unsigned long asked, refused;
static char none;

static struct block block_at(void *at)
{
    struct block block = {at != NULL, at != NULL ? at : &none};
    return block;
}

static bool is_refused(void)
{
    return ++asked == refused;
}

struct block rattle_alloc(size_t size, size_t align)
{
    return block_at(is_refused() ? NULL : malloc(size != 0 ? size : align));
}

struct block rattle_realloc(void *at, size_t old_size, size_t size, size_t align)
{
    (void)old_size;
    return block_at(is_refused() ? NULL : realloc(at, size != 0 ? size : align));
}

void rattle_dealloc(void *at, size_t size, size_t align)
{
    (void)size;
    (void)align;
    free(at);
}

static const char tree[] = "format = 3\ntables = [\"a\", \"b\"]\n[[type]]\nname = \"x\"\n[[type]]\nname = \"y\"\n"
    "[[node]]\nname = \"root\"\ncontrol = \"snapshot\"\n[[node]]\nname = \"left\"\nparent = \"root\"\ncontrol = \"locks\"\ntypes = [\"x\"]\n"
    "[[node]]\nname = \"right\"\nparent = \"root\"\ncontrol = \"locks\"\ntypes = [\"y\"]\n[[row]]\ntable = \"a\"\nkey = 1\nvalue = 5\n";
static const char run_text[] = "start a 1 5\nbegan t1 1 x\ngot t1 a 1 t0 5\nput t1 a 1 6\ndone t1\norder t1\nrow a 1 6\nend\n";
static unsigned long told;
static unsigned again;

static void tell(const void *bytes, size_t len)
{
    for (size_t i = 0; i < len; i++)
        told = told * 1000003u + ((const unsigned char *)bytes)[i] + 1;
}

/* Calls once more if memory ran out. */
#define TWICE(call)                                                     \
    do {                                                                \
        uint32_t status = (call);                                       \
        if (status == TEBALDI_OUT_OF_MEMORY) {                          \
            again++;                                                    \
            status = (call);                                            \
        }                                                               \
        if (status != TEBALDI_OK) {                                     \
            printf("status %u\n", status);                              \
            exit(1);                                                    \
        }                                                               \
    } while (0)

/* Performs and tells the calls that wait on a file. */
static void perform(struct tebaldi_store *store)
{
    uint8_t bytes[128] = {0};
    struct tebaldi_call call = {0};
    while (tebaldi_next_call(store, 0, &call, bytes, sizeof bytes) == TEBALDI_OK) {
        tell(&call.kind, 1), tell(&call.at, sizeof call.at), tell(&call.len, sizeof call.len);
        tell(bytes, sizeof bytes);
        tebaldi_performed(store);
    }
}

/* A store with a file: neither a commit nor the next epoch is unsure, or stops it. */
static void run_file(void)
{
    static struct tebaldi_reply reply;
    struct tebaldi_store store = TEBALDI_CLOSED;
    uint8_t fault[64] = {0};
    size_t len = 0;
    uint64_t place = 0;
    uint32_t who = 0;
    const uint8_t *text = (const uint8_t *)tree;
    TWICE(tebaldi_open_image(&store, text, 0, text, sizeof tree - 1, fault, sizeof fault, &len, &place));
    perform(&store);
    for (unsigned i = 0; i < 12; i++) {
        const uint8_t verbs[] = {TEBALDI_BEGIN, TEBALDI_WRITE, TEBALDI_COMMIT};
        struct tebaldi_request request = {.verb = verbs[i % 3], .key = i, .value = i};
        TWICE(tebaldi_ask(&store, 1, &request, &reply));
        tell(&reply.kind, 1), tell(&reply.txn, sizeof reply.txn);
        perform(&store);
    }
    TWICE(tebaldi_next_epoch(&store, text, sizeof tree - 1, fault, sizeof fault, &len, &who));
    perform(&store);
    tebaldi_close(&store);
}

static void run(void)
{
    static struct tebaldi_reply reply; /* zeros, and each call writes all of it */
    struct tebaldi_store store = TEBALDI_CLOSED;
    uint8_t fault[64] = {0};
    size_t len = 0;
    TWICE(tebaldi_open(&store, (const uint8_t *)tree, sizeof tree - 1, fault, sizeof fault, &len));
    for (unsigned i = 0; i < 240; i++) {
        uint8_t session = (uint8_t)(1 + i % 4);
        struct tebaldi_request request = {.verb = (uint8_t)(1 + (i * 7 + i / 4) % 10), .type = session % 2, .table = (uint8_t)(i % 2), .count = 4, .key = i % 3, .value = i};
        TWICE(tebaldi_ask(&store, session, &request, &reply));
        tell(&reply.kind, 1), tell(&reply.refusal, 1), tell(&reply.txn, sizeof reply.txn), tell(reply.values.values, sizeof reply.values.values);
        uint8_t line[512] = {0};
        TWICE(tebaldi_line(&store, session, &reply, line, sizeof line, &len));
        tell(line, len);
    }
    static uint32_t order[240];
    static struct tebaldi_row rows[240];
    TWICE(tebaldi_order(&store, order, 240, &len));
    tell(order, len * sizeof order[0]), tell(&len, sizeof len);
    TWICE(tebaldi_rows(&store, rows, 240, &len));
    for (size_t i = 0; i < len; i++)
        tell(&rows[i].table, 1), tell(&rows[i].key, 4), tell(&rows[i].value, 8);
    static uint8_t text[8192];
    uint32_t line = 0;
    uint8_t why = 0;
    TWICE(tebaldi_run_text(&store, text, sizeof text, &len));
    tell(text, len), tell(&len, sizeof len);
    TWICE(tebaldi_audit(text, len, &line, &why));
    for (uint8_t session = 1; session <= 4; session++) {
        struct tebaldi_request request = {.verb = TEBALDI_END};
        TWICE(tebaldi_ask(&store, session, &request, &reply));
    }
    uint32_t who = 0;
    TWICE(tebaldi_next_epoch(&store, (const uint8_t *)tree, sizeof tree - 1, fault, sizeof fault, &len, &who));
    TWICE(tebaldi_rows(&store, rows, 240, &len));
    tell(&len, sizeof len);
    tebaldi_close(&store);
    TWICE(tebaldi_audit((const uint8_t *)run_text, sizeof run_text - 1, &line, &why));
}

/* Refuses each block of a run in turn. Returns how many there are, and counts the runs that tell something else than the one to which none was
 * refused. */
static unsigned long refuse_each(void (*of)(void), unsigned long *wrong)
{
    asked = told = refused = 0;
    of();
    unsigned long want = told, blocks = asked;
    for (unsigned long n = 1; n <= blocks; n++) {
        asked = told = 0, refused = n;
        of();
        *wrong += told != want;
    }
    return blocks;
}

int main(void)
{
    unsigned long wrong = 0, blocks = refuse_each(run, &wrong) + refuse_each(run_file, &wrong);
    printf("%lu blocks refused in turn: %u calls asked again, %lu other answers\n", blocks, again, wrong);
    return wrong != 0;
}
