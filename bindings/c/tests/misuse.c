/* Calls that a store cannot serve: each returns its status, and leaves the store and the buffers as they were. */
#include <stdio.h>
#include <string.h>

#include "tebaldi.h"

_Static_assert(sizeof(struct tebaldi_store) == 16 && sizeof(struct tebaldi_request) == 24 && sizeof(struct tebaldi_cause) == 24, "sizes");
_Static_assert(sizeof(struct tebaldi_reply) == 184 && sizeof(struct tebaldi_event) == 56 && sizeof(struct tebaldi_row) == 16, "sizes");

static unsigned failed, passed;

static void expect(const char *what, uint32_t got, uint32_t wanted)
{
    if (got == wanted) {
        passed++;
    } else {
        failed++;
        printf("%s: %u, wanted %u\n", what, got, wanted);
    }
}
#define EXPECT(call, wanted) expect(#call, (call), (wanted))

static struct tebaldi_store store = TEBALDI_CLOSED;
static uint8_t text[16];
static size_t len = 77;
static uint8_t number = 7;
static uint32_t order[2] = {5, 5};
static struct tebaldi_row rows[1];
static struct tebaldi_event event;
static struct tebaldi_reply reply;
static struct tebaldi_request request;

static uint32_t open_text(const char *tree)
{
    return tebaldi_open(&store, (const uint8_t *)tree, strlen(tree), text, sizeof text, &len);
}

static void closed_store(void)
{
    struct tebaldi_reply before = reply;
    EXPECT(tebaldi_ask(&store, 1, &request, &reply), TEBALDI_NOT_OPEN);
    EXPECT(memcmp(&before, &reply, sizeof reply) != 0, 0);
    EXPECT(tebaldi_number(&store, TEBALDI_TABLES, (const uint8_t *)"t", 1, &number), TEBALDI_NOT_OPEN);
    EXPECT(tebaldi_name(&store, TEBALDI_TABLES, 0, text, sizeof text, &len), TEBALDI_NOT_OPEN);
    EXPECT(tebaldi_line(&store, 1, &reply, text, sizeof text, &len), TEBALDI_NOT_OPEN);
    EXPECT(tebaldi_order(&store, order, 2, &len), TEBALDI_NOT_OPEN);
    EXPECT(tebaldi_rows(&store, rows, 1, &len), TEBALDI_NOT_OPEN);
    EXPECT(tebaldi_run_text(&store, text, sizeof text, &len), TEBALDI_NOT_OPEN);
    EXPECT(tebaldi_event(&store, 0, &event), TEBALDI_NOT_OPEN);
    EXPECT(tebaldi_next_epoch(&store, text, 0, text + 1, sizeof text - 1, &len, order), TEBALDI_NOT_OPEN);
    EXPECT(len, 77);
    EXPECT(number, 7);
    EXPECT(order[0], 5);
    EXPECT(event.happened, 0);
    tebaldi_close(&store);
}

static void bad_trees(void)
{
    EXPECT(open_text("format = 9"), TEBALDI_BAD_TREE);
    EXPECT(memcmp(text, "bad tree: ", 10) != 0, 0);
    EXPECT(len < 10, 0);
    EXPECT(open_text("\xff"), TEBALDI_BAD_TREE);
    EXPECT(store.is_open, false);
}

static void bad_requests(void)
{
    request.verb = 0;
    EXPECT(tebaldi_ask(&store, 1, &request, &reply), TEBALDI_BAD_VERB);
    request.verb = 11;
    EXPECT(tebaldi_ask(&store, 1, &request, &reply), TEBALDI_BAD_VERB);
    EXPECT(reply.kind, 0);
    request.verb = TEBALDI_BEGIN;
    EXPECT(tebaldi_ask(&store, 0, &request, &reply), TEBALDI_OK);
    EXPECT(reply.refusal, TEBALDI_BAD_SESSION);
    EXPECT(tebaldi_ask(&store, 200, &request, &reply), TEBALDI_OK);
    EXPECT(reply.refusal, TEBALDI_BAD_SESSION);
    request.type = 9;
    EXPECT(tebaldi_ask(&store, 1, &request, &reply), TEBALDI_OK);
    EXPECT(reply.refusal, TEBALDI_UNKNOWN_TYPE);
    request.verb = TEBALDI_READ;
    EXPECT(tebaldi_ask(&store, 1, &request, &reply), TEBALDI_OK);
    EXPECT(reply.refusal, TEBALDI_NO_TXN);
    EXPECT(tebaldi_event(&store, 0, &event), TEBALDI_NO_SUCH);
}

static void bad_names(void)
{
    EXPECT(tebaldi_number(&store, TEBALDI_TABLES, (const uint8_t *)"\xff\xfe", 2, &number), TEBALDI_NO_SUCH);
    EXPECT(tebaldi_number(&store, TEBALDI_TABLES, (const uint8_t *)"u", 1, &number), TEBALDI_NO_SUCH);
    EXPECT(number, 7);
    EXPECT(tebaldi_number(&store, TEBALDI_TABLES, (const uint8_t *)"t", 1, &number), TEBALDI_OK);
    EXPECT(number, 0);
    number = 7;
    EXPECT(tebaldi_number(&store, 200, (const uint8_t *)"root", 4, &number), TEBALDI_OK);
    EXPECT(number, 0);
    EXPECT(tebaldi_name(&store, TEBALDI_TABLES, 1, text, sizeof text, &len), TEBALDI_NO_SUCH);
    memset(text, '.', sizeof text);
    EXPECT(tebaldi_name(&store, TEBALDI_NODES, 0, text, 2, &len), TEBALDI_OK);
    EXPECT(len, 4);
    EXPECT(memcmp(text, "ro..", 4) != 0, 0);
}

static void bad_replies(void)
{
    struct tebaldi_reply none = {0};
    len = 77;
    EXPECT(tebaldi_line(&store, 1, &none, text, sizeof text, &len), TEBALDI_NO_SUCH);
    none.kind = TEBALDI_AGAIN, none.node = 9;
    EXPECT(tebaldi_line(&store, 1, &none, text, sizeof text, &len), TEBALDI_NO_SUCH);
    none.kind = TEBALDI_ABORTED, none.cause.why = 8;
    EXPECT(tebaldi_line(&store, 1, &none, text, sizeof text, &len), TEBALDI_NO_SUCH);
    EXPECT(len, 77);
    none.kind = TEBALDI_REFUSED, none.refusal = TEBALDI_FULL;
    EXPECT(tebaldi_line(&store, 1, &none, text, sizeof text, &len), TEBALDI_OK);
    EXPECT(len, 15);
    EXPECT(memcmp(text, "1 refused full\n", 15) != 0, 0);
}

static void bad_runs(void)
{
    uint32_t line = 7;
    uint8_t why = 7;
    EXPECT(tebaldi_audit((const uint8_t *)"order\nend\n", 10, &line, &why), TEBALDI_OK);
    EXPECT(line, 7);
    EXPECT(tebaldi_audit((const uint8_t *)"order t1\nend\n", 13, &line, &why), TEBALDI_BAD_RUN);
    EXPECT(line, 1);
    EXPECT(why, TEBALDI_WRONG_ORDER);
    EXPECT(tebaldi_audit((const uint8_t *)"", 0, &line, &why), TEBALDI_BAD_RUN);
    EXPECT(why, TEBALDI_WRONG_FORM);
}

static uint32_t next_epoch(const char *tree, uint32_t *who)
{
    return tebaldi_next_epoch(&store, (const uint8_t *)tree, strlen(tree), text, sizeof text, &len, who);
}

static void epochs(void)
{
    static const char other[] = "format = 1\ntables = [\"u\"]\n[[type]]\nname = \"x\"\n[[node]]\nname = \"r\"\ncontrol = \"locks\"\ntypes = [\"x\"]\n";
    uint32_t who = 77;
    request = (struct tebaldi_request){.verb = TEBALDI_BEGIN};
    EXPECT(tebaldi_ask(&store, 2, &request, &reply), TEBALDI_OK);
    EXPECT(reply.kind, TEBALDI_BEGUN);
    EXPECT(next_epoch("", &who), TEBALDI_UNFINISHED);
    EXPECT(who, reply.txn);
    request = (struct tebaldi_request){.verb = TEBALDI_WRITE, .key = 7, .value = 4};
    EXPECT(tebaldi_ask(&store, 2, &request, &reply), TEBALDI_OK);
    request.verb = TEBALDI_COMMIT;
    EXPECT(tebaldi_ask(&store, 2, &request, &reply), TEBALDI_OK);
    who = 77;
    EXPECT(next_epoch("format = 9", &who), TEBALDI_BAD_TREE);
    EXPECT(next_epoch(other, &who), TEBALDI_OTHER_TABLES);
    EXPECT(tebaldi_event(&store, 0, &event), TEBALDI_OK);
    EXPECT(next_epoch("", &who), TEBALDI_OK);
    EXPECT(who, 77);
    EXPECT(tebaldi_event(&store, 0, &event), TEBALDI_NO_SUCH);
    EXPECT(tebaldi_rows(&store, rows, 1, &len), TEBALDI_OK);
    EXPECT(len, 1);
    EXPECT(rows[0].key, 7);
    EXPECT((uint32_t)rows[0].value, 4);
}

/* The printed run of the present epoch, which began with one row. */
static void run_texts(void)
{
    static const char begun[] = "start t 7 4\norder\nrow t 7 4\nend\n";
    uint8_t run[64] = {0}, why = 7;
    uint32_t line = 7;
    memset(text, '.', sizeof text);
    EXPECT(tebaldi_run_text(&store, text, 5, &len), TEBALDI_OK);
    EXPECT(len, sizeof begun - 1);
    EXPECT(memcmp(text, "start.", 6) != 0, 0);
    EXPECT(tebaldi_run_text(&store, run, sizeof run, &len), TEBALDI_OK);
    EXPECT(memcmp(run, begun, sizeof begun) != 0, 0);
    EXPECT(tebaldi_audit(run, len, &line, &why), TEBALDI_OK);
    EXPECT(tebaldi_audit(run, 5, &line, &why), TEBALDI_BAD_RUN);
}

int main(void)
{
    struct tebaldi_version version = {0};
    tebaldi_version(&version);
    EXPECT(version.major, 1);
    closed_store();
    bad_trees();
    EXPECT(open_text(""), TEBALDI_OK);
    EXPECT(open_text(""), TEBALDI_IS_OPEN);
    bad_requests();
    bad_names();
    bad_replies();
    bad_runs();
    epochs();
    run_texts();
    tebaldi_close(&store);
    tebaldi_close(&store);
    EXPECT(tebaldi_ask(&store, 1, &request, &reply), TEBALDI_NOT_OPEN);
    printf("misuse: %u as wanted, %u not\n", passed, failed);
    return failed != 0;
}
