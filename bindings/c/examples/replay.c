/* Runs a script over a store, as `./tebaldi replay` does: the tree text, a line `%%`, then a line for each request. A bad line ends the
 * program with status 7. */
#include <inttypes.h>
#include <stdio.h>
#include <stdlib.h>
#include <string.h>

#include "tebaldi.h"

static struct tebaldi_store store = TEBALDI_CLOSED;

static void fail(int status)
{
    fflush(stdout);
    tebaldi_close(&store);
    exit(status);
}

static void check(uint32_t status)
{
    if (status != TEBALDI_OK) {
        fprintf(stderr, "status %" PRIu32 "\n", status);
        fail(status == TEBALDI_OUT_OF_MEMORY ? 8 : 1);
    }
}

static void print_name(uint8_t list, uint8_t number)
{
    uint8_t name[32] = {0};
    size_t len = 0;
    check(tebaldi_name(&store, list, number, name, sizeof name, &len));
    printf(" %.*s", (int)len, (const char *)name);
}

/* The longest line, of sixteen values, has fewer than 512 bytes. */
static void print_reply(uint8_t session, const struct tebaldi_reply *reply)
{
    uint8_t line[512] = {0};
    size_t len = 0;
    check(tebaldi_line(&store, session, reply, line, sizeof line, &len));
    fwrite(line, 1, len, stdout);
}

static uint8_t number(uint8_t list, const char *name)
{
    uint8_t found = 255; /* the number of no table and of no type */
    uint32_t status = tebaldi_number(&store, list, (const uint8_t *)name, strlen(name), &found);
    if (status != TEBALDI_NO_SUCH)
        check(status);
    return found;
}

static uint64_t natural(const char *word)
{
    char *end = NULL;
    uint64_t n = strtoull(word, &end, 10);
    if (*end != '\0')
        fail(7);
    return n;
}

static void run_line(char *line)
{
    static const struct { const char *word; uint8_t verb; int words; } verbs[] = {
        {"begin", TEBALDI_BEGIN, 3}, {"read", TEBALDI_READ, 4}, {"write", TEBALDI_WRITE, 5}, {"add", TEBALDI_ADD, 5},
        {"delete", TEBALDI_DELETE, 4}, {"scan", TEBALDI_SCAN, 5}, {"prepare", TEBALDI_PREPARE, 2}, {"commit", TEBALDI_COMMIT, 2},
        {"abort", TEBALDI_ABORT, 2}};
    char *words[6] = {0};
    int count = 0;
    for (char *word = strtok(line, " \t\r"); word != NULL && count < 6; word = strtok(NULL, " \t\r"))
        words[count++] = word;
    if (count == 0 || words[0][0] == '#')
        return;
    struct tebaldi_request request = {0};
    int wanted = 0;
    for (size_t i = 0; i < sizeof verbs / sizeof verbs[0] && count > 1; i++) {
        if (strcmp(words[1], verbs[i].word) == 0) {
            request.verb = verbs[i].verb;
            wanted = verbs[i].words;
        }
    }
    if (wanted == 0 || (count != wanted && !(request.verb == TEBALDI_BEGIN && count == 4)))
        fail(7);
    if (request.verb == TEBALDI_BEGIN) {
        request.type = number(TEBALDI_TYPES, words[2]);
        request.instance = count == 4 ? (uint32_t)natural(words[3]) : 0;
    } else if (count > 3) {
        request.table = number(TEBALDI_TABLES, words[2]);
        request.key = (uint32_t)natural(words[3]);
    }
    if (request.verb == TEBALDI_WRITE || request.verb == TEBALDI_ADD)
        request.value = (int64_t)strtoll(words[4], NULL, 10);
    if (request.verb == TEBALDI_SCAN)
        request.count = (uint8_t)natural(words[4]);
    uint8_t session = (uint8_t)natural(words[0]);
    struct tebaldi_reply reply = {0};
    check(tebaldi_ask(&store, session, &request, &reply));
    print_reply(session, &reply);
}

/* Aborts the transactions that are open at the end. */
static void end_sessions(void)
{
    for (uint8_t session = 1; session <= 32; session++) {
        struct tebaldi_request request = {.verb = TEBALDI_END};
        struct tebaldi_reply reply = {0};
        check(tebaldi_ask(&store, session, &request, &reply));
        if (reply.kind == TEBALDI_ABORTED)
            print_reply(session, &reply);
    }
}

static void report(void)
{
    size_t len = 0;
    uint32_t nothing = 0;
    check(tebaldi_order(&store, &nothing, 0, &len));
    uint32_t *order = calloc(len + 1, sizeof *order);
    check(tebaldi_order(&store, order, len, &len));
    printf("order");
    for (size_t i = 0; i < len; i++)
        printf(" t%" PRIu32, order[i]);
    printf("\n");
    free(order);
    struct tebaldi_row no_row = {0};
    check(tebaldi_rows(&store, &no_row, 0, &len));
    struct tebaldi_row *rows = calloc(len + 1, sizeof *rows);
    check(tebaldi_rows(&store, rows, len, &len));
    for (size_t i = 0; i < len; i++) {
        printf("row");
        print_name(TEBALDI_TABLES, rows[i].table);
        printf(" %" PRIu32 " %" PRId64 "\n", rows[i].key, rows[i].value);
    }
    free(rows);
    printf("end\n");
}

int main(void)
{
    size_t room = 4194305, len;
    char *input = calloc(room, 1);
    len = fread(input, 1, room - 1, stdin);
    input[len] = '\0';
    char *script = NULL;
    size_t tree_len = 0;
    for (char *line = input; line != NULL; line = strchr(line, '\n') ? strchr(line, '\n') + 1 : NULL) {
        if (strncmp(line, "%%", 2) == 0 && (line[2] == '\n' || line[2] == '\0' || (line[2] == '\r' && (line[3] == '\n' || line[3] == '\0')))) {
            tree_len = (size_t)(line - input);
            script = strchr(line, '\n');
            script = script != NULL ? script + 1 : line + strlen(line);
            break;
        }
    }
    if (script == NULL) {
        puts("bad tree: no separator");
        free(input);
        return 6;
    }
    uint8_t fault[128] = {0};
    size_t fault_len = 0;
    uint32_t status = tebaldi_open(&store, (const uint8_t *)input, tree_len, fault, sizeof fault, &fault_len);
    if (status == TEBALDI_BAD_TREE) {
        fwrite(fault, 1, fault_len < sizeof fault ? fault_len : sizeof fault, stdout);
        free(input);
        return 6;
    }
    check(status);
    for (char *line = script, *next; line != NULL; line = next) {
        next = strchr(line, '\n');
        if (next != NULL)
            *next++ = '\0';
        run_line(line);
    }
    end_sessions();
    report();
    tebaldi_close(&store);
    free(input);
    return 0;
}
