/* Moves money between two accounts of a store in a file, one unit at a time, until it has moved so many or is killed. Run again, it goes on:
 * every transfer that it has told is there. Usage: bank FILE COUNT */
#include <inttypes.h>
#include <stdio.h>
#include <stdlib.h>
#include <string.h>

#include "tebaldi.h"

static const char tree[] =
    "format = 1\n"
    "tables = [\"account\"]\n"
    "[[type]]\nname = \"transfer\"\n"
    "[[node]]\nname = \"root\"\ncontrol = \"locks\"\ntypes = [\"transfer\"]\n"
    "[[row]]\ntable = \"account\"\nkey = 1\nvalue = 1000000\n"
    "[[row]]\ntable = \"account\"\nkey = 2\nvalue = 0\n";

/* The balance of an account, from the committed rows. */
static int64_t balance(struct tebaldi_file *file, uint32_t key)
{
    struct tebaldi_row rows[2] = {{0}};
    size_t len = 0;
    if (tebaldi_rows(&file->store, rows, 2, &len) != TEBALDI_OK)
        exit(1);
    for (size_t i = 0; i < len; i++)
        if (rows[i].key == key)
            return rows[i].value;
    return 0;
}

/* Moves one unit as one transaction. Returns the status of the call that stopped it, with its reply. */
static uint32_t transfer(struct tebaldi_file *file, struct tebaldi_reply *reply)
{
    const struct tebaldi_request requests[] = {
        {.verb = TEBALDI_BEGIN},          {.verb = TEBALDI_READ, .key = 1}, {.verb = TEBALDI_ADD, .key = 1, .value = -1},
        {.verb = TEBALDI_READ, .key = 2}, {.verb = TEBALDI_ADD, .key = 2, .value = 1}, {.verb = TEBALDI_COMMIT},
    };
    uint32_t status = TEBALDI_OK;
    for (size_t i = 0; status == TEBALDI_OK && i < sizeof requests / sizeof requests[0]; i++) {
        status = tebaldi_file_ask(file, 1, &requests[i], reply);
        if (status == TEBALDI_OK && reply->kind == TEBALDI_REFUSED)
            break;
    }
    return status;
}

int main(int count, char **words)
{
    if (count != 3)
        return 2;
    struct tebaldi_file file = TEBALDI_FILE_CLOSED;
    struct tebaldi_reply reply = {0};
    uint8_t fault[80] = {0};
    size_t len = 0;
    uint64_t place = 0;
    uint32_t who = 0, status = tebaldi_file_open(&file, words[1], (const uint8_t *)tree, strlen(tree), fault, sizeof fault, &len, &place);
    if (status != TEBALDI_OK) {
        fprintf(stderr, "the file is not opened: status %" PRIu32 "\n", status);
        return 1;
    }
    int64_t moved = balance(&file, 2), until = moved + strtoll(words[2], NULL, 10);
    printf("found %" PRId64 " of %" PRId64 "\n", moved, balance(&file, 1) + moved);
    fflush(stdout);
    while (moved < until) {
        status = transfer(&file, &reply);
        /* The epoch is full: its history or its half of the file. */
        if ((status == TEBALDI_OK && reply.kind == TEBALDI_REFUSED && reply.refusal == TEBALDI_FULL) || status == TEBALDI_NO_ROOM) {
            const struct tebaldi_request end = {.verb = TEBALDI_END};
            tebaldi_file_ask(&file, 1, &end, &reply);
            status = tebaldi_file_next_epoch(&file, (const uint8_t *)tree, strlen(tree), fault, sizeof fault, &len, &who);
            if (status == TEBALDI_OK)
                continue;
        }
        if (status != TEBALDI_OK || reply.kind != TEBALDI_COMMITTED)
            return 1;
        printf("told %" PRId64 "\n", ++moved);
        fflush(stdout);
    }
    tebaldi_file_close(&file);
    return 0;
}
