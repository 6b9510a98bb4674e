/* A store in a file over a library that refuses: a commit is told only after the library has shown each of its calls, and then says that none
 * waits. The library is a stand-in, by the functions of this program. Takes an empty folder. */
#include <errno.h>
#include <stdio.h>
#include <unistd.h>

#include "tebaldi.h"

static int wanted, not_wanted;

static void want(const char *what, uint64_t got, uint64_t is)
{
    if (got == is) {
        wanted++;
        return;
    }
    not_wanted++;
    printf("%s: %llu, not %llu\n", what, (unsigned long long)got, (unsigned long long)is);
}

/* What the stand-in shows and refuses: the calls that wait are writes of `size` bytes. */
static struct {
    size_t waiting, size;
    uint32_t none, next, piece, performed; /* the status once none waits, of a call, of its later bytes, and of a call performed */
    unsigned failures;
} library;

static void begin(size_t waiting)
{
    library.waiting = waiting;
    library.size = 40000;
    library.none = TEBALDI_NO_SUCH;
    library.next = library.piece = library.performed = TEBALDI_OK;
    library.failures = 0;
}

uint32_t tebaldi_open_image(struct tebaldi_store *store, const uint8_t *image, size_t image_len, const uint8_t *tree, size_t tree_len, uint8_t *fault,
                            size_t fault_room, size_t *fault_len, uint64_t *place)
{
    (void)image, (void)image_len, (void)tree, (void)tree_len, (void)fault, (void)fault_room, (void)fault_len, (void)place;
    store->is_open = true;
    return TEBALDI_OK;
}

void tebaldi_close(struct tebaldi_store *store)
{
    store->is_open = false;
}

uint32_t tebaldi_ask(struct tebaldi_store *store, uint8_t session, const struct tebaldi_request *request, struct tebaldi_reply *reply)
{
    (void)store, (void)session, (void)request;
    reply->kind = TEBALDI_COMMITTED;
    return TEBALDI_OK;
}

uint32_t tebaldi_next_epoch(struct tebaldi_store *store, const uint8_t *tree, size_t tree_len, uint8_t *fault, size_t fault_room, size_t *fault_len,
                            uint32_t *who)
{
    (void)store, (void)tree, (void)tree_len, (void)fault, (void)fault_room, (void)fault_len, (void)who;
    return TEBALDI_OK;
}

uint32_t tebaldi_next_call(struct tebaldi_store *store, size_t from, struct tebaldi_call *call, uint8_t *out, size_t room)
{
    (void)store, (void)out, (void)room;
    if (library.waiting == 0)
        return library.none;
    *call = (struct tebaldi_call){.kind = TEBALDI_FILE_WRITE, .len = library.size};
    return from == 0 ? library.next : library.piece;
}

uint32_t tebaldi_performed(struct tebaldi_store *store)
{
    (void)store;
    library.waiting -= library.performed == TEBALDI_OK;
    return library.performed;
}

uint32_t tebaldi_failed(struct tebaldi_store *store)
{
    (void)store;
    library.failures++;
    return TEBALDI_OK;
}

static struct tebaldi_file file = TEBALDI_FILE_CLOSED;
static uint8_t fault[8];
static size_t len;

/* Commits, and begins an epoch: both are told, or neither is and the store is stopped. */
static void try_both(const char *what, bool is_told)
{
    const struct tebaldi_request commit = {.verb = TEBALDI_COMMIT};
    struct tebaldi_reply reply = {0};
    uint32_t who = 0, status = is_told ? TEBALDI_OK : TEBALDI_UNSURE;
    size_t waiting = library.waiting;
    errno = 0;
    want(what, tebaldi_file_ask(&file, 1, &commit, &reply), status);
    want("the reply", reply.kind, is_told ? TEBALDI_COMMITTED : 0);
    want("errno", (uint64_t)errno, is_told ? 0 : EIO);
    library.waiting = waiting;
    want(what, tebaldi_file_next_epoch(&file, fault, 0, fault, sizeof fault, &len, &who), status);
    want("failures", library.failures, is_told ? 0 : 2);
}

int main(int count, char **words)
{
    uint64_t place = 0;
    if (count != 2 || chdir(words[1]) != 0)
        return 2;
    begin(1);
    library.next = TEBALDI_NOT_OPEN;
    want("an opening that is refused", tebaldi_file_open(&file, "store", fault, 0, fault, sizeof fault, &len, &place), TEBALDI_IO);
    want("closed", file.store.is_open, false);
    begin(3);
    want("an opening", tebaldi_file_open(&file, "store", fault, 0, fault, sizeof fault, &len, &place), TEBALDI_OK);
    begin(3);
    try_both("three calls", true);
    begin(3);
    library.next = TEBALDI_NOT_OPEN;
    try_both("no call is shown", false);
    begin(3);
    library.none = TEBALDI_OUT_OF_MEMORY;
    try_both("no end of the calls", false);
    begin(3);
    library.piece = TEBALDI_NO_SUCH;
    try_both("half of a call", false);
    begin(3);
    library.performed = TEBALDI_NO_SUCH;
    try_both("a call that is not struck off", false);
    tebaldi_file_close(&file);
    printf("refused_calls: %d as wanted, %d not\n", wanted, not_wanted);
    return not_wanted != 0;
}
