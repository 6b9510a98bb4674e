/* A store in a file that 32 threads share. They transfer money and count their transfers, over several epochs, and also on a file whose syncs fail:
 * the store that is opened afterwards has each commit that was told. fdatasync is wrapped: each sync is counted, and takes a millisecond at least.
 * The calls of the library are wrapped too: one is made at a time. Takes an empty folder. */
#ifndef _GNU_SOURCE
#define _GNU_SOURCE
#endif
#include <errno.h>
#include <pthread.h>
#include <sched.h>
#include <semaphore.h>
#include <stdatomic.h>
#include <stdio.h>
#include <stdlib.h>
#include <string.h>
#include <time.h>
#include <unistd.h>

#include "tebaldi.h"

enum { THREADS = 32, ACCOUNTS = 200, TRANSFERS = 600, MONEY = 100 };

/* The tables, by their numbers. */
enum { ACCOUNT = 0, COUNT = 1 };

static atomic_int wanted, not_wanted;

static void want(const char *what, uint64_t got, uint64_t is)
{
    if (got == is) {
        wanted++;
        return;
    }
    not_wanted++;
    printf("%s: %llu, not %llu\n", what, (unsigned long long)got, (unsigned long long)is);
}

/* Ends the program if a call of the system fails that this test needs. */
static void must(int error)
{
    if (error != 0) {
        printf("a call of the system has failed: %d\n", error);
        exit(2);
    }
}

static void wait_for(sem_t *semaphore)
{
    while (sem_wait(semaphore) != 0)
        must(errno == EINTR ? 0 : errno);
}

/* What a sync does: those from number `fails_from` on fail; if they are held, each tells that it has come, and waits to be let go. */
static struct {
    atomic_ulong begun, done, fails_from;
    atomic_bool held;
    sem_t come, go;
} syncs;

int __real_fdatasync(int fd);
int __wrap_fdatasync(int fd);

int __wrap_fdatasync(int fd)
{
    const struct timespec millisecond = {.tv_nsec = 1000000};
    unsigned long number = ++syncs.begun;
    if (syncs.held) {
        must(sem_post(&syncs.come));
        wait_for(&syncs.go);
    }
    nanosleep(&millisecond, NULL);
    if (number >= syncs.fails_from) {
        errno = EIO;
        return -1;
    }
    int failed = __real_fdatasync(fd);
    syncs.done += failed == 0;
    return failed;
}

/* How many calls of the library there were, and whether there is one. Without a lock these two are a data race, which a sanitizer sees. */
static unsigned long library_calls;
static bool in_library;

static void enter_library(void)
{
    if (in_library)
        not_wanted++;
    in_library = true;
    library_calls++;
}

#define WRAPPED(name, parameters, arguments) \
    uint32_t __real_##name parameters; \
    uint32_t __wrap_##name parameters; \
    uint32_t __wrap_##name parameters \
    { \
        enter_library(); \
        uint32_t status = __real_##name arguments; \
        in_library = false; \
        return status; \
    }

WRAPPED(tebaldi_ask_ahead,
        (struct tebaldi_store *store, uint8_t session, const struct tebaldi_request *request, struct tebaldi_reply *reply, uint64_t *number),
        (store, session, request, reply, number))
WRAPPED(tebaldi_write, (struct tebaldi_store *store), (store))
WRAPPED(tebaldi_next_call, (struct tebaldi_store *store, size_t from, struct tebaldi_call *call, uint8_t *out, size_t room),
        (store, from, call, out, room))
WRAPPED(tebaldi_performed, (struct tebaldi_store *store), (store))
WRAPPED(tebaldi_failed, (struct tebaldi_store *store), (store))
WRAPPED(tebaldi_file_state, (struct tebaldi_store *store, struct tebaldi_file_state *state), (store, state))

static char tree[32768];
static uint8_t fault[80];
static size_t fault_len;
static uint64_t place;

static void add_row(const char *table, int key, int value)
{
    size_t len = strlen(tree);
    snprintf(tree + len, sizeof tree - len, "[[row]]\ntable = \"%s\"\nkey = %d\nvalue = %d\n", table, key, value);
}

static void make_tree(void)
{
    strcpy(tree, "format = 1\ntables = [\"account\", \"count\"]\n[[type]]\nname = \"transfer\"\n"
                 "[[node]]\nname = \"root\"\ncontrol = \"locks\"\ntypes = [\"transfer\"]\n");
    for (int key = 0; key < ACCOUNTS; key++)
        add_row("account", key, MONEY);
    for (int session = 1; session <= THREADS; session++)
        add_row("count", session, 0);
}

static struct tebaldi_shared *shared;

static uint32_t open_shared(struct tebaldi_shared **at, const char *path, const char *text)
{
    return tebaldi_shared_open(at, path, (const uint8_t *)text, strlen(text), fault, sizeof fault, &fault_len, &place);
}

static uint32_t next_epoch(uint32_t *who)
{
    return tebaldi_shared_next_epoch(shared, (const uint8_t *)tree, strlen(tree), fault, sizeof fault, &fault_len, who);
}

/* A thread, its session, and what it was told. */
struct client {
    pthread_t thread;
    uint8_t session;
    unsigned most;     /* how many transfers it is to make */
    unsigned told;     /* how many commits it was told */
    uint32_t status;   /* that of the call that stopped it, or TEBALDI_OK */
    int why;           /* the errno of that call */
    uint64_t random;
};

static uint32_t draw(struct client *client, uint32_t below)
{
    client->random = client->random * 6364136223846793005u + 1442695040888963407u;
    return (uint32_t)(client->random >> 33) % below;
}

/* Asks again as long as the reply is to wait. */
static uint32_t ask(uint8_t session, const struct tebaldi_request *request, struct tebaldi_reply *reply)
{
    uint32_t status;
    while ((status = tebaldi_shared_ask(shared, session, request, reply)) == TEBALDI_OK && reply->kind == TEBALDI_AGAIN)
        sched_yield();
    return status;
}

/* Moves one unit, and counts that, as one transaction. Returns the status of the last call, with its reply. */
static uint32_t transfer(uint8_t session, uint32_t from, uint32_t to, struct tebaldi_reply *reply)
{
    const struct tebaldi_request requests[] = {
        {.verb = TEBALDI_BEGIN},
        {.verb = TEBALDI_READ, .table = ACCOUNT, .key = from},
        {.verb = TEBALDI_ADD, .table = ACCOUNT, .key = from, .value = -1},
        {.verb = TEBALDI_READ, .table = ACCOUNT, .key = to},
        {.verb = TEBALDI_ADD, .table = ACCOUNT, .key = to, .value = 1},
        {.verb = TEBALDI_READ, .table = COUNT, .key = session},
        {.verb = TEBALDI_ADD, .table = COUNT, .key = session, .value = 1},
        {.verb = TEBALDI_COMMIT},
    };
    unsigned long synced = 0;
    for (size_t i = 0; i < sizeof requests / sizeof requests[0]; i++) {
        synced = syncs.done;
        uint32_t status = ask(session, &requests[i], reply);
        if (status != TEBALDI_OK || reply->kind == TEBALDI_ABORTED || reply->kind == TEBALDI_REFUSED)
            return status;
    }
    want("the last reply", reply->kind, TEBALDI_COMMITTED);
    want("two syncs since the commit", syncs.done >= synced + 2, true);
    return TEBALDI_OK;
}

/* Each transaction reads with this lock, and an epoch ends with it alone. A thread that is to end one comes before the next transaction. */
static pthread_rwlock_t epoch_lock = PTHREAD_RWLOCK_WRITER_NONRECURSIVE_INITIALIZER_NP;
static unsigned epochs;

/* Begins the epoch after number `seen`, unless another thread has. */
static uint32_t begin_epoch(unsigned seen)
{
    uint32_t who = 0, status = TEBALDI_OK;
    must(pthread_rwlock_wrlock(&epoch_lock));
    if (epochs == seen) {
        status = next_epoch(&who);
        epochs += status == TEBALDI_OK;
    }
    must(pthread_rwlock_unlock(&epoch_lock));
    return status;
}

/* Tries one transfer, and begins the next epoch if this one is full. */
static uint32_t try_transfer(struct client *client)
{
    const struct tebaldi_request end = {.verb = TEBALDI_END};
    struct tebaldi_reply reply = {0}, ended = {0};
    uint32_t from = draw(client, ACCOUNTS), to = (from + 1 + draw(client, ACCOUNTS - 1)) % ACCOUNTS;
    must(pthread_rwlock_rdlock(&epoch_lock));
    unsigned seen = epochs;
    uint32_t status = transfer(client->session, from, to, &reply);
    client->why = errno;
    if (status == TEBALDI_NO_ROOM)
        ask(client->session, &end, &ended);
    must(pthread_rwlock_unlock(&epoch_lock));
    client->told += status == TEBALDI_OK && reply.kind == TEBALDI_COMMITTED;
    if (status == TEBALDI_NO_ROOM || (status == TEBALDI_OK && reply.kind == TEBALDI_REFUSED && reply.refusal == TEBALDI_FULL))
        return begin_epoch(seen);
    if (status == TEBALDI_OK && reply.kind == TEBALDI_REFUSED)
        want("no other refusal", reply.refusal, TEBALDI_FULL);
    return status;
}

/* How many clients have not ended. */
static atomic_int running;

static void *serve(void *argument)
{
    struct client *client = argument;
    while (client->status == TEBALDI_OK && client->told < client->most)
        client->status = try_transfer(client);
    running--;
    return NULL;
}

static void start(struct client *client, uint8_t session, unsigned most)
{
    memset(client, 0, sizeof *client);
    client->session = session;
    client->most = most;
    client->random = session;
    running++;
    must(pthread_create(&client->thread, NULL, serve, client));
}

static struct client clients[THREADS];

static void start_clients(unsigned most)
{
    for (uint8_t i = 0; i < THREADS; i++)
        start(&clients[i], (uint8_t)(i + 1), most);
}

static void join_clients(void)
{
    for (int i = 0; i < THREADS; i++)
        must(pthread_join(clients[i].thread, NULL));
}

/* Opens the file for one thread: it has each commit that was told, and one more at most of a client that was answered unsure. */
static void check_file(const char *path)
{
    struct tebaldi_file file = TEBALDI_FILE_CLOSED;
    static struct tebaldi_row rows[ACCOUNTS + THREADS];
    size_t len = 0;
    int64_t sum = 0;
    want("open again", tebaldi_file_open(&file, path, (const uint8_t *)tree, strlen(tree), fault, sizeof fault, &fault_len, &place), TEBALDI_OK);
    want("rows", tebaldi_rows(&file.store, rows, ACCOUNTS + THREADS, &len), TEBALDI_OK);
    want("all rows", len, ACCOUNTS + THREADS);
    for (size_t i = 0; i < len; i++) {
        if (rows[i].table == ACCOUNT) {
            sum += rows[i].value;
        } else {
            const struct client *client = &clients[rows[i].key - 1];
            int64_t more = rows[i].value - client->told;
            want("each commit that was told", more == 0 || (more == 1 && client->status == TEBALDI_UNSURE), true);
        }
    }
    want("the sum", (uint64_t)sum, ACCOUNTS * MONEY);
    tebaldi_file_close(&file);
}

static unsigned told_commits(void)
{
    unsigned told = 0;
    for (int i = 0; i < THREADS; i++)
        told += clients[i].told;
    return told;
}

/* All threads make their transfers, over several epochs. Returns the syncs for each commit. */
static double serves(const char *path)
{
    epochs = 0;
    want("open", open_shared(&shared, path, tree), TEBALDI_OK);
    unsigned long before = syncs.begun;
    start_clients(TRANSFERS);
    join_clients();
    double each = (double)(syncs.begun - before) / (THREADS * TRANSFERS);
    want("told", told_commits(), THREADS * TRANSFERS);
    want("several epochs", epochs >= 2, true);
    want("shared syncs", each < 0.5, true);
    tebaldi_shared_close(shared);
    check_file(path);
    return each;
}

/* Epochs begin at any time, also while commits of the old one wait to be told. */
static void ends_at_any_time(const char *path)
{
    enum { FEW = 30 };
    unsigned ended = 0;
    uint32_t who = 0;
    want("open", open_shared(&shared, path, tree), TEBALDI_OK);
    start_clients(FEW);
    while (running > 0) {
        uint32_t status = next_epoch(&who);
        want("the next epoch, or not", status == TEBALDI_OK || status == TEBALDI_UNFINISHED || status == TEBALDI_UNTOLD, true);
        ended += status == TEBALDI_OK;
    }
    join_clients();
    want("told", told_commits(), THREADS * FEW);
    want("epochs have ended", ended > 0, true);
    tebaldi_shared_close(shared);
    check_file(path);
}

/* Each sync fails from some call on. */
static void fails(const char *path, unsigned long good)
{
    unsigned unsure = 0;
    uint32_t who = 0;
    want("open", open_shared(&shared, path, tree), TEBALDI_OK);
    syncs.fails_from = syncs.begun + good + 1;
    start_clients(TRANSFERS);
    join_clients();
    for (int i = 0; i < THREADS; i++) {
        unsure += clients[i].status == TEBALDI_UNSURE;
        if (clients[i].status == TEBALDI_UNSURE)
            want("errno", (uint64_t)clients[i].why, EIO);
        else
            want("stopped", clients[i].status, TEBALDI_STOPPED);
    }
    want("unsure", unsure > 0, true);
    want("told", told_commits() > 0, good > 1);
    want("no epoch", next_epoch(&who), TEBALDI_STOPPED);
    tebaldi_shared_close(shared);
    syncs.fails_from = (unsigned long)-1;
    check_file(path);
}

/* A sync fails while an epoch begins. */
static void fails_at_epoch(const char *path)
{
    const struct tebaldi_request begin = {.verb = TEBALDI_BEGIN};
    struct tebaldi_reply reply = {0};
    uint32_t who = 0;
    memset(clients, 0, sizeof clients);
    want("open", open_shared(&shared, path, tree), TEBALDI_OK);
    want("transfer", transfer(1, 0, 1, &reply), TEBALDI_OK);
    clients[0].told = 1;
    syncs.fails_from = syncs.begun + 2;
    want("no epoch", next_epoch(&who), TEBALDI_UNSURE);
    want("errno", (uint64_t)errno, EIO);
    want("stopped", ask(1, &begin, &reply), TEBALDI_STOPPED);
    want("stopped", next_epoch(&who), TEBALDI_STOPPED);
    tebaldi_shared_close(shared);
    syncs.fails_from = (unsigned long)-1;
    check_file(path);
}

/* How many transactions the store has committed, and how many of them the file has. */
static void count_commits(size_t *committed, uint64_t *kept)
{
    struct tebaldi_file_state state = {0};
    uint32_t order[1] = {0};
    struct tebaldi_store *store = tebaldi_shared_lock(shared);
    want("order", tebaldi_order(store, order, 1, committed), TEBALDI_OK);
    want("state", tebaldi_file_state(store, &state), TEBALDI_OK);
    tebaldi_shared_unlock(shared);
    *kept = state.kept;
}

/* Waits until the store has committed so many, of which the file has fewer. */
static void await_commits(size_t wanted_commits, uint64_t wanted_kept)
{
    size_t committed = 0;
    uint64_t kept = 0;
    for (count_commits(&committed, &kept); committed < wanted_commits; count_commits(&committed, &kept))
        sched_yield();
    want("committed", committed, wanted_commits);
    want("kept", kept, wanted_kept);
}

static void let_go(int count)
{
    for (int i = 0; i < count; i++)
        must(sem_post(&syncs.go));
}

/* A sync is held. A session reads and writes meanwhile. Three commits wait, and share the next two syncs; the thread that made the first two has
 * left before. */
static void shares(const char *path)
{
    const struct tebaldi_request begin = {.verb = TEBALDI_BEGIN}, read = {.verb = TEBALDI_READ, .table = COUNT, .key = 1},
                                 write = {.verb = TEBALDI_WRITE, .table = COUNT, .key = 9, .value = 7}, end = {.verb = TEBALDI_END};
    struct tebaldi_reply reply = {0};
    want("open", open_shared(&shared, path, tree), TEBALDI_OK);
    syncs.held = true;
    memset(clients, 0, sizeof clients);
    start(&clients[0], 1, 1);
    wait_for(&syncs.come);
    want("begin", ask(9, &begin, &reply), TEBALDI_OK);
    want("read", ask(9, &read, &reply), TEBALDI_OK);
    want("a value that may be lost", (uint64_t)reply.values.values[0], 1);
    want("write", ask(9, &write, &reply), TEBALDI_OK);
    want("end", ask(9, &end, &reply), TEBALDI_OK);
    for (uint8_t i = 1; i < 4; i++) {
        start(&clients[i], (uint8_t)(i + 1), 1);
        await_commits(i + 1u, 0);
    }
    let_go(2);
    must(pthread_join(clients[0].thread, NULL));
    wait_for(&syncs.come);
    wait_for(&syncs.come);
    await_commits(4, 1);
    let_go(2);
    for (int i = 1; i < 4; i++)
        must(pthread_join(clients[i].thread, NULL));
    syncs.held = false;
    wait_for(&syncs.come);
    await_commits(4, 4);
    want("no more syncs", (uint64_t)sem_trywait(&syncs.come), (uint64_t)-1);
    tebaldi_shared_close(shared);
    check_file(path);
}

/* What the calls return to one thread. */
static void returns(const char *path)
{
    const struct tebaldi_request begin = {.verb = TEBALDI_BEGIN}, none = {.verb = 99}, commit = {.verb = TEBALDI_COMMIT},
                                 read = {.verb = TEBALDI_READ, .table = COUNT, .key = 1};
    struct tebaldi_shared *second = NULL;
    struct tebaldi_reply reply = {0};
    uint32_t who = 0;
    want("no folder", open_shared(&second, "no/such/folder", tree), TEBALDI_IO);
    want("errno", (uint64_t)errno, ENOENT);
    want("bad tree", open_shared(&second, path, "format = 9"), TEBALDI_BAD_TREE);
    want("as it was", second == NULL, true);
    want("open", open_shared(&shared, path, tree), TEBALDI_OK);
    want("in use", open_shared(&second, path, tree), TEBALDI_BUSY);
    want("no verb", ask(1, &none, &reply), TEBALDI_BAD_VERB);
    want("begin", ask(1, &begin, &reply), TEBALDI_OK);
    want("unfinished", next_epoch(&who), TEBALDI_UNFINISHED);
    want("who", who, 1);
    want("lock", tebaldi_shared_lock(shared) != NULL, true);
    want("locked", tebaldi_shared_lock(shared) == NULL, true);
    want("locked", ask(1, &commit, &reply), TEBALDI_IO);
    want("errno", (uint64_t)errno, EDEADLK);
    want("locked", next_epoch(&who), TEBALDI_IO);
    tebaldi_shared_unlock(shared);
    want("read", ask(1, &read, &reply), TEBALDI_OK);
    want("commit of a transaction that only reads", ask(1, &commit, &reply), TEBALDI_OK);
    want("reply", reply.kind, TEBALDI_COMMITTED);
    await_commits(1, 1);
    want("next epoch", next_epoch(&who), TEBALDI_OK);
    await_commits(0, 0);
    tebaldi_shared_close(shared);
    memset(clients, 0, sizeof clients);
    check_file(path);
}

int main(int count, char **words)
{
    if (count != 2 || chdir(words[1]) != 0)
        return 2;
    must(sem_init(&syncs.come, 0, 0));
    must(sem_init(&syncs.go, 0, 0));
    syncs.fails_from = (unsigned long)-1;
    alarm(600); /* a commit that is never told ends the test */
    make_tree();
    returns("returns");
    shares("shares");
    fails("fails 0", 0);
    fails("fails 1", 1);
    fails("fails 41", 41);
    fails("fails 102", 102);
    fails_at_epoch("fails at epoch");
    ends_at_any_time("ends at any time");
    double each = serves("serves");
    printf("shared: %d commits in %u epochs, %.2f syncs for each; %d as wanted, %d not\n", THREADS * TRANSFERS, epochs + 1, each, wanted, not_wanted);
    return not_wanted != 0;
}
