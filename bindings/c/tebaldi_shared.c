/* A store in a file that threads share: sessions are answered one at a time, and commits that wait at the same time share two syncs.
 *
 * This file is tested, and not proved. It has three duties.
 *
 * 1. Order. Every call of the library is made with the lock. A thread leaves the lock only while it writes or syncs the file, and while it sleeps.
 * 2. Performing. At most one thread performs calls (`performing`), each as tebaldi_file.c does. A thread whose commit waits, and that finds nobody
 *    performing, puts all commits that wait into the file, and leaves. Those that came meanwhile are the next group, and one of their threads
 *    performs it. So a commit waits for two groups at most, and for the rows of a new epoch.
 * 3. Telling. A commit is told once `kept` has reached its number, or its epoch has ended, which takes that all its commits are kept. If a call on
 *    the file fails, or the library refuses to show or to strike off a call, tebaldi_failed stops the store: then each commit that is not kept
 *    is answered TEBALDI_UNSURE.
 *
 * The lock knows its owner: a thread that takes it a second time gets an error. No other call of pthread fails, if the program keeps the rules of
 * tebaldi.h. If one does, no answer is right, and the program ends by abort. Each commit that was told is in the file then. */
#ifndef _GNU_SOURCE
#define _GNU_SOURCE
#endif
#include "tebaldi_io.h"

#include <pthread.h>
#include <stdlib.h>

struct tebaldi_shared {
    pthread_mutex_t lock;     /* for the store and the fields below, except `bytes` */
    pthread_cond_t changed;   /* a thread has performed its calls, or the store has stopped */
    struct tebaldi_file file; /* its descriptor does not change until the closing */
    uint64_t epoch;           /* how many times the next epoch was begun */
    bool performing;          /* a thread performs calls */
    bool stopped;             /* a call on the file has failed */
    int why;                  /* its errno */
    uint8_t bytes[PIECE];     /* those of a write, for the thread that performs */
};

/* Ends the program if a call of pthread has failed. */
static void must(int error)
{
    if (error != 0)
        abort();
}

/* Takes the lock. Returns TEBALDI_OK; or TEBALDI_IO, with errno, if this thread has it. */
static uint32_t enter(struct tebaldi_shared *shared)
{
    int error = pthread_mutex_lock(&shared->lock);
    if (error == 0)
        return TEBALDI_OK;
    errno = error;
    return TEBALDI_IO;
}

/* Leaves the lock. Returns the status, and keeps errno. */
static uint32_t leave(struct tebaldi_shared *shared, uint32_t status)
{
    int why = errno;
    must(pthread_mutex_unlock(&shared->lock));
    errno = why;
    return status;
}

/* Stops the store, for the reason of an errno. */
static void stop(struct tebaldi_shared *shared, int why)
{
    tebaldi_failed(&shared->file.store);
    if (!shared->stopped)
        shared->why = why;
    shared->stopped = true;
    must(pthread_cond_broadcast(&shared->changed));
}

/* Carries out the first call that waits, and strikes it off. It leaves the lock while the file is written or synced. Returns 0 or an errno. */
static int carry_out(struct tebaldi_shared *shared, struct tebaldi_call call)
{
    size_t done = 0;
    do {
        if (done > 0 && tebaldi_next_call(&shared->file.store, done, &call, shared->bytes, PIECE) != TEBALDI_OK)
            return EIO;
        must(pthread_mutex_unlock(&shared->lock));
        int failed = carry_out_piece(shared->file.fd, &call, done, shared->bytes), why = errno;
        must(pthread_mutex_lock(&shared->lock));
        if (failed != 0)
            return why;
        done += PIECE;
    } while (done < call.len);
    return tebaldi_performed(&shared->file.store) == TEBALDI_OK ? 0 : EIO;
}

/* Performs all calls that wait, up to the first that fails. Returns 0 once the library says that none waits, or an errno. */
static int carry_out_all(struct tebaldi_shared *shared)
{
    for (;;) {
        struct tebaldi_call call = {0};
        uint32_t status = tebaldi_next_call(&shared->file.store, 0, &call, shared->bytes, PIECE);
        if (status == TEBALDI_NO_SUCH)
            return 0;
        if (status != TEBALDI_OK)
            return EIO;
        int why = carry_out(shared, call);
        if (why != 0)
            return why;
    }
}

/* Performs all calls that wait, while no other thread does, and wakes who waits for that. If one fails, the store is stopped. */
static void perform(struct tebaldi_shared *shared)
{
    shared->performing = true;
    int why = carry_out_all(shared);
    shared->performing = false;
    if (why != 0)
        stop(shared, why);
    else
        must(pthread_cond_broadcast(&shared->changed));
}

/* Puts all commits that wait into the file, or stops the store. */
static void write_commits(struct tebaldi_shared *shared)
{
    uint32_t status = tebaldi_write(&shared->file.store);
    if (status == TEBALDI_OK)
        perform(shared);
    else
        stop(shared, status == TEBALDI_UNSURE ? ENOMEM : EIO);
}

/* Sleeps until a thread has performed calls, or the store has stopped. */
static void sleep_until_changed(struct tebaldi_shared *shared)
{
    must(pthread_cond_wait(&shared->changed, &shared->lock));
}

/* Whether a commit of an epoch is in the file. */
static bool is_kept(struct tebaldi_shared *shared, uint64_t epoch, uint64_t number)
{
    struct tebaldi_file_state state = {0};
    return shared->epoch != epoch || (tebaldi_file_state(&shared->file.store, &state) == TEBALDI_OK && state.kept >= number);
}

/* Waits until a commit of this epoch is in the file. If no thread performs calls, this one does. Returns TEBALDI_OK, or TEBALDI_UNSURE with errno. */
static uint32_t wait_until_kept(struct tebaldi_shared *shared, uint64_t number)
{
    const uint64_t epoch = shared->epoch;
    bool has_written = false;
    while (!is_kept(shared, epoch, number)) {
        if (shared->stopped) {
            errno = shared->why;
            return TEBALDI_UNSURE;
        }
        if (shared->performing) {
            sleep_until_changed(shared);
        } else if (!has_written) {
            write_commits(shared);
            has_written = true;
        } else {
            /* All calls were performed, and the library does not keep the commit. */
            stop(shared, EIO);
        }
    }
    return TEBALDI_OK;
}

/* Makes the lock and the condition of a store. Returns 0 or an errno. */
static int make_lock(struct tebaldi_shared *shared)
{
    pthread_mutexattr_t kind;
    int error = pthread_mutexattr_init(&kind);
    if (error != 0)
        return error;
    error = pthread_mutexattr_settype(&kind, PTHREAD_MUTEX_ERRORCHECK);
    if (error == 0)
        error = pthread_mutex_init(&shared->lock, &kind);
    pthread_mutexattr_destroy(&kind);
    if (error != 0)
        return error;
    error = pthread_cond_init(&shared->changed, NULL);
    if (error != 0)
        pthread_mutex_destroy(&shared->lock);
    return error;
}

/* Frees a store whose file is closed. It keeps errno. */
static void free_shared(struct tebaldi_shared *shared)
{
    int why = errno;
    pthread_cond_destroy(&shared->changed);
    pthread_mutex_destroy(&shared->lock);
    free(shared);
    errno = why;
}

uint32_t tebaldi_shared_open(struct tebaldi_shared **shared, const char *path, const uint8_t *tree, size_t tree_len, uint8_t *fault,
                             size_t fault_room, size_t *fault_len, uint64_t *place)
{
    struct tebaldi_shared *made = calloc(1, sizeof *made);
    if (made == NULL)
        return TEBALDI_OUT_OF_MEMORY;
    if (make_lock(made) != 0) {
        free(made);
        return TEBALDI_OUT_OF_MEMORY;
    }
    made->file = (struct tebaldi_file)TEBALDI_FILE_CLOSED;
    uint32_t status = tebaldi_file_open(&made->file, path, tree, tree_len, fault, fault_room, fault_len, place);
    if (status == TEBALDI_OK)
        *shared = made;
    else
        free_shared(made);
    return status;
}

uint32_t tebaldi_shared_ask(struct tebaldi_shared *shared, uint8_t session, const struct tebaldi_request *request, struct tebaldi_reply *reply)
{
    struct tebaldi_reply told = {0};
    uint64_t number = 0;
    uint32_t status = enter(shared);
    if (status != TEBALDI_OK)
        return status;
    status = tebaldi_ask_ahead(&shared->file.store, session, request, &told, &number);
    if (status == TEBALDI_OK && number > 0)
        status = wait_until_kept(shared, number);
    if (status == TEBALDI_OK)
        *reply = told;
    return leave(shared, status);
}

uint32_t tebaldi_shared_next_epoch(struct tebaldi_shared *shared, const uint8_t *tree, size_t tree_len, uint8_t *fault, size_t fault_room,
                                   size_t *fault_len, uint32_t *who)
{
    uint32_t status = enter(shared);
    if (status != TEBALDI_OK)
        return status;
    status = TEBALDI_WAITING;
    while (status == TEBALDI_WAITING) {
        while (shared->performing)
            sleep_until_changed(shared);
        status = shared->stopped ? TEBALDI_STOPPED
                                 : tebaldi_next_epoch(&shared->file.store, tree, tree_len, fault, fault_room, fault_len, who);
        if (status == TEBALDI_WAITING)
            write_commits(shared);
    }
    if (status == TEBALDI_OK) {
        shared->epoch++;
        perform(shared);
        if (shared->stopped) {
            errno = shared->why;
            status = TEBALDI_UNSURE;
        }
    }
    return leave(shared, status);
}

struct tebaldi_store *tebaldi_shared_lock(struct tebaldi_shared *shared)
{
    return enter(shared) == TEBALDI_OK ? &shared->file.store : NULL;
}

void tebaldi_shared_unlock(struct tebaldi_shared *shared)
{
    must(pthread_mutex_unlock(&shared->lock));
}

void tebaldi_shared_close(struct tebaldi_shared *shared)
{
    tebaldi_file_close(&shared->file);
    free_shared(shared);
}
