/* A store in a file: performs the writes and syncs that the library asks for, in their order, before a commit is told.
 *
 * This file is tested, and not proved. Its whole duty is in `perform`: each call of tebaldi_next_call is carried out on the file, and then
 * told by tebaldi_performed. If one fails, or the library refuses to show or to strike off a call, tebaldi_failed stops the store, and no
 * commit is told from then on. */
#ifndef _GNU_SOURCE
#define _GNU_SOURCE
#endif
#include "tebaldi_io.h"

#include <fcntl.h>
#include <stdlib.h>
#include <string.h>
#include <sys/file.h>
#include <sys/stat.h>

/* The least descriptor that a file has. It is not that of standard input, output or error, so a program that prints does not write to it by
 * mistake; and 0, which a struct of zeros has, is no descriptor of a file. */
enum { LEAST_FD = 3 };

/* Whether there is a file. There is none in TEBALDI_FILE_CLOSED, which has -1, nor in zeros. */
static bool has_file(const struct tebaldi_file *file)
{
    return file->fd > 0;
}

/* Carries out the call that waits, whose first bytes are in `bytes`. Returns 0, or -1 and sets errno. */
static int carry_out(struct tebaldi_file *file, struct tebaldi_call call, uint8_t *bytes)
{
    if (carry_out_piece(file->fd, &call, 0, bytes) != 0)
        return -1;
    for (size_t done = PIECE; done < call.len; done += PIECE) {
        if (tebaldi_next_call(&file->store, done, &call, bytes, PIECE) != TEBALDI_OK) {
            errno = EIO;
            return -1;
        }
        if (carry_out_piece(file->fd, &call, done, bytes) != 0)
            return -1;
    }
    return 0;
}

/* Stops the store. Returns -1, with this errno. */
static int stop(struct tebaldi_file *file, int why)
{
    tebaldi_failed(&file->store);
    errno = why;
    return -1;
}

/* Performs all calls that wait. Returns 0 once the library says that none waits; else -1 with errno, and the store is stopped. */
static int perform(struct tebaldi_file *file)
{
    uint8_t bytes[PIECE] = {0};
    struct tebaldi_call call = {0};
    for (;;) {
        uint32_t status = tebaldi_next_call(&file->store, 0, &call, bytes, PIECE);
        if (status == TEBALDI_NO_SUCH)
            return 0;
        if (status != TEBALDI_OK)
            return stop(file, EIO);
        if (carry_out(file, call, bytes) != 0)
            return stop(file, errno);
        if (tebaldi_performed(&file->store) != TEBALDI_OK)
            return stop(file, EIO);
    }
}

/* Makes the name of a file in its folder safe. Returns 0, or -1 and sets errno. */
static int sync_folder(const char *path)
{
    const char *slash = strrchr(path, '/');
    char *folder = slash == NULL ? strdup(".") : strndup(path, slash == path ? 1 : (size_t)(slash - path));
    if (folder == NULL)
        return -1;
    int fd = open(folder, O_RDONLY | O_DIRECTORY | O_CLOEXEC);
    free(folder);
    if (fd < 0)
        return -1;
    int failed = fsync(fd), why = errno;
    close(fd);
    errno = why;
    return failed;
}

/* Reads a whole file. Returns 0, and the caller frees the bytes, which are not null; or -1 and sets errno. */
static int read_whole(int fd, size_t size, uint8_t **bytes)
{
    *bytes = calloc(size > 0 ? size : 1, 1);
    if (*bytes == NULL)
        return -1;
    for (size_t done = 0; done < size;) {
        ssize_t n = pread(fd, *bytes + done, size - done, (off_t)done);
        if (n < 0 && errno == EINTR)
            continue;
        if (n <= 0) {
            int why = n == 0 ? EIO : errno;
            free(*bytes);
            errno = why;
            return -1;
        }
        done += (size_t)n;
    }
    return 0;
}

/* Opens a file, or makes it. Returns its descriptor, LEAST_FD or more; or -1 and sets errno. */
static int open_or_make(const char *path)
{
    int low = open(path, O_RDWR | O_CREAT | O_CLOEXEC, 0666);
    if (low < 0 || low >= LEAST_FD)
        return low;
    int fd = fcntl(low, F_DUPFD_CLOEXEC, LEAST_FD), why = errno;
    close(low);
    errno = why;
    return fd;
}

/* Opens a file and locks it. Returns TEBALDI_OK, TEBALDI_BUSY, or TEBALDI_IO with errno. */
static uint32_t open_locked(const char *path, int *fd)
{
    *fd = open_or_make(path);
    if (*fd < 0)
        return TEBALDI_IO;
    if (flock(*fd, LOCK_EX | LOCK_NB) == 0)
        return TEBALDI_OK;
    int why = errno;
    close(*fd);
    errno = why;
    return why == EWOULDBLOCK ? TEBALDI_BUSY : TEBALDI_IO;
}

/* Opens the store that a locked file has. */
static uint32_t open_store(struct tebaldi_file *file, const char *path, const uint8_t *tree, size_t tree_len, uint8_t *fault, size_t fault_room,
                           size_t *fault_len, uint64_t *place)
{
    struct stat about;
    uint8_t *bytes = NULL;
    if (fstat(file->fd, &about) != 0)
        return TEBALDI_IO;
    /* A device has no length, so a store in it would seem to be new. */
    if (!S_ISREG(about.st_mode)) {
        errno = EINVAL;
        return TEBALDI_IO;
    }
    if (about.st_size > TEBALDI_FILE_CAPACITY)
        return TEBALDI_TOO_LONG;
    if (read_whole(file->fd, (size_t)about.st_size, &bytes) != 0)
        return errno == ENOMEM ? TEBALDI_OUT_OF_MEMORY : TEBALDI_IO;
    uint32_t status = TEBALDI_IO;
    if (fsync(file->fd) == 0 && sync_folder(path) == 0)
        status = tebaldi_open_image(&file->store, bytes, (size_t)about.st_size, tree, tree_len, fault, fault_room, fault_len, place);
    int why = errno;
    free(bytes);
    errno = why;
    if (status == TEBALDI_OK && perform(file) != 0) {
        why = errno;
        tebaldi_close(&file->store);
        errno = why;
        return TEBALDI_IO;
    }
    return status;
}

uint32_t tebaldi_file_open(struct tebaldi_file *file, const char *path, const uint8_t *tree, size_t tree_len, uint8_t *fault, size_t fault_room,
                           size_t *fault_len, uint64_t *place)
{
    if (has_file(file))
        return TEBALDI_IS_OPEN;
    int fd = -1, before = file->fd;
    uint32_t status = open_locked(path, &fd);
    if (status != TEBALDI_OK)
        return status;
    file->fd = fd;
    status = open_store(file, path, tree, tree_len, fault, fault_room, fault_len, place);
    if (status != TEBALDI_OK) {
        int why = errno;
        close(fd);
        file->fd = before;
        errno = why;
    }
    return status;
}

uint32_t tebaldi_file_ask(struct tebaldi_file *file, uint8_t session, const struct tebaldi_request *request, struct tebaldi_reply *reply)
{
    if (request->verb != TEBALDI_COMMIT)
        return tebaldi_ask(&file->store, session, request, reply);
    struct tebaldi_reply told = {0};
    uint32_t status = tebaldi_ask(&file->store, session, request, &told);
    if (status != TEBALDI_OK)
        return status;
    if (perform(file) != 0)
        return TEBALDI_UNSURE;
    *reply = told;
    return TEBALDI_OK;
}

uint32_t tebaldi_file_next_epoch(struct tebaldi_file *file, const uint8_t *tree, size_t tree_len, uint8_t *fault, size_t fault_room,
                                 size_t *fault_len, uint32_t *who)
{
    uint32_t status = tebaldi_next_epoch(&file->store, tree, tree_len, fault, fault_room, fault_len, who);
    return status == TEBALDI_OK && perform(file) != 0 ? TEBALDI_UNSURE : status;
}

void tebaldi_file_close(struct tebaldi_file *file)
{
    tebaldi_close(&file->store);
    if (has_file(file))
        close(file->fd);
    file->fd = -1;
}
