/* Reads and writes that tebaldi_file.c and tebaldi_shared.c have in common. It is no part of the library's interface. */
#ifndef TEBALDI_IO_H
#define TEBALDI_IO_H

#include "tebaldi.h"

#include <errno.h>
#include <unistd.h>

/* How many bytes of a write are taken at once. */
enum { PIECE = 16384 };

/* Writes all of some bytes at a place. Returns 0, or -1 and sets errno. */
static inline int write_whole(int fd, const uint8_t *bytes, size_t len, uint64_t at)
{
    while (len > 0) {
        ssize_t n = pwrite(fd, bytes, len, (off_t)at);
        if (n < 0 && errno == EINTR)
            continue;
        if (n <= 0) {
            if (n == 0)
                errno = EIO;
            return -1;
        }
        bytes += n;
        len -= (size_t)n;
        at += (size_t)n;
    }
    return 0;
}

/* Syncs a file, or writes the piece of a call from its byte `done` on, which is in `bytes`. Returns 0, or -1 and sets errno. */
static inline int carry_out_piece(int fd, const struct tebaldi_call *call, size_t done, const uint8_t *bytes)
{
    if (call->kind == TEBALDI_SYNC)
        return fdatasync(fd);
    size_t left = call->len - done;
    return write_whole(fd, bytes, left < PIECE ? left : PIECE, call->at + done);
}

#endif
