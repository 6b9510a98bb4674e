/* A store in a file: what each call returns, also if the file is in use, damaged, too long or full. Takes an empty folder. */
#ifndef _GNU_SOURCE
#define _GNU_SOURCE
#endif
#include <errno.h>
#include <fcntl.h>
#include <signal.h>
#include <stdio.h>
#include <string.h>
#include <sys/resource.h>
#include <sys/stat.h>
#include <unistd.h>

#include "tebaldi.h"

static const char other_tables[] = "format = 1\ntables = [\"u\"]\n[[type]]\nname = \"any\"\n[[node]]\nname = \"root\"\ncontrol = \"locks\"\ntypes = [\"any\"]\n";
static int wanted, not_wanted;

static void want(const char *what, uint64_t got, uint64_t is)
{
    if (got == is) {
        wanted++;
        return;
    }
    not_wanted++;
    printf("%s: %llu, not %llu\n", what, (unsigned long long)got, (unsigned long long)is);
}

static uint64_t place;

static uint32_t open_at(struct tebaldi_file *file, const char *path, const char *tree)
{
    uint8_t fault[80] = {0};
    size_t len = 0;
    return tebaldi_file_open(file, path, (const uint8_t *)tree, strlen(tree), fault, sizeof fault, &len, &place);
}

/* Writes a row as one transaction of session 1. Returns the status of the commit. */
static uint32_t write_row(struct tebaldi_file *file, uint32_t key, int64_t value)
{
    struct tebaldi_reply reply = {0};
    const struct tebaldi_request begin = {.verb = TEBALDI_BEGIN}, write = {.verb = TEBALDI_WRITE, .key = key, .value = value},
                                 commit = {.verb = TEBALDI_COMMIT};
    uint32_t status = tebaldi_file_ask(file, 1, &begin, &reply);
    if (status == TEBALDI_OK)
        status = tebaldi_file_ask(file, 1, &write, &reply);
    if (status != TEBALDI_OK)
        return status;
    memset(&reply, 0, sizeof reply);
    status = tebaldi_file_ask(file, 1, &commit, &reply);
    want("the reply of a commit", reply.kind, status == TEBALDI_OK ? TEBALDI_COMMITTED : 0);
    return status;
}

static size_t row_count(struct tebaldi_file *file)
{
    struct tebaldi_row rows[8] = {{0}};
    size_t len = 99;
    want("rows", tebaldi_rows(&file->store, rows, 8, &len), TEBALDI_OK);
    return len;
}

static uint64_t kept(struct tebaldi_file *file)
{
    struct tebaldi_file_state state = {0};
    want("state", tebaldi_file_state(&file->store, &state), TEBALDI_OK);
    want("waiting", state.waiting, 0);
    return state.kept;
}

static void spoil(const char *path, off_t at, const char *bytes)
{
    int fd = open(path, O_WRONLY | O_CREAT, 0666);
    want("spoiled", (uint64_t)pwrite(fd, bytes, strlen(bytes), at), strlen(bytes));
    close(fd);
}

static uint64_t size_of(const char *path)
{
    struct stat about;
    want("there", (uint64_t)stat(path, &about), 0);
    return (uint64_t)about.st_size;
}

static void lives(const char *path)
{
    struct tebaldi_file file = TEBALDI_FILE_CLOSED, second = TEBALDI_FILE_CLOSED;
    uint8_t fault[80] = {0};
    size_t len = 0;
    uint32_t who = 0;
    want("open", open_at(&file, path, ""), TEBALDI_OK);
    want("open twice", open_at(&file, path, ""), TEBALDI_IS_OPEN);
    want("in use", open_at(&second, path, ""), TEBALDI_BUSY);
    want("commit", write_row(&file, 1, 10), TEBALDI_OK);
    want("commit", write_row(&file, 2, 20), TEBALDI_OK);
    want("kept", kept(&file), 2);
    want("next epoch", tebaldi_file_next_epoch(&file, (const uint8_t *)"", 0, fault, sizeof fault, &len, &who), TEBALDI_OK);
    want("kept", kept(&file), 0);
    want("commit", write_row(&file, 3, 30), TEBALDI_OK);
    tebaldi_file_close(&file);
    want("closed", write_row(&file, 1, 1), TEBALDI_NOT_OPEN);
    want("other tables", open_at(&file, path, other_tables), TEBALDI_OTHER_TABLES);
    want("bad tree", open_at(&file, path, "format = 9"), TEBALDI_BAD_TREE);
    want("open again", open_at(&file, path, ""), TEBALDI_OK);
    want("rows", row_count(&file), 3);
    tebaldi_file_close(&file);
}

static void stops(const char *path)
{
    struct tebaldi_file file = TEBALDI_FILE_CLOSED;
    struct rlimit limit, low;
    getrlimit(RLIMIT_FSIZE, &limit);
    signal(SIGXFSZ, SIG_IGN);
    want("open", open_at(&file, path, ""), TEBALDI_OK);
    want("commit", write_row(&file, 1, 10), TEBALDI_OK);
    low = limit;
    low.rlim_cur = 16;
    setrlimit(RLIMIT_FSIZE, &low);
    want("a full file", write_row(&file, 2, 20), TEBALDI_UNSURE);
    want("errno", (uint64_t)errno, EFBIG);
    setrlimit(RLIMIT_FSIZE, &limit);
    want("stopped", write_row(&file, 3, 30), TEBALDI_STOPPED);
    tebaldi_file_close(&file);
    want("open again", open_at(&file, path, ""), TEBALDI_OK);
    want("rows", row_count(&file), 1);
    tebaldi_file_close(&file);
}

static void refuses(const char *path)
{
    struct tebaldi_file file = TEBALDI_FILE_CLOSED;
    want("no folder", open_at(&file, "no/such/folder/file", ""), TEBALDI_IO);
    want("errno", (uint64_t)errno, ENOENT);
    want("a pipe", (uint64_t)mkfifo("pipe", 0666), 0);
    want("no regular file", open_at(&file, "pipe", ""), TEBALDI_IO);
    want("errno", (uint64_t)errno, EINVAL);
    want("bad tree", open_at(&file, path, "format = 9"), TEBALDI_BAD_TREE);
    want("a new file stays", size_of(path), 0);
    want("and is opened", open_at(&file, path, ""), TEBALDI_OK);
    tebaldi_file_close(&file);
    unlink(path);
    spoil(path, 0, "hello, this is no store");
    want("no store", open_at(&file, path, ""), TEBALDI_DAMAGED);
    want("place", place, 1);
    want("truncate", (uint64_t)truncate(path, TEBALDI_FILE_CAPACITY + 1), 0);
    want("too long", open_at(&file, path, ""), TEBALDI_TOO_LONG);
    unlink(path);
}

/* A struct of zeros is closed, and no file has the descriptor of standard input. */
static void zeroed(const char *path)
{
    struct tebaldi_file file = {0};
    close(0);
    want("standard input", (uint64_t)open("/dev/null", O_RDONLY), 0);
    tebaldi_file_close(&file);
    want("standard input stays", fcntl(0, F_GETFD) >= 0, true);
    memset(&file, 0, sizeof file);
    want("bad tree", open_at(&file, path, "format = 9"), TEBALDI_BAD_TREE);
    want("as it was", (uint64_t)file.fd, 0);
    close(0);
    want("open", open_at(&file, path, ""), TEBALDI_OK);
    want("another descriptor", file.fd > 2, true);
    want("open twice", open_at(&file, path, ""), TEBALDI_IS_OPEN);
    want("commit", write_row(&file, 1, 10), TEBALDI_OK);
    tebaldi_file_close(&file);
    tebaldi_file_close(&file);
    want("closed", write_row(&file, 1, 1), TEBALDI_NOT_OPEN);
}

/* The calls that a program performs itself. */
static void by_hand(void)
{
    struct tebaldi_store store = TEBALDI_CLOSED, memory = TEBALDI_CLOSED;
    struct tebaldi_file_state state = {0};
    struct tebaldi_call call = {0};
    struct tebaldi_reply reply = {0};
    const struct tebaldi_request begin = {.verb = TEBALDI_BEGIN};
    uint8_t fault[80] = {0}, out[8] = {0};
    size_t len = 0, calls = 0;
    uint32_t who = 0;
    want("open", tebaldi_open_image(&store, out, 0, (const uint8_t *)"", 0, fault, sizeof fault, &len, &place), TEBALDI_OK);
    want("waits", tebaldi_ask(&store, 1, &begin, &reply), TEBALDI_WAITING);
    want("waits", tebaldi_next_epoch(&store, (const uint8_t *)"", 0, fault, sizeof fault, &len, &who), TEBALDI_WAITING);
    for (; tebaldi_next_call(&store, 0, &call, out, sizeof out) == TEBALDI_OK; calls++)
        want("performed", tebaldi_performed(&store), TEBALDI_OK);
    want("calls", calls > 0, true);
    want("none waits", tebaldi_performed(&store), TEBALDI_NO_SUCH);
    want("begin", tebaldi_ask(&store, 1, &begin, &reply), TEBALDI_OK);
    want("failed", tebaldi_failed(&store), TEBALDI_OK);
    want("stopped", tebaldi_ask(&store, 2, &begin, &reply), TEBALDI_STOPPED);
    want("stopped", tebaldi_next_epoch(&store, (const uint8_t *)"", 0, fault, sizeof fault, &len, &who), TEBALDI_STOPPED);
    want("state", tebaldi_file_state(&store, &state), TEBALDI_OK);
    want("is stopped", state.stopped, true);
    tebaldi_close(&store);
    want("open", tebaldi_open(&memory, (const uint8_t *)"", 0, fault, sizeof fault, &len), TEBALDI_OK);
    want("no file", tebaldi_next_call(&memory, 0, &call, out, sizeof out), TEBALDI_NO_SUCH);
    want("no file", tebaldi_performed(&memory), TEBALDI_NO_SUCH);
    want("no file", tebaldi_failed(&memory), TEBALDI_NO_SUCH);
    want("no file", tebaldi_file_state(&memory, &state), TEBALDI_NO_SUCH);
    tebaldi_close(&memory);
    want("closed", tebaldi_next_call(&memory, 0, &call, out, sizeof out), TEBALDI_NOT_OPEN);
    want("closed", tebaldi_performed(&memory), TEBALDI_NOT_OPEN);
    want("closed", tebaldi_failed(&memory), TEBALDI_NOT_OPEN);
    want("closed", tebaldi_file_state(&memory, &state), TEBALDI_NOT_OPEN);
}

int main(int count, char **words)
{
    if (count != 2 || chdir(words[1]) != 0)
        return 2;
    lives("lives");
    stops("stops");
    refuses("refuses");
    zeroed("zeroed");
    by_hand();
    printf("file: %d as wanted, %d not\n", wanted, not_wanted);
    return not_wanted != 0;
}
