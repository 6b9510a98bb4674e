/* A store in a file takes no more memory the longer it is open. Its calls are carried out on bytes in memory, over which it is opened anew at the
 * end. By the word `commits`, 200,000 commits in 25 epochs; by the word `rows`, 20,000 rows in 600 epochs of one commit each. */
#include <stdio.h>
#include <stdlib.h>
#include <string.h>
#include <unistd.h>

#include "tebaldi.h"

struct plan {
    int epochs, commits; /* how many, and how many commits each has */
    uint32_t keys;       /* how many rows there are */
    int first;           /* the number of epochs after which the memory is to be level */
};
static const struct plan commits = {25, 8000, 64, 5}, rows = {600, 1, 20000, 200};

/* How much more memory the program may have in the later epochs than in the first ones, in bytes. */
static const long most_more = 4l << 20;

static uint8_t image[TEBALDI_FILE_CAPACITY];
static size_t image_len;

/* The memory of the program, in bytes, as the system counts it. */
static long memory(void)
{
    long whole = 0, resident = 0;
    FILE *file = fopen("/proc/self/statm", "r");
    if (file == NULL || fscanf(file, "%ld %ld", &whole, &resident) != 2)
        exit(2);
    fclose(file);
    return resident * sysconf(_SC_PAGESIZE);
}

static void must(bool is, const char *what)
{
    if (!is) {
        printf("%s\n", what);
        exit(1);
    }
}

/* Carries out all calls that wait on the bytes. */
static void perform(struct tebaldi_store *store)
{
    static uint8_t out[1 << 20];
    struct tebaldi_call call = {0};
    while (tebaldi_next_call(store, 0, &call, out, sizeof out) == TEBALDI_OK) {
        must(call.kind == TEBALDI_SYNC || (call.len <= sizeof out && call.at + call.len <= sizeof image), "a long call");
        if (call.kind == TEBALDI_FILE_WRITE) {
            memcpy(image + call.at, out, call.len);
            image_len = call.at + call.len > image_len ? call.at + call.len : image_len;
        }
        must(tebaldi_performed(store) == TEBALDI_OK, "not performed");
    }
}

/* Commits `count` writes from key `from` on. */
static void commit(struct tebaldi_store *store, uint32_t from, uint32_t count, int64_t value)
{
    struct tebaldi_request request = {.verb = TEBALDI_BEGIN};
    struct tebaldi_reply reply = {0};
    must(tebaldi_ask(store, 1, &request, &reply) == TEBALDI_OK, "not begun");
    for (uint32_t key = from; key < from + count; key++) {
        request = (struct tebaldi_request){.verb = TEBALDI_WRITE, .key = key, .value = value};
        must(tebaldi_ask(store, 1, &request, &reply) == TEBALDI_OK && reply.kind == TEBALDI_DONE, "not written");
    }
    request.verb = TEBALDI_COMMIT;
    must(tebaldi_ask(store, 1, &request, &reply) == TEBALDI_OK && reply.kind == TEBALDI_COMMITTED, "not committed");
    perform(store);
}

static void open_image(struct tebaldi_store *store)
{
    uint8_t fault[80] = {0};
    size_t len = 0;
    uint64_t place = 0;
    must(tebaldi_open_image(store, image, image_len, (const uint8_t *)"", 0, fault, sizeof fault, &len, &place) == TEBALDI_OK, "not opened");
    perform(store);
}

static void begin_epoch(struct tebaldi_store *store)
{
    uint8_t fault[80] = {0};
    size_t len = 0;
    uint32_t who = 0;
    must(tebaldi_next_epoch(store, (const uint8_t *)"", 0, fault, sizeof fault, &len, &who) == TEBALDI_OK, "no next epoch");
    perform(store);
}

/* Each row has the number of its last commit. */
static void check_rows(struct tebaldi_store *store, const struct plan *plan)
{
    static struct tebaldi_row all[20000];
    size_t len = 0;
    int64_t last = (int64_t)plan->epochs * plan->commits;
    must(tebaldi_rows(store, all, plan->keys, &len) == TEBALDI_OK && len == plan->keys, "no rows");
    for (uint32_t key = 0; key < len; key++) {
        int64_t wanted = key >= last ? -1 : last - 1 - (last - 1 - key) % plan->keys;
        must(all[key].key == key && all[key].value == wanted, "another row");
    }
}

/* Commits as planned, each commit with its number in one row. Returns the most memory in the later epochs; `*first` is that in the first ones. */
static long serve(struct tebaldi_store *store, const struct plan *plan, long *first)
{
    struct tebaldi_file_state state = {0};
    int64_t number = 0;
    long most = 0;
    for (int epoch = 0; epoch < plan->epochs; epoch++) {
        for (int i = 0; i < plan->commits; i++, number++)
            commit(store, (uint32_t)(number % plan->keys), 1, number);
        must(tebaldi_file_state(store, &state) == TEBALDI_OK && state.kept == (uint64_t)plan->commits, "not kept");
        begin_epoch(store);
        if (epoch == plan->first) {
            *first = most;
            most = 0;
        }
        most = memory() > most ? memory() : most;
    }
    return most;
}

int main(int argc, char **argv)
{
    const struct plan *plan = argc > 1 && strcmp(argv[1], "rows") == 0 ? &rows : &commits;
    struct tebaldi_store store = TEBALDI_CLOSED;
    long first = 0;
    open_image(&store);
    commit(&store, 0, plan->keys, -1);
    begin_epoch(&store);
    long most = serve(&store, plan, &first);
    tebaldi_close(&store);
    open_image(&store);
    check_rows(&store, plan);
    tebaldi_close(&store);
    printf("%d commits in %d epochs: %ld KiB in the first %d, %ld KiB at most later\n", plan->epochs * plan->commits, plan->epochs, first / 1024,
           plan->first, most / 1024);
    must(most - first <= most_more, "the memory has grown");
    return 0;
}
