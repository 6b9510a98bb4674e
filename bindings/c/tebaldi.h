/* Tebaldi for C: a transactional key-value store of whole numbers, linked from libtebaldi.a.
 *
 * What each function returns and writes is proved, for callers that keep the rules below. Nothing checks that a caller keeps them.
 * The four functions tebaldi_file_* (tebaldi_file.c) and the six tebaldi_shared_* (tebaldi_shared.c) are C and not proved: they carry out on a file
 * what the proved ones ask for.
 *
 * Rules for callers
 * 1. No pointer is null, not even beside a length of 0. A pointer with a length points to that many elements, all of them written before
 *    the call, also in a buffer that the call only writes: initialize buffers with zeros.
 * 2. No two pointers of a call overlap, unless both are `const`.
 * 3. A `struct tebaldi_store` begins as TEBALDI_CLOSED. Only these functions read and write its fields. It may be moved in memory between
 *    calls. Of two copies of an open store, use one and forget the other. A `struct tebaldi_file` likewise: it begins as TEBALDI_FILE_CLOSED,
 *    or as zeros, which mean the same.
 * 4. One call at a time uses a store, also one that only reads: so no pointer to a store is `const`. It may go to another thread if a lock, a
 *    thread's start or a join orders the calls. Several threads share a store by rule 8.
 * 5. A `struct tebaldi_reply` that is passed in is zeros, or what a call has written. A `struct tebaldi_event` likewise.
 * 6. No function is called from a signal handler, or in the forked child of a process with threads. After a fork one of the two processes
 *    uses an open store, and the other one forgets it, by rule 3: two that go on with a file spoil it. A file stays locked as long as one of
 *    them has its descriptor `fd`. So a child that forgets a store closes this descriptor, sets the struct to TEBALDI_FILE_CLOSED, and calls
 *    no function for it. A child that runs another program has no descriptor of it.
 * 7. malloc, realloc and free come from one allocator, with blocks as the C standard describes them. A program that defines rattle_alloc,
 *    rattle_realloc and rattle_dealloc of heap.c itself uses its own allocator; tebaldi_file.c and tebaldi_shared.c call malloc nevertheless.
 * 8. Several threads may use a `struct tebaldi_shared` at once, from its opening on, and all their calls have returned before its closing. Only the
 *    thread that has the lock of tebaldi_shared_lock unlocks it. No thread has it at the closing. No thread is cancelled (pthread_cancel) in a
 *    call.
 *
 * In C++ the structs tebaldi_version, tebaldi_event and tebaldi_file_state are named with `struct`, since functions have these names too.
 */
#ifndef TEBALDI_H
#define TEBALDI_H

#include <stdbool.h>
#include <stddef.h>
#include <stdint.h>

#ifdef __cplusplus
extern "C" {
#endif

/* The status that a call returns. If it is neither TEBALDI_OK nor TEBALDI_UNSURE, the store is unchanged. If it is not TEBALDI_OK,
 * so is everything that the call may write, except the line of a tree's fault (TEBALDI_BAD_TREE), the wrong line of a printed run
 * (TEBALDI_BAD_RUN), who hinders the next epoch (TEBALDI_UNFINISHED, TEBALDI_UNTOLD), and where a file is damaged (TEBALDI_DAMAGED).
 * At TEBALDI_UNSURE the store has the commit, or the new epoch, and the file may have it or not. After TEBALDI_UNSURE and
 * TEBALDI_STOPPED the store is stopped: its rows, order and events can be read, and after TEBALDI_UNSURE they have the commit. Close it, and
 * open the file anew: it has each commit that was told, and says whether it has this one. */
enum {
    TEBALDI_OK = 0,
    TEBALDI_NOT_OPEN = 1,      /* the store is not open */
    TEBALDI_IS_OPEN = 2,       /* the store is already open */
    TEBALDI_BAD_TREE = 3,      /* the tree text has a fault */
    TEBALDI_BAD_VERB = 4,      /* there is no such verb */
    TEBALDI_NO_SUCH = 5,       /* no such name, number, event or reply */
    TEBALDI_OUT_OF_MEMORY = 6,
    TEBALDI_BAD_RUN = 7,       /* the printed run has a wrong line */
    TEBALDI_TOO_LONG = 8,      /* the text has 2^32 - 1 bytes or more, or the file more than TEBALDI_FILE_CAPACITY */
    TEBALDI_OTHER_TABLES = 9,  /* the tables of the tree are not those of the store, with their names and in their order */
    TEBALDI_UNFINISHED = 10,   /* a transaction is unfinished */
    TEBALDI_UNTOLD = 11,       /* a session was not told that its transaction was aborted: it asks once more */

    /* Of a store in a file. */
    TEBALDI_STOPPED = 12,        /* a call on the file has failed: nothing is answered; open the file anew */
    TEBALDI_UNSURE = 13,         /* the file may have this commit, or the new epoch, or not; the store is stopped */
    TEBALDI_NO_ROOM = 14,        /* a commit does not fit what is left of its epoch: begin the next one; or the rows do not fit the file */
    TEBALDI_WAITING = 15,        /* calls on the file wait to be performed, or commits wait for tebaldi_write */
    TEBALDI_DAMAGED = 16,        /* the file is no store, or a damaged one */
    TEBALDI_OTHER_CAPACITY = 17, /* the file has a store of another capacity */
    TEBALDI_BUSY = 18,           /* the file is open as a store already */
    TEBALDI_IO = 19              /* the file cannot be opened, read or written: errno says why */
};

struct tebaldi_store {
    bool is_open;
    struct { void *at; } held;
};
#define TEBALDI_CLOSED { false, { NULL } }

/* What a session asks. A verb reads only the fields that are named beside it. */
enum {
    TEBALDI_BEGIN = 1,   /* type, instance */
    TEBALDI_READ = 2,    /* table, key */
    TEBALDI_WRITE = 3,   /* table, key, value */
    TEBALDI_ADD = 4,     /* table, key, value */
    TEBALDI_DELETE = 5,  /* table, key */
    TEBALDI_SCAN = 6,    /* table, key, count */
    TEBALDI_PREPARE = 7,
    TEBALDI_COMMIT = 8,
    TEBALDI_ABORT = 9,
    TEBALDI_END = 10     /* aborts the session's transaction, if it has one */
};

struct tebaldi_request {
    uint8_t verb;
    uint8_t type;       /* the transaction's type, by its number */
    uint8_t table;      /* by its number */
    uint8_t count;      /* the number of rows to scan, 1 to 16 */
    uint32_t instance;  /* which leaf of the type, if it is in several; else 0 */
    uint32_t key;
    int64_t value;
};

/* Why a transaction was aborted, and the fields that each cause has. Every other field is 0. */
enum {
    TEBALDI_LATE = 1,    /* node; txn: the reader; table, key */
    TEBALDI_FIRST = 2,   /* node; txn: the writer; table, key */
    TEBALDI_PIVOT = 3,   /* node; txn, second, third, fourth */
    TEBALDI_NEWER = 4,   /* node; txn */
    TEBALDI_AFTER = 5,   /* txn */
    TEBALDI_ASKED = 6,
    TEBALDI_ENDED = 7
};

struct tebaldi_cause {
    uint8_t why;        /* 0 if nothing was aborted */
    uint8_t node;
    uint8_t table;
    uint32_t key;
    uint32_t txn;
    uint32_t second;
    uint32_t third;
    uint32_t fourth;
};

/* At most sixteen values. A value that is not present is 0, and so is everything after the last. */
struct tebaldi_values {
    int64_t values[16];
    bool present[16];
    size_t len;
};

/* The kinds of reply, and the fields that each has. Every other field is 0. */
enum {
    TEBALDI_BEGUN = 1,      /* txn */
    TEBALDI_VALUE = 2,      /* values: one, which is not present if there is no row */
    TEBALDI_VALUES = 3,     /* values: those of a scan */
    TEBALDI_DONE = 4,
    TEBALDI_PREPARED = 5,
    TEBALDI_COMMITTED = 6,
    TEBALDI_AGAIN = 7,      /* txn: the transaction to wait for; node. Nothing has changed: ask again */
    TEBALDI_ABORTED = 8,    /* cause */
    TEBALDI_REFUSED = 9     /* refusal. Nothing has changed */
};

/* Why a request was refused. */
enum {
    TEBALDI_BAD_SESSION = 1,      /* the session is not 1 to 32 */
    TEBALDI_IN_TXN = 2,           /* a begin while the session has a transaction */
    TEBALDI_UNKNOWN_TYPE = 3,
    TEBALDI_FULL = 4,             /* 8,192 transactions have begun */
    TEBALDI_NO_TXN = 5,           /* the session has no transaction */
    TEBALDI_UNKNOWN_TABLE = 6,
    TEBALDI_IS_PREPARED = 7,      /* the transaction is prepared */
    TEBALDI_NOT_IN_PROFILE = 8,   /* no remaining step of the type has the table */
    TEBALDI_RANGE = 9,            /* a scan of no rows, of more than 16, or past the last key */
    TEBALDI_NOT_READ = 10,        /* an add to a row that the transaction has neither written nor read */
    TEBALDI_OVERFLOW = 11         /* the sum of an add does not fit */
};

struct tebaldi_reply {
    uint8_t kind;
    uint8_t refusal;
    uint8_t node;
    uint32_t txn;
    struct tebaldi_cause cause;
    struct tebaldi_values values;
};

/* What happened, and the fields that each event has beside `txn`. Every other field is 0. */
enum {
    TEBALDI_EVENT_BEGAN = 1,   /* session, type, instance */
    TEBALDI_EVENT_GOT = 2,     /* table, key; from: the writer, or 0 for a starting row; present, value */
    TEBALDI_EVENT_PUT = 3,     /* table, key, present, value: a put without a value deletes the row */
    TEBALDI_EVENT_READY = 4,   /* it was prepared */
    TEBALDI_EVENT_DONE = 5,    /* it committed */
    TEBALDI_EVENT_GONE = 6,    /* cause: it was aborted */
    TEBALDI_EVENT_TOLD = 7     /* its session was told of the abort */
};

struct tebaldi_event {
    uint8_t happened;
    uint8_t session;
    uint8_t type;
    uint8_t table;
    bool present;
    uint32_t txn;
    uint32_t instance;
    uint32_t key;
    uint32_t from;
    int64_t value;
    struct tebaldi_cause cause;
};

struct tebaldi_row {
    uint8_t table;
    uint32_t key;
    int64_t value;
};

struct tebaldi_version {
    uint32_t major;
    uint32_t minor;
    uint32_t patch;
};

/* The lists of names. */
enum { TEBALDI_TABLES = 0, TEBALDI_TYPES = 1, TEBALDI_NODES = 2 };

/* Why a line of a printed run is wrong. */
enum {
    TEBALDI_WRONG_FORM = 1,
    TEBALDI_WRONG_TXN = 2,
    TEBALDI_WRONG_ORDER = 3,
    TEBALDI_WRONG_AFTER = 4,
    TEBALDI_WRONG_READ = 5,
    TEBALDI_WRONG_ROW = 6
};

/* Tells the version of the library. Libraries with the same `major` have the same structs, functions and numbers. */
void tebaldi_version(struct tebaldi_version *version);

/* Opens the store of a tree text. TEBALDI_IS_OPEN, TEBALDI_BAD_TREE, TEBALDI_OUT_OF_MEMORY.
 * At TEBALDI_BAD_TREE as much of the fault's line as fits is copied to `fault`, with its line feed and no 0 after it, and `*fault_len` is
 * the length of the line. */
uint32_t tebaldi_open(struct tebaldi_store *store, const uint8_t *tree, size_t tree_len, uint8_t *fault, size_t fault_room, size_t *fault_len);

/* Ends the present epoch of a store, and begins the next one with the rows that it leaves, under a tree text with the same tables; the rows of
 * the text are not used. The history begins anew, and transactions count from 1 again. An epoch ends at the latest with TEBALDI_FULL: 8,192
 * transactions have begun. TEBALDI_NOT_OPEN, TEBALDI_BAD_TREE (as tebaldi_open), TEBALDI_OTHER_TABLES, TEBALDI_OUT_OF_MEMORY;
 * TEBALDI_UNFINISHED, and then `*who` is the first unfinished transaction; TEBALDI_UNTOLD, and then `*who` is the first such session.
 * Of a store of tebaldi_open_image also TEBALDI_WAITING, TEBALDI_STOPPED and TEBALDI_NO_ROOM. */
uint32_t tebaldi_next_epoch(struct tebaldi_store *store, const uint8_t *tree, size_t tree_len, uint8_t *fault, size_t fault_room, size_t *fault_len,
                            uint32_t *who);

/* Closes a store, and frees its memory. A closed store stays closed. */
void tebaldi_close(struct tebaldi_store *store);

/* Answers a request of a session, 1 to 32. TEBALDI_NOT_OPEN, TEBALDI_BAD_VERB, TEBALDI_OUT_OF_MEMORY. Of a store of tebaldi_open_image also
 * TEBALDI_WAITING, TEBALDI_STOPPED and TEBALDI_NO_ROOM; a commit that is answered is then to be told only once no call waits. */
uint32_t tebaldi_ask(struct tebaldi_store *store, uint8_t session, const struct tebaldi_request *request, struct tebaldi_reply *reply);

/* Finds the number of a name in a list: TEBALDI_TABLES, TEBALDI_TYPES or TEBALDI_NODES. A list of any other number is that of the nodes.
 * TEBALDI_NOT_OPEN, TEBALDI_NO_SUCH. */
uint32_t tebaldi_number(struct tebaldi_store *store, uint8_t list, const uint8_t *name, size_t name_len, uint8_t *number);

/* Copies as much of a name as fits to `out`; `*len` is its length, at most 32. The lists are those of tebaldi_number.
 * TEBALDI_NOT_OPEN, TEBALDI_NO_SUCH. */
uint32_t tebaldi_name(struct tebaldi_store *store, uint8_t list, uint8_t number, uint8_t *out, size_t room, size_t *len);

/* Copies as much of the line of a reply to a session as fits to `out`, as `tebaldi replay` prints it, with its line feed; `*len` is the
 * length of the line. TEBALDI_NOT_OPEN, TEBALDI_OUT_OF_MEMORY; TEBALDI_NO_SUCH if the reply has no kind, or a node or table without name. */
uint32_t tebaldi_line(struct tebaldi_store *store, uint8_t session, const struct tebaldi_reply *reply, uint8_t *out, size_t room, size_t *len);

/* Copies as many of the committed transactions, in the serial order, as fit to `out`; `*len` is how many there are.
 * TEBALDI_NOT_OPEN, TEBALDI_OUT_OF_MEMORY. */
uint32_t tebaldi_order(struct tebaldi_store *store, uint32_t *out, size_t room, size_t *len);

/* Copies as many of the committed rows, in ascending order of table and key, as fit to `out`; `*len` is how many there are.
 * TEBALDI_NOT_OPEN, TEBALDI_OUT_OF_MEMORY. */
uint32_t tebaldi_rows(struct tebaldi_store *store, struct tebaldi_row *out, size_t room, size_t *len);

/* Reads the event at a place of the history; place 0 is the oldest. TEBALDI_NOT_OPEN; TEBALDI_NO_SUCH past the last event. */
uint32_t tebaldi_event(struct tebaldi_store *store, size_t place, struct tebaldi_event *event);

/* Copies as much of the printed run of the present epoch as fits to `out`, with no 0 after it: its starting rows, events, serial order and final
 * rows, as `tebaldi threads` prints them; `*len` is the length of the whole text. tebaldi_audit accepts the whole text, if it has fewer than
 * 2^32 - 1 bytes. Ask with a room of 0 for the length first. TEBALDI_NOT_OPEN, TEBALDI_OUT_OF_MEMORY. */
uint32_t tebaldi_run_text(struct tebaldi_store *store, uint8_t *out, size_t room, size_t *len);

/* Checks a printed run, as `tebaldi audit` does. TEBALDI_TOO_LONG, TEBALDI_OUT_OF_MEMORY.
 * At TEBALDI_BAD_RUN `*line` is the number of the first wrong line, from 1, and `*why` says why. */
uint32_t tebaldi_audit(const uint8_t *text, size_t text_len, uint32_t *line, uint8_t *why);

/* ---- A store in a file
 *
 * The proved library makes no call of the system. Over the bytes of a file, tebaldi_open_image gives a store that notes the writes and syncs
 * that its commits need; its caller performs each on the file, in their order, and tells of it. As long as the file has the bytes that these
 * calls give it, and a sync that succeeds makes them safe, each crash leaves the rows after the first commits, at least the
 * `kept` ones of struct tebaldi_file_state.
 *
 * The functions tebaldi_file_* do that: a commit is in the file before it is told. Most programs call only these, and for all that reads
 * (numbers, names, lines, order, rows, events) the functions above with `&file.store`. No program calls tebaldi_ask,
 * tebaldi_ask_ahead, tebaldi_write, tebaldi_next_epoch or tebaldi_close with `&file.store`: they do not reach the file.
 *
 * The file is a regular one on a local file system. Its lock keeps out the programs that ask for it (by flock), and on a network file system
 * perhaps not those of other machines. While it is open nothing else writes, cuts or replaces it. To copy a store, close it and copy the file,
 * or take a snapshot of the whole file system at one moment. A store keeps the bytes of its file in memory.
 *
 * A commit makes two writes and two syncs. It needs 6 bytes of its epoch, and 14 for each row that it puts. What `left` of struct
 * tebaldi_file_state says at the beginning of an epoch grows only if rows are deleted, which takes a commit too: so see to it in time. */

/* A store and its file. */
struct tebaldi_file {
    struct tebaldi_store store;
    int fd;
};
#define TEBALDI_FILE_CLOSED { TEBALDI_CLOSED, -1 }

/* How many bytes a file can have. A half of it holds the names of the tables, the rows at 14 bytes each, and the commits of one epoch. */
#define TEBALDI_FILE_CAPACITY 67108864

/* Opens a file as the store of a tree text, or makes it, and locks it. The rows of the tree count only if the file is new. A file of at most 13
 * bytes counts as new, whatever they are. A file can be opened with another tree over the same tables, in the same order; tables cannot be
 * added. The name of a new file is made safe in the folder of `path`, which for a symbolic link is that of the link.
 * TEBALDI_IS_OPEN, TEBALDI_BAD_TREE (as tebaldi_open), TEBALDI_OUT_OF_MEMORY; TEBALDI_BUSY; TEBALDI_IO; TEBALDI_TOO_LONG;
 * TEBALDI_DAMAGED, and then `*place` is where; TEBALDI_OTHER_CAPACITY, TEBALDI_OTHER_TABLES, TEBALDI_NO_ROOM. At each of them `file` is as it
 * was; and the bytes of the file too, except at TEBALDI_IO, where it stands for the same rows. A file that a failed call has made stays: it is
 * empty, and so new to the next call, except at TEBALDI_IO. */
uint32_t tebaldi_file_open(struct tebaldi_file *file, const char *path, const uint8_t *tree, size_t tree_len, uint8_t *fault, size_t fault_room,
                           size_t *fault_len, uint64_t *place);

/* Answers a request as tebaldi_ask does. A commit that is told is in the file. TEBALDI_STOPPED; at a commit TEBALDI_NO_ROOM, and TEBALDI_UNSURE if
 * a call on the file fails, for example since the disk is full: errno says why. */
uint32_t tebaldi_file_ask(struct tebaldi_file *file, uint8_t session, const struct tebaldi_request *request, struct tebaldi_reply *reply);

/* Begins the next epoch as tebaldi_next_epoch does. Its rows are in the file before it returns. TEBALDI_NO_ROOM if the rows do not fit the file;
 * TEBALDI_STOPPED; TEBALDI_UNSURE if a call on the file fails: the file has the same rows, in the old epoch or in the new one. */
uint32_t tebaldi_file_next_epoch(struct tebaldi_file *file, const uint8_t *tree, size_t tree_len, uint8_t *fault, size_t fault_room,
                                 size_t *fault_len, uint32_t *who);

/* Closes a store and its file, and unlocks it. It writes nothing, and need not be called before a program ends: all that was told is in the file,
 * and a transaction that is open leaves nothing. A closed file stays closed. */
void tebaldi_file_close(struct tebaldi_file *file);

/* A call on a file: `len` bytes are written from the place `at` on, or all that was written is made safe. */
enum { TEBALDI_FILE_WRITE = 1, TEBALDI_SYNC = 2 };

struct tebaldi_call {
    uint8_t kind;
    uint64_t at;
    size_t len;
};

/* What is known of a store's file. */
struct tebaldi_file_state {
    uint64_t kept;   /* how many commits of this epoch are in the file */
    uint64_t left;   /* how many bytes are left for the commits of this epoch */
    size_t waiting;  /* how many calls wait */
    bool stopped;    /* nothing is answered any more */
};

/* Opens the store that the bytes of a file are, under a tree text with its tables, or begins one if there are no bytes. The calls of the opening
 * wait then. Errors are those of tebaldi_file_open, without TEBALDI_BUSY and TEBALDI_IO. */
uint32_t tebaldi_open_image(struct tebaldi_store *store, const uint8_t *image, size_t image_len, const uint8_t *tree, size_t tree_len, uint8_t *fault,
                            size_t fault_room, size_t *fault_len, uint64_t *place);

/* Reads the first call that waits. Of a write, as many of its bytes from `from` on as fit are copied to `out`. Until none waits, tebaldi_ask,
 * tebaldi_next_epoch and tebaldi_write return TEBALDI_WAITING. TEBALDI_NOT_OPEN; TEBALDI_NO_SUCH if none waits, or the store has no file. */
uint32_t tebaldi_next_call(struct tebaldi_store *store, size_t from, struct tebaldi_call *call, uint8_t *out, size_t room);

/* Tells that the first call that waits was performed. TEBALDI_NOT_OPEN, TEBALDI_NO_SUCH. */
uint32_t tebaldi_performed(struct tebaldi_store *store);

/* Tells that a call on the file has failed: from then on tebaldi_ask, tebaldi_ask_ahead, tebaldi_write and tebaldi_next_epoch answer nothing.
 * TEBALDI_NOT_OPEN, TEBALDI_NO_SUCH. */
uint32_t tebaldi_failed(struct tebaldi_store *store);

/* Tells what is known of a store's file. TEBALDI_NOT_OPEN; TEBALDI_NO_SUCH if the store has no file. */
uint32_t tebaldi_file_state(struct tebaldi_store *store, struct tebaldi_file_state *state);

/* Answers a request as tebaldi_ask does, also while calls on the file wait. A commit that is answered then waits for tebaldi_write. `*number` is its
 * number among the commits of this epoch, from 1 on: it is to be told only once `kept` of struct tebaldi_file_state has reached it. At any other
 * reply `*number` is 0. Until tebaldi_write has noted their calls, tebaldi_ask and tebaldi_next_epoch return TEBALDI_WAITING.
 * TEBALDI_NOT_OPEN, TEBALDI_BAD_VERB, TEBALDI_OUT_OF_MEMORY, TEBALDI_STOPPED, TEBALDI_NO_ROOM; TEBALDI_NO_SUCH of a store without a file. At each of
 * them nothing is changed. */
uint32_t tebaldi_ask_ahead(struct tebaldi_store *store, uint8_t session, const struct tebaldi_request *request, struct tebaldi_reply *reply,
                           uint64_t *number);

/* Notes the calls that put all commits that wait into the file: two writes and two syncs, however many they are, and none if no commit waits.
 * TEBALDI_WAITING if calls wait already; TEBALDI_STOPPED; TEBALDI_UNSURE if memory is out: the store is stopped, and the file may have these
 * commits or not; TEBALDI_NOT_OPEN; TEBALDI_NO_SUCH of a store without a file. */
uint32_t tebaldi_write(struct tebaldi_store *store);

/* ---- A store in a file, for threads
 *
 * The functions tebaldi_shared_* share a store in a file among threads. Any thread may ask at any time; one thread at a time uses a session. The
 * store and its file are as above. A program that calls these functions is linked with -pthread.
 *
 * - A commit that is told is in the file, with every commit whose rows its transaction has read. Each commit makes a record, also that of a
 *   transaction that only reads.
 * - A request that is no commit does not wait for the file. A commit is answered at once, and its thread sleeps until the file has it. Commits that
 *   wait at the same time share two syncs. The thread of one of them makes these, and then leaves.
 * - So a read may see a commit that is not yet in the file, and that a crash takes back. What a transaction has read is safe once its own commit is
 *   told, and not before. The same is true of what the functions show that read the store.
 * - If a call on the file fails, each commit that was not told is answered TEBALDI_UNSURE, unless the file had it before; and each later request
 *   TEBALDI_STOPPED.
 *
 * A reply TEBALDI_AGAIN is returned as it is: the thread lets others go on, and asks again. The transaction that it waits for does not wait for the
 * file. A call of a thread that has the lock of tebaldi_shared_lock returns TEBALDI_IO, with errno EDEADLK, and changes nothing.
 * After a fork the child makes no call for the store. Until it runs another program or ends, it keeps the file locked. */

/* A store, its file and their lock. */
struct tebaldi_shared;

/* Opens a file as tebaldi_file_open does, and allocates `*shared`. Errors are those of tebaldi_file_open, without TEBALDI_IS_OPEN. At each of them
 * `*shared` is as it was. TEBALDI_OUT_OF_MEMORY also if the system makes no lock. */
uint32_t tebaldi_shared_open(struct tebaldi_shared **shared, const char *path, const uint8_t *tree, size_t tree_len, uint8_t *fault,
                             size_t fault_room, size_t *fault_len, uint64_t *place);

/* Answers a request as tebaldi_file_ask does. A commit that is told is in the file. TEBALDI_BAD_VERB, TEBALDI_OUT_OF_MEMORY, TEBALDI_STOPPED; at a
 * commit TEBALDI_NO_ROOM, and TEBALDI_UNSURE if a call on the file fails, or memory for the write is out: errno says why. */
uint32_t tebaldi_shared_ask(struct tebaldi_shared *shared, uint8_t session, const struct tebaldi_request *request, struct tebaldi_reply *reply);

/* Begins the next epoch as tebaldi_file_next_epoch does. Commits that wait are put into the file first. It returns TEBALDI_UNFINISHED if a
 * transaction is open: so the program lets no thread begin one while an epoch is to end, as tests/shared.c does. */
uint32_t tebaldi_shared_next_epoch(struct tebaldi_shared *shared, const uint8_t *tree, size_t tree_len, uint8_t *fault, size_t fault_room,
                                   size_t *fault_len, uint32_t *who);

/* Keeps the other threads out, and returns the store, for the functions that read it: tebaldi_number, tebaldi_name, tebaldi_line, tebaldi_order,
 * tebaldi_rows, tebaldi_event, tebaldi_run_text, tebaldi_file_state. No other function is called with it. The calls of other threads wait until
 * tebaldi_shared_unlock. Null if this thread has the lock already. */
struct tebaldi_store *tebaldi_shared_lock(struct tebaldi_shared *shared);

/* Lets the other threads in. The store of tebaldi_shared_lock is not used any more. */
void tebaldi_shared_unlock(struct tebaldi_shared *shared);

/* Closes a store and its file, unlocks it, and frees `shared`. As tebaldi_file_close it writes nothing. */
void tebaldi_shared_close(struct tebaldi_shared *shared);

#ifdef __cplusplus
}
#endif

#endif
