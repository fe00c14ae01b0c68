/* Linnetshelf: a message queue without a broker, as a library for C and for any language that calls C.
 *
 * One append-only journal in memory, cut into cycles of time, is shared by as many endpoints as its callers want. An endpoint
 * appends and reads, and belongs to one thread at a time. For more messages than one queue holds, a shelf puts queues in a row.
 * No call waits for another endpoint. The library has no locks. A call that allocates calls malloc, which may have one.
 *
 *     #include "linnetshelf.h"
 *     #include <stdio.h>
 *
 *     int main(void) {
 *         linnetshelf_settings settings = {
 *             .cells = 65536, .index_count = 64, .index_spacing = 16, .cycles = 4, .roll = LINNETSHELF_DAILY};
 *         linnetshelf_handle queue = {0};
 *         if (linnetshelf_create(&settings, "reader", 6, 1728000000000, &queue) != LINNETSHELF_DONE)
 *             return 1;
 *         linnetshelf_append(&queue, 1728000000000, "hello", 5);
 *         char room[64];
 *         linnetshelf_answer answer = linnetshelf_next(&queue, room, sizeof room);
 *         if (answer.status == LINNETSHELF_DONE)
 *             printf("%.*s\n", (int)answer.length, room);
 *         linnetshelf_destroy(queue);
 *         return 0;
 *     }
 *
 * ANSWERS. The words in capitals below are statuses, without the LINNETSHELF_ in front. Each call that returns a status can
 * return DONE. Each call on a handle, other than as `out`, can also return WRONG_KIND. linnetshelf_destroy returns nothing.
 *
 * HANDLES. A handle is the address of an endpoint, of a keeper, or of what was saved of a queue. For a shelf it is that of a
 * writer, a reader or a taker. The library writes it through the argument `out`, which points to a handle that is zero or was destroyed. It does
 * not look at what was there. A call on a handle that holds something else returns WRONG_KIND and does nothing. Copies of a
 * handle are the same endpoint: after linnetshelf_destroy none of them may be used. A zero handle holds nothing: linnetshelf_destroy
 * takes one and does nothing, as free(NULL). Other calls take one only as `out`.
 *
 * THREADS. What a handle holds is in one call at a time. Two calls at once on one handle are an error that is not detected. For
 * another thread, split off an endpoint of its own, or a writer, a reader or a taker. A handle goes to another thread by what
 * orders memory: the start or the end of a thread, a lock, or an atomic store and load. A keeper stays in the thread that made it,
 * and is destroyed there: that it may go to another is not proved. Make no call from a signal handler, nor in a child after fork().
 *
 * BYTES. `bytes`, `names` and `name` point to bytes to read, and a pointer `room` to a buffer of yours to write. The length in
 * bytes is the next argument. `lengths` and `answers` point to as many as `count` says. The library keeps none of these addresses.
 * They are never NULL, even if the length is 0, and nobody else writes to what is there during the call. `settings` and `out` are
 * not NULL, and `out` is not the handle that the same call is made on.
 *
 * A BUFFER THAT IS TOO SMALL. A read or a take returns NO_ROOM if the message is longer than the buffer; the answer has the
 * length that is needed. The message was not read or taken: nothing is recorded, the endpoint has not seen it, and neither the
 * endpoint nor the name moves. The next call finds it again, unless its cycle is dropped or, for a take, another endpoint moves
 * the name. A call that reads or takes nothing may have written to the buffer all the same.
 *
 * TIME. A moment is in milliseconds of Unix time. The library reads no clock: the caller passes the time.
 *
 * MEMORY. It comes from malloc and goes back by free. The memory of a queue goes back when its last endpoint is destroyed or
 * linnetshelf_stop returns DONE, that of an endpoint or of what was saved when its handle is destroyed. A call that got none
 * returns OUT_OF_MEMORY. Appends, reads and peeks allocate nothing, except an append that begins the next queue of a shelf.
 *
 * BUSY. Another endpoint has begun a message, and has neither completed it nor given it up. Its thread may have been suspended
 * inside its append, and cannot go on while others use its processor. So do not spin: yield (sched_yield) or sleep before the
 * next try. A reader that polls for messages does the same at NOT_YET. Nothing promises that a given try succeeds.
 *
 * CLOSING. linnetshelf_close closes a queue for all its endpoints, and no call undoes that. From then on no message is appended
 * or begun, and no cycle begins (CLOSED). What was appended before is read and taken as before. Where NOT_YET would come, reads
 * and takes return FINISHED: there is no such message, and none will come. So a loop that reads goes on at NOT_YET and ends at
 * FINISHED. Each message whose append or complete returned DONE comes before that, unless its cycle is dropped. What is saved
 * of a queue does not say that it was closed: a queue that is opened takes messages again.
 *
 * WHAT AN ENDPOINT HAS SEEN. linnetshelf_drop_before and linnetshelf_seek go up to the end that their endpoint has seen, and
 * return NOT_SEEN above it:
 * - Reads, takes, moves and positions show the end as far as their answers go. linnetshelf_to_end and linnetshelf_end show all of it.
 * - A peek shows nothing, and neither does a call that returns NO_ROOM.
 * - What an endpoint appended counts once it has read that, or has met another endpoint.
 * - A new endpoint of linnetshelf_split has seen the end at which the queue was created or opened. What its parent appended,
 *   read or learned by linnetshelf_meet does not count for it.
 *
 * LOGS. A queue can be kept in a log, so that what was appended survives a crash. linnetshelf_keep opens a queue with a keeper. The
 * keeper makes no input or output: it lists the calls that the log needs, and the caller makes them of a file of its own, in their
 * order, each once:
 *
 *     linnetshelf_turn(&keeper);
 *     linnetshelf_call call;
 *     while ((call = linnetshelf_log_call(&keeper, room, size)).status == LINNETSHELF_DONE)
 *         linnetshelf_log_done(&keeper, make(file, &call, room));
 *
 * At NO_ROOM call again with `call.length` bytes of room. NO_CALL says that all calls were made.
 * - The file is new, without bytes, and nobody else writes to it. A write puts all of its bytes, or it failed.
 * - A call that a signal interrupted may be made again. A sync that failed may not: a second one may succeed although bytes were lost.
 * - A turn is one frame of the log. It is stored with the next turn, or with linnetshelf_settle, once their calls were made. A crash
 *   leaves all that is stored, with the last turn or without it, and no turn in part.
 * - After a crash linnetshelf_play plays the log on what was saved, from which the log went on. Save what that gives elsewhere before
 *   the old log is given up, and begin a new log. c/journal.c does all of this with the folder of a queue.
 * - A log is written by one process at a time: lock its file.
 *
 * SHELVES. A shelf is a row of queues of the same settings, numbered from 0. A queue that has no place for a message is closed,
 * and the next one begins. Readers and takers go on from a closed queue to the next. Messages are in the order of their queues,
 * and in each queue in that of their indices. linnetshelf_shelf_create hands out the first writer of a shelf. All others come
 * from that one. Only the calls linnetshelf_shelf_.. and linnetshelf_destroy take them.
 *
 * At most `most` queues of a shelf live at once. What happens where a new one would be one more, `at_limit` says:
 * - LINNETSHELF_REFUSE: an append is FULL, and no message is lost. A queue is kept by each writer, reader and taker that is at it,
 *   by each name that takes there, and by the queue before it while that is kept. What nobody keeps is freed. So the slowest of
 *   them has to go on or be destroyed. A name goes on only by its takers: one that nobody takes by keeps every queue from the
 *   first on. A writer that appends nothing goes on by linnetshelf_shelf_follow.
 * - LINNETSHELF_DROP_OLDEST: the oldest queue is dropped. Who is at it still reads or takes the rest of it. If queues between it
 *   and the oldest that lives were dropped, the next call is MISSED, with their number, and the one after goes on from there.
 *
 * linnetshelf_shelf_close closes a shelf for all its writers. What was appended is read and taken as before; then reads and takes
 * are FINISHED. A message that a writer has begun is given up when that writer is destroyed. BUSY also comes where others go from
 * one queue to the next at the same moment. Nothing is lost then: call again.
 */
#ifndef LINNETSHELF_H
#define LINNETSHELF_H

#include <stdbool.h>
#include <stddef.h>
#include <stdint.h>

#ifdef __cplusplus
extern "C" {
#endif

/* The version of this header: 1,000,000 * major + 1,000 * minor + patch. linnetshelf_version returns that of the library. */
#define LINNETSHELF_VERSION 1000 /* 0.1.0 */

/* How a call went. linnetshelf_text has a text for each. */
typedef enum {
    LINNETSHELF_DONE = 0, /* done */
    LINNETSHELF_NOT_YET = 1, /* there is no such message yet */
    LINNETSHELF_BEFORE_START = 2, /* there is no earlier message */
    LINNETSHELF_NEVER = 3, /* no message will ever be there: its cycle is below the current one */
    LINNETSHELF_GONE = 4, /* the cycle of this index was dropped, so reads skip it */
    LINNETSHELF_NO_MESSAGE = 5, /* no message is at this index, or its cycle was dropped; the endpoint stays where it is */
    LINNETSHELF_NO_ROOM = 6, /* the buffer is too small; the answer has the length that is needed */
    LINNETSHELF_MOVED = 7, /* the name is elsewhere and was not moved; the answer has its position */
    LINNETSHELF_BUSY = 8, /* another endpoint is writing */
    LINNETSHELF_CYCLE_FULL = 9, /* the message does not fit after those of the current cycle, or the index of that cycle is full */
    LINNETSHELF_NO_CYCLE_LEFT = 10, /* the moment lies in a later cycle, and the queue has as many cycles as it may have */
    LINNETSHELF_BAD_ROOM = 11, /* no message has this length, which is 0 or above 2^30 - 1 bytes */
    LINNETSHELF_BAD_MOMENT = 12, /* the moment lies in no cycle */
    LINNETSHELF_WRITING = 13, /* the endpoint has begun a message, which has to be completed or given up first */
    LINNETSHELF_NOT_WRITING = 14, /* the endpoint has begun no message */
    LINNETSHELF_PAST_ROOM = 15, /* the bytes would pass the size for which the message was begun */
    LINNETSHELF_EMPTY_MESSAGE = 16, /* nothing was put: a message has at least one byte */
    LINNETSHELF_NOT_SEEN = 17, /* the position or the cycle is above the end that the endpoint has seen */
    LINNETSHELF_NO_SUCH_NAME = 18, /* the queue declares no tailer of this name */
    LINNETSHELF_BAD_DIRECTION = 19, /* no direction has this number */
    LINNETSHELF_BAD_SETTINGS = 20, /* a setting is outside its limits */
    LINNETSHELF_BAD_CONTENTS = 21, /* no queue of these settings holds these cycles, positions and floor */
    LINNETSHELF_BEHIND_OPEN = 22, /* the cycle before has not ended, and nothing may follow that */
    LINNETSHELF_CUT = 23, /* the image ends before a record does, or where a message must follow */
    LINNETSHELF_BAD_HEADER = 24, /* four bytes of the image are no header, where one must be */
    LINNETSHELF_UNFINISHED = 25, /* a record of the image is not complete */
    LINNETSHELF_WRONG_STORE = 26, /* the store record of the image is not that of the cycle and the settings */
    LINNETSHELF_WRONG_TABLE = 27, /* a table of the image is missing, or has a wrong size or a wrong entry */
    LINNETSHELF_BAD_PADDING = 28, /* a byte of the image after a message, up to the next four bytes, is not 0 */
    LINNETSHELF_AFTER_END = 29, /* bytes follow the end of data of the image */
    LINNETSHELF_OVER_SHAPE = 30, /* a message of the image does not fit the settings after those before it */
    LINNETSHELF_NO_SUCH_PLACE = 31, /* there are not as many cycles or names */
    LINNETSHELF_IN_USE = 32, /* other endpoints of the queue are alive */
    LINNETSHELF_WRONG_KIND = 33, /* the handle holds something else than this call is for */
    LINNETSHELF_OUT_OF_MEMORY = 34, /* out of memory */
    LINNETSHELF_CLOSED = 35, /* the queue or the shelf is closed: nothing was appended or begun, or it was closed before */
    LINNETSHELF_FINISHED = 36, /* there is no such message, and none will come: the queue or the shelf is closed */
    LINNETSHELF_FULL = 37, /* as many queues of the shelf live as may, and the oldest is still used */
    LINNETSHELF_MISSED = 38, /* queues of the shelf were dropped before they were read; the answer has how many */
    LINNETSHELF_BAD_SHELF = 39, /* a shelf has at least two queues */
    LINNETSHELF_NO_CALL = 40, /* no call of the log is left */
    LINNETSHELF_LOG_STOPPED = 41, /* a call of the log failed, or memory for one was refused: open the log again, and play what is stored */
    LINNETSHELF_LONG_FRAME = 42, /* too much came for one frame of the log: save the queue, and begin a new log */
    LINNETSHELF_LOG_FULL = 43, /* the log is full: save the queue, and begin a new log */
    LINNETSHELF_LONG_HEAD = 44, /* the settings are too long for a log */
    LINNETSHELF_BAD_HEAD = 45, /* the first frame of the log is not one with which a log begins */
    LINNETSHELF_OTHER_LOG = 46, /* the log goes on from something else than what is saved */
    LINNETSHELF_BAD_TURN = 47, /* a frame of the log is at fault, or cannot be played; the answer has its number */
    LINNETSHELF_BAD_GAIN = 48, /* no queue of these settings holds what the log gives */
} linnetshelf_status;

/* How long a cycle is. */
enum { LINNETSHELF_DAILY = 0, LINNETSHELF_HOURLY = 1, LINNETSHELF_MINUTELY = 2 };

/* Which way an endpoint reads. */
enum { LINNETSHELF_FORWARDS = 0, LINNETSHELF_BACKWARDS = 1 };

/* What happens where a new queue of a shelf would be one more than may live. */
enum { LINNETSHELF_REFUSE = 0, LINNETSHELF_DROP_OLDEST = 1 };

/* Which call of a log the caller is to make of the log's file: write bytes at an offset, cut the file to a length, bring its bytes to
 * the disk, or bring the names in its folder there. */
enum { LINNETSHELF_LOG_WRITE = 0, LINNETSHELF_LOG_CUT = 1, LINNETSHELF_LOG_SYNC = 2, LINNETSHELF_LOG_SYNC_FOLDER = 3 };

/* What the library holds for the caller. */
typedef struct {
    void *at;
} linnetshelf_handle;

/* How a queue is made. All cycles together have at most 4,194,304 cells. */
typedef struct {
    uint64_t epoch;         /* when cycle 0 begins, in milliseconds of Unix time */
    uint32_t cells;         /* the cells of a cycle, of four bytes each: from 13 + 2 * (1 + index_count) to 1,048,576 */
    uint32_t index_count;   /* the entries of an index table: a power of two from 8 to 1,024 */
    uint32_t index_spacing; /* one message in this many has an index entry: a power of two from 1 to 256 */
    uint32_t cycles;        /* how many cycles may begin: 1 to 64 */
    uint32_t roll;          /* how long a cycle is: LINNETSHELF_DAILY, _HOURLY or _MINUTELY */
} linnetshelf_settings;

/* What a call returns that reports more than a status. Fields that it does not report are 0. */
typedef struct {
    uint64_t index;  /* of a message: its cycle in the high 32 bits, its sequence there, from 0, in the low ones; or a position, an
                        end, a cycle or a count, as the call says */
    uint32_t length; /* in bytes: of a message or an image; at NO_ROOM the length that the buffer has to have */
    uint32_t status; /* a linnetshelf_status */
} linnetshelf_answer;

/* What a call returns that appends or reads many messages. Fields that it does not report are 0. */
typedef struct {
    uint64_t index;  /* of the last message that was appended or read, as in linnetshelf_answer */
    uint64_t count;  /* how many messages were appended or read */
    uint32_t length; /* in bytes; at NO_ROOM the length of the next message, for which too few bytes are left */
    uint32_t status; /* a linnetshelf_status: DONE if that was all, and else why the next message was not appended or read */
} linnetshelf_many;

/* How a shelf is made. */
typedef struct {
    linnetshelf_settings queue; /* how each of its queues is made */
    uint32_t most;              /* how many of them may live at once: at least 2 */
    uint32_t at_limit;          /* where a new one would be one more: LINNETSHELF_REFUSE or _DROP_OLDEST */
} linnetshelf_shelf_settings;

/* What a call on a shelf returns that reports where a message is. Fields that it does not report are 0. */
typedef struct {
    uint64_t queue;  /* the number of its queue, from 0 */
    uint64_t index;  /* its index in that queue, as in linnetshelf_answer; at MISSED how many queues were dropped */
    uint32_t length; /* in bytes; at NO_ROOM the length that the buffer has to have */
    uint32_t status; /* a linnetshelf_status */
} linnetshelf_shelf_answer;

/* A call of a log. Fields that it does not report are 0. */
typedef struct {
    uint64_t place;  /* the offset of a write in bytes, or the length in bytes to which the file is cut */
    uint64_t length; /* how many bytes are written; at NO_ROOM the length that the buffer has to have */
    uint32_t kind;   /* which call: LINNETSHELF_LOG_WRITE, _CUT, _SYNC or _SYNC_FOLDER */
    uint32_t status; /* a linnetshelf_status */
} linnetshelf_call;

/* Queues and endpoints. */

/* Makes a queue whose first cycle is that of `moment`, and hands out its first endpoint, which reads forwards from the start.
 * `names` is a text of `length` bytes with a line for each tailer that takes messages by a name: at most 16 distinct names of 1
 * to 32 letters, digits, `_`, `-` and `.` of ASCII.
 * BAD_SETTINGS, BAD_MOMENT, OUT_OF_MEMORY. */
uint32_t linnetshelf_create(const linnetshelf_settings *settings, const void *names, size_t length, uint64_t moment,
                            linnetshelf_handle *out);

/* Hands out another endpoint of the same queue, which may go to another thread. It has begun no message, and reads forwards
 * from the start. It has seen the end at which the queue was created or opened, and nothing that its parent has seen since.
 * OUT_OF_MEMORY. */
uint32_t linnetshelf_split(linnetshelf_handle *endpoint, linnetshelf_handle *out);

/* Lets two endpoints of one queue share what they have seen: afterwards each has seen what the other had. So one may drop
 * cycles or move names up to the end that the other has seen. Both read on where they are. A message that one has begun stays
 * begun; what that endpoint saw as it appended is not shared then. Both have to be of one queue, as endpoints are of which one
 * was split off the other: an error here is not detected. They are two handles, and not the same one. */
uint32_t linnetshelf_meet(linnetshelf_handle *endpoint, linnetshelf_handle *other);

/* Writes how the queue of an endpoint was made to `settings`, and returns how many names it declares, as `index`. The handle may
 * also hold what is saved of a queue. `settings` is not NULL; it may be passed on to linnetshelf_create or linnetshelf_saved_new,
 * which make version 2. The version is not among the settings: for images of version 1 use the handle of
 * linnetshelf_config_read. */
linnetshelf_answer linnetshelf_settings_of(linnetshelf_handle *handle, linnetshelf_settings *settings);

/* Copies the `k`th name that the queue of an endpoint declares, from 0, to the buffer `room`, and returns its length, which is at
 * most 32 bytes. No zero byte is put after it. The handle may also hold what is saved of a queue. NO_SUCH_PLACE, NO_ROOM. */
linnetshelf_answer linnetshelf_names_of(linnetshelf_handle *handle, uint32_t k, void *room, size_t size);

/* Ends what a handle holds. The last endpoint of a queue frees it. A message that the endpoint has begun is given up. A zero handle
 * holds nothing, and nothing is done. */
void linnetshelf_destroy(linnetshelf_handle handle);

/* Appending. */

/* Appends a message of 1 to 2^30 - 1 bytes, and returns its index. It goes to the cycle of `moment`, or to the current cycle if
 * that is later. A later cycle than the current one begins first.
 * BUSY (another endpoint is writing: yield or sleep, then call again), WRITING, BAD_ROOM, BAD_MOMENT, CYCLE_FULL,
 * NO_CYCLE_LEFT, CLOSED. */
linnetshelf_answer linnetshelf_append(linnetshelf_handle *endpoint, uint64_t moment, const void *bytes, size_t length);

/* Appends `count` messages, as that many calls of linnetshelf_append with this moment, and stops at the first that is refused.
 * Their bytes follow each other in the `size` bytes at `bytes`, and lengths[k] is the length of message k. Returns how many were
 * appended, the index of the last of them, and why the next one was not. What was appended stays so. Messages of others may come
 * between them.
 * NO_ROOM (fewer bytes are left than the next message has), and all that linnetshelf_append returns. After BUSY call again with
 * the messages that are left. */
linnetshelf_many linnetshelf_append_many(linnetshelf_handle *endpoint, uint64_t moment, const void *bytes, size_t size,
                                         const uint32_t *lengths, size_t count);

/* Begins a message of at most `most` bytes, which is put in parts. Until it is completed or given up, others that want to write
 * are BUSY. Refused as linnetshelf_append is. */
uint32_t linnetshelf_begin(linnetshelf_handle *endpoint, uint64_t moment, uint32_t most);

/* Puts bytes after those that were put. NOT_WRITING, PAST_ROOM: nothing is put then. */
uint32_t linnetshelf_put(linnetshelf_handle *endpoint, const void *bytes, size_t length);

/* Appends the message that is begun, and returns its index. NOT_WRITING, EMPTY_MESSAGE: it is still begun then. */
linnetshelf_answer linnetshelf_complete(linnetshelf_handle *endpoint);

/* Gives up the message that is begun. NOT_WRITING. */
uint32_t linnetshelf_roll_back(linnetshelf_handle *endpoint);

/* Begins the cycle of `moment` if it is later than the current one, and returns the current cycle.
 * BUSY, WRITING, BAD_MOMENT, NO_CYCLE_LEFT, CLOSED (only where a cycle would begin). */
linnetshelf_answer linnetshelf_advance(linnetshelf_handle *endpoint, uint64_t moment);

/* Closing. */

/* Closes the queue for all its endpoints (see above). Each of them is still to be destroyed.
 * CLOSED (it was closed before), WRITING (this endpoint has begun a message), BUSY (another endpoint is writing: yield or
 * sleep, then call again), CYCLE_FULL (the current cycle is full, and no moment is in a later one; or others have filled the
 * next one meanwhile: call again). The queue is not closed after the last three. */
uint32_t linnetshelf_close(linnetshelf_handle *endpoint);

/* Reading. */

/* Reads the next message in the endpoint's direction into the buffer `room`, and returns its index and length. The endpoint
 * moves after it, or backwards before it. NOT_YET and FINISHED (forwards), BEFORE_START (backwards), NO_ROOM (see above): it
 * stays where it is then. */
linnetshelf_answer linnetshelf_next(linnetshelf_handle *endpoint, void *room, size_t size);

/* Reads up to `count` next messages, as that many calls of linnetshelf_next, and stops at the first that reads none. Their bytes
 * follow each other in the buffer `room`, and answers[k] is what linnetshelf_next returns for message k: its index and length.
 * Answers after the last message are unchanged. Returns how many were read, the index of the last of them, and why the next one
 * was not.
 * NOT_YET and FINISHED (forwards), BEFORE_START (backwards), NO_ROOM (the next message is longer than what is left of the buffer;
 * it is not read, and the next call finds it). */
linnetshelf_many linnetshelf_next_many(linnetshelf_handle *endpoint, void *room, size_t size, linnetshelf_answer *answers,
                                       size_t count);

/* Returns the index and the length of the next message in the endpoint's direction. The message is not read or copied, and the
 * endpoint stays where it is. The next read finds the message, unless its cycle is dropped.
 * NOT_YET and FINISHED (forwards), BEFORE_START (backwards). */
linnetshelf_answer linnetshelf_peek(linnetshelf_handle *endpoint);

/* Reads the message with this index into the buffer `room`, and returns its length. The endpoint stays where it is. NOT_YET,
 * FINISHED, NEVER, GONE, NO_ROOM (see above). */
linnetshelf_answer linnetshelf_read_at(linnetshelf_handle *endpoint, uint64_t index, void *room, size_t size);

/* Sets the direction in which the endpoint reads: LINNETSHELF_FORWARDS or LINNETSHELF_BACKWARDS. BAD_DIRECTION. */
uint32_t linnetshelf_direction(linnetshelf_handle *endpoint, uint32_t direction);

/* Moves to the message with this index, which is read next forwards. NO_MESSAGE: none is there, and the endpoint stays where it
 * is. */
uint32_t linnetshelf_move_to(linnetshelf_handle *endpoint, uint64_t index);

/* Moves before the first message. */
uint32_t linnetshelf_to_start(linnetshelf_handle *endpoint);

/* Moves to the end, and returns it: the index that the next message of the current cycle gets. */
linnetshelf_answer linnetshelf_to_end(linnetshelf_handle *endpoint);

/* Returns the end: the index that the next message of the current cycle gets. The endpoint stays where it is, and has seen this
 * end. OUT_OF_MEMORY: the queue has as many endpoints as it may have. */
linnetshelf_answer linnetshelf_end(linnetshelf_handle *endpoint);

/* Returns where the endpoint is: the message that it reads next forwards has this index or a later one. */
linnetshelf_answer linnetshelf_cursor(linnetshelf_handle *endpoint);

/* Drops the cycles before this one: from now on reads, moves and takes of all endpoints skip them. Returns the floor, the
 * cycle below which all are skipped. No memory is freed. NOT_SEEN: the cycle is above that of the end which this endpoint has
 * seen; linnetshelf_to_end and linnetshelf_end see it. */
linnetshelf_answer linnetshelf_drop_before(linnetshelf_handle *endpoint, uint32_t cycle);

/* Names. */

/* Takes the next message of a name into the buffer `room`, and returns its index and length. Of all that take by this name, one
 * alone gets it.
 * NO_SUCH_NAME, NOT_YET, FINISHED, NO_ROOM (nothing was taken, and the name stays), MOVED (another endpoint was faster: `index`
 * is where the name was found then). */
linnetshelf_answer linnetshelf_take(linnetshelf_handle *endpoint, const void *name, size_t length, void *room, size_t size);

/* Returns the position of a name: the message that is taken next has this index or a later one. NO_SUCH_NAME. */
linnetshelf_answer linnetshelf_position(linnetshelf_handle *endpoint, const void *name, size_t length);

/* Moves a name from one position to another. MOVED: it was elsewhere, `index` says where, and was not moved. NOT_SEEN: `to` is
 * above the end that this endpoint has seen. NO_SUCH_NAME. */
linnetshelf_answer linnetshelf_seek(linnetshelf_handle *endpoint, const void *name, size_t length, uint64_t from, uint64_t to);

/* Cycles, by the roll and the epoch of a queue. A call with a number that no roll has is BAD_SETTINGS. */

/* Returns the cycle in which a moment lies, as `index`. BAD_MOMENT: it is in none. */
linnetshelf_answer linnetshelf_cycle_of(uint32_t roll, uint64_t epoch, uint64_t moment);

/* Copies the name of a cycle to the buffer `room`, and returns its length, which is at most 13 bytes: `20240928`, `20240928-07` or
 * `20240928-0714`, of the time in UTC at which it begins. `.cqi` after it makes the name of its file. No zero byte is put after it.
 * NO_SUCH_PLACE (no queue has this cycle), NO_ROOM, OUT_OF_MEMORY. */
linnetshelf_answer linnetshelf_cycle_name(uint32_t roll, uint64_t epoch, uint32_t cycle, void *room, size_t size);

/* Returns the cycle with this name, as `index`. NO_SUCH_PLACE: no cycle has it. */
linnetshelf_answer linnetshelf_cycle_named(uint32_t roll, uint64_t epoch, const void *name, size_t length);

/* Saving and opening. */

/* Stops the queue of its last endpoint. From then on the handle holds what is saved: an image of each cycle, a position for
 * each name, and the floor. A message that is begun is given up. IN_USE: other endpoints are alive, and nothing changed.
 * OUT_OF_MEMORY: the queue is stopped; call again to read it. Until then any other call on the handle except
 * linnetshelf_destroy is WRONG_KIND. */
uint32_t linnetshelf_stop(linnetshelf_handle *handle);

/* Hands out a copy of what a queue holds at one moment of this call, as what is saved of it, while its endpoints go on. Messages that
 * are begun are not in it; cycles that were dropped are. Its last cycle is open. Each name is at 0, and the floor is 0: for others call
 * linnetshelf_saved_set_position and _set_floor. The endpoint stays where it is. It takes memory for a copy of each message.
 * OUT_OF_MEMORY: nothing is handed out. */
uint32_t linnetshelf_snapshot(linnetshelf_handle *endpoint, linnetshelf_handle *out);

/* Returns how many cycles are saved, as `index`. */
linnetshelf_answer linnetshelf_saved_count(linnetshelf_handle *saved);

/* Returns the number of cycle `k`, from 0, as `index`. NO_SUCH_PLACE. */
linnetshelf_answer linnetshelf_saved_cycle(linnetshelf_handle *saved, uint32_t k);

/* Returns how many messages cycle `k` has, from 0, as `index`. NO_SUCH_PLACE. */
linnetshelf_answer linnetshelf_saved_length(linnetshelf_handle *saved, uint32_t k);

/* Returns whether cycle `k`, from 0, has ended: `index` is 1, or 0 if it is open. NO_SUCH_PLACE. */
linnetshelf_answer linnetshelf_saved_ended(linnetshelf_handle *saved, uint32_t k);

/* Copies the image of cycle `k`, from 0, to the buffer `room`, and returns its length. These are the bytes of the cycle's file.
 * NO_SUCH_PLACE, NO_ROOM (the answer has the length that is needed), OUT_OF_MEMORY. */
linnetshelf_answer linnetshelf_saved_image(linnetshelf_handle *saved, uint32_t k, void *room, size_t size);

/* Returns the position of the `k`th name, from 0, as `index`. NO_SUCH_PLACE. */
linnetshelf_answer linnetshelf_saved_position(linnetshelf_handle *saved, uint32_t k);

/* Returns the floor, below which reads skip all cycles, as `index`. */
linnetshelf_answer linnetshelf_saved_floor(linnetshelf_handle *saved);

/* Hands out a queue of no cycle, to which what was saved is added. BAD_SETTINGS, OUT_OF_MEMORY. */
uint32_t linnetshelf_saved_new(const linnetshelf_settings *settings, const void *names, size_t length, linnetshelf_handle *out);

/* Adds a cycle after the others, from its image. Nothing changed if it is refused. BEHIND_OPEN; CUT to OVER_SHAPE: the bytes
 * are no image of this cycle and these settings, and `index` is where, in bytes; OUT_OF_MEMORY. An image whose store record is
 * of version 1 is WRONG_STORE at 0: `cq migrate` makes version 2 of the files of a folder. */
linnetshelf_answer linnetshelf_saved_add(linnetshelf_handle *saved, uint32_t cycle, const void *bytes, size_t length);

/* Sets the position of the `k`th name, from 0. NO_SUCH_PLACE. */
uint32_t linnetshelf_saved_set_position(linnetshelf_handle *saved, uint32_t k, uint64_t position);

/* Sets the floor. */
uint32_t linnetshelf_saved_set_floor(linnetshelf_handle *saved, uint32_t floor);

/* Reads the text of a folder's file queue.cqc, and hands out a queue of no cycle with its settings, names, positions and floor. To
 * that the images of the folder are added. Where the text is of version 1, so are they.
 * BAD_SETTINGS (`index` is the first line that is not one of the format, from 1; if it is 0, a setting, a name or the floor is
 * outside its limits), OUT_OF_MEMORY. */
linnetshelf_answer linnetshelf_config_read(const void *bytes, size_t length, linnetshelf_handle *out);

/* Copies the text of queue.cqc for what is saved to the buffer `room`, and returns its length.
 * BAD_CONTENTS (the floor is above the last cycle that any queue may have), NO_ROOM, OUT_OF_MEMORY. */
linnetshelf_answer linnetshelf_config_write(linnetshelf_handle *saved, void *room, size_t size);

/* Makes a queue of what is saved, with its last cycle current, and hands out its first endpoint. What is saved stays as it is.
 * BAD_CONTENTS, in these cases: the last cycle has ended; there is none or there are too many; cycles do not rise; one of them
 * is a cycle that these settings cannot have; a position is above the end; the floor is above the last cycle. OUT_OF_MEMORY. */
uint32_t linnetshelf_open(linnetshelf_handle *saved, linnetshelf_handle *out);

/* Logs (see above). */

/* Plays the bytes of a log on what is saved, from which the log goes on, and returns how many turns were played, as `index`. A log
 * without a frame has none: its making was cut short. What comes after its last whole frame is not looked at. It takes memory for a
 * copy of what is saved. Nothing changed if it is refused.
 * BAD_CONTENTS (what is saved cannot be opened), BAD_HEAD, OTHER_LOG, BAD_TURN (`index` is the number of the frame), BAD_GAIN,
 * OUT_OF_MEMORY. */
linnetshelf_answer linnetshelf_play(linnetshelf_handle *saved, const void *bytes, size_t length);

/* Makes a queue of what is saved, as linnetshelf_open does, and hands out its first endpoint and a keeper of the queue. The first
 * calls of a new log are left to make, which goes on from what is saved. What is saved stays as it is. `endpoint` and `keeper` are
 * written as `out` is elsewhere, and are two handles.
 * BAD_CONTENTS (as of linnetshelf_open), LONG_HEAD, OUT_OF_MEMORY. */
uint32_t linnetshelf_keep(linnetshelf_handle *saved, linnetshelf_handle *endpoint, linnetshelf_handle *keeper);

/* Puts what came to the queue since the last turn into the log, as one frame. What the turn before put there is then stored. If nothing
 * came, all that was put is. The calls for it are left to make.
 * OUT_OF_MEMORY (a later turn keeps it all), LONG_FRAME and LOG_FULL (no later turn keeps it), LOG_STOPPED. */
uint32_t linnetshelf_turn(linnetshelf_handle *keeper);

/* Brings all that turns put into the log to be stored. The calls for it are left to make. LOG_STOPPED. */
uint32_t linnetshelf_settle(linnetshelf_handle *keeper);

/* Returns the oldest call of the log that is left, and copies the bytes of a write to the buffer `room`. The caller makes the call of
 * its file, and then calls linnetshelf_log_done. Until then the same call is returned.
 * NO_CALL (each was made), NO_ROOM (the bytes need `length`, and nothing is copied), LOG_STOPPED (a call failed before). */
linnetshelf_call linnetshelf_log_call(linnetshelf_handle *keeper, void *room, size_t size);

/* Notes how the oldest call went that was left: true if it is done, and false if it failed. After one that failed the log has stopped
 * for good. NO_CALL, LOG_STOPPED (a call failed before): nothing changed. */
uint32_t linnetshelf_log_done(linnetshelf_handle *keeper, bool is_done);

/* Returns the end below which all messages are stored, as `index`: those with a lower index survive a crash. It is known when no call
 * is left. While some are left it is the end that was known before. */
linnetshelf_answer linnetshelf_stored(linnetshelf_handle *keeper);

/* Shelves. */

/* Makes a shelf whose first queue begins with the cycle of `moment`, and hands out its first writer. `names` is a text as for
 * linnetshelf_create. Allocates up to 4 KiB for each of the `most` queues, and the first queue.
 * BAD_SETTINGS, BAD_SHELF (`most` is below 2), BAD_MOMENT, OUT_OF_MEMORY. */
uint32_t linnetshelf_shelf_create(const linnetshelf_shelf_settings *settings, const void *names, size_t length, uint64_t moment,
                                  linnetshelf_handle *out);

/* Hands out another one of the kind that the handle holds, which may go to another thread. A writer or a reader begins at the
 * same queue, the reader from its start and forwards; a taker has the same name.
 * BUSY (of a taker), OUT_OF_MEMORY. */
uint32_t linnetshelf_shelf_split(linnetshelf_handle *user, linnetshelf_handle *out);

/* Hands out a reader, which reads forwards from the start of the queue to which the writer appends. OUT_OF_MEMORY. */
uint32_t linnetshelf_shelf_reader(linnetshelf_handle *writer, linnetshelf_handle *out);

/* Hands out a taker by a name, from where that is. NO_SUCH_NAME, BUSY, OUT_OF_MEMORY. */
uint32_t linnetshelf_shelf_taker(linnetshelf_handle *writer, const void *name, size_t length, linnetshelf_handle *out);

/* Appends a message of 1 to 2^30 - 1 bytes, and returns where it is. If its queue has no place for it, the queue is closed. From
 * a closed queue the writer goes on to the next one, and appends there. That queue begins with the cycle of `moment`, or with
 * the last cycle of the queue before it, if that is later.
 * BUSY (yield or sleep, then call again; in the last cycle of time it stays so once not one byte fits), FULL (see above),
 * WRITING, BAD_ROOM (also where an empty queue has no place for the message), BAD_MOMENT, CLOSED (the shelf is), OUT_OF_MEMORY
 * (to the next queue: call again). Nothing was appended then, but the queue may have been closed, and the next one begun. */
linnetshelf_shelf_answer linnetshelf_shelf_append(linnetshelf_handle *writer, uint64_t moment, const void *bytes, size_t length);

/* Begins a message of at most `most` bytes, which is put in parts. It goes on to the next queue as linnetshelf_shelf_append does,
 * and is refused as that is. Until the message is completed or given up, other writers are BUSY. */
uint32_t linnetshelf_shelf_begin(linnetshelf_handle *writer, uint64_t moment, uint32_t most);

/* Puts bytes after those that were put. NOT_WRITING, PAST_ROOM: nothing is put then. */
uint32_t linnetshelf_shelf_put(linnetshelf_handle *writer, const void *bytes, size_t length);

/* Appends the message that is begun, and returns where it is. NOT_WRITING, EMPTY_MESSAGE: it is still begun then. */
linnetshelf_shelf_answer linnetshelf_shelf_complete(linnetshelf_handle *writer);

/* Gives up the message that is begun. NOT_WRITING. */
uint32_t linnetshelf_shelf_roll_back(linnetshelf_handle *writer);

/* Begins the cycle of `moment` if it is later than the current one, in the last queue or in a new one. Returns the current cycle,
 * as `index`. Later queues begin with that cycle or a later one, but for one that another writer begins concurrently. Refused as linnetshelf_shelf_append is, except that BAD_ROOM
 * does not come, and CLOSED only where a cycle would begin. */
linnetshelf_answer linnetshelf_shelf_advance(linnetshelf_handle *writer, uint64_t moment);

/* Goes on to the last queue that has begun, and appends nothing. A writer that does not append calls this now and then, so that
 * others are not FULL. BUSY (it is at a queue up to there: call again), OUT_OF_MEMORY. */
uint32_t linnetshelf_shelf_follow(linnetshelf_handle *writer);

/* Closes the shelf for all its writers (see above). Each of them is still to be destroyed.
 * CLOSED (it was closed before), WRITING (this writer has begun a message), BUSY (yield or sleep, then call again; a full queue in
 * the last cycle of time stays so), OUT_OF_MEMORY. The shelf is not closed after the last three. */
uint32_t linnetshelf_shelf_close(linnetshelf_handle *writer);

/* Reads the next message in the reader's direction into the buffer `room`, and returns where it is and its length. The reader
 * moves after it, or backwards before it. At the end of a closed queue it goes on to the next one; backwards, at the start of a
 * queue, to the one before, if that is kept.
 * NOT_YET and FINISHED (forwards), BEFORE_START (backwards), NO_ROOM, MISSED (`index` queues were dropped; the next call goes on
 * from the oldest that lives), BUSY (call again), OUT_OF_MEMORY (the next queue has as many endpoints as it may have). */
linnetshelf_shelf_answer linnetshelf_shelf_next(linnetshelf_handle *reader, void *room, size_t size);

/* Reads the message with this index in this queue into the buffer `room`, and returns its length. The reader stays where it is.
 * NOT_YET, NEVER (no message will be there), GONE (its queue was freed or dropped), NO_ROOM, BUSY (call again), OUT_OF_MEMORY. */
linnetshelf_answer linnetshelf_shelf_read_at(linnetshelf_handle *reader, uint64_t queue, uint64_t index, void *room, size_t size);

/* Sets the direction in which the reader reads: LINNETSHELF_FORWARDS or LINNETSHELF_BACKWARDS. BAD_DIRECTION. */
uint32_t linnetshelf_shelf_direction(linnetshelf_handle *reader, uint32_t direction);

/* Moves to the message with this index in this queue, which is read next forwards. If that is another queue than the reader's, it
 * reads forwards from then on. NO_MESSAGE (none is there, or its queue is not kept), BUSY, OUT_OF_MEMORY: the reader stays where
 * it is then. */
uint32_t linnetshelf_shelf_move_to(linnetshelf_handle *reader, uint64_t queue, uint64_t index);

/* Moves before the first message of the oldest queue that is kept, and reads forwards. BUSY, OUT_OF_MEMORY: the reader stays
 * where it is then. */
uint32_t linnetshelf_shelf_to_start(linnetshelf_handle *reader);

/* Moves to the end of the last queue that has begun, and reads forwards. BUSY, OUT_OF_MEMORY: the reader is at a queue up to
 * there then. */
uint32_t linnetshelf_shelf_to_end(linnetshelf_handle *reader);

/* Returns where a reader is, or where the name of a taker is. The message that is read next forwards, or taken next, is there
 * or later. */
linnetshelf_shelf_answer linnetshelf_shelf_position(linnetshelf_handle *user);

/* Takes the next message of the taker's name into the buffer `room`, and returns where it is and its length. Of all that take by
 * this name, one alone gets it. At the end of a closed queue the name goes on to the next one.
 * NOT_YET, FINISHED, NO_ROOM, MISSED, BUSY, OUT_OF_MEMORY, as in linnetshelf_shelf_next. MOVED: another taker was faster, and the
 * answer is where the name was found; call again. Nothing was taken then. */
linnetshelf_shelf_answer linnetshelf_shelf_take(linnetshelf_handle *taker, void *room, size_t size);

/* Returns the number of the queue to which a writer appends, or which a reader reads, as `index`. */
linnetshelf_answer linnetshelf_shelf_queue(linnetshelf_handle *user);

/* Returns in how many places of the shelf there is a queue, as `index`. It may miss one that another begins or leaves at that
 * moment. A dropped queue that somebody still reads has no place. */
linnetshelf_answer linnetshelf_shelf_living(linnetshelf_handle *writer);

/* Texts, sizes and the version. */

/* Copies the text of a status and a zero byte after it to `room`, if it has space for both. Returns the length of the text,
 * which is below 128. A number that is no status has a text too. */
size_t linnetshelf_text(uint32_t status, char *room, size_t size);

/* Returns the version of the library. It is LINNETSHELF_VERSION if the library is of the same version as this header. */
uint32_t linnetshelf_version(void);

/* Returns the size in bytes of a struct, for a caller that declares it itself: of a handle (0), of settings (1), of an answer
 * (2), of an answer of a shelf (3), of the settings of a shelf (4), of a call of a log (5), of what a call returns that appends
 * or reads many messages (6). For other numbers it is 0. */
size_t linnetshelf_size(uint32_t which);

#ifdef __cplusplus
}
#endif

#endif
