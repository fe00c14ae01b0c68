/* What programs write around linnetshelf.h: the folder of a queue by its path, calls that wait, and a follower. Plain C11 and
 * POSIX, over the calls of linnetshelf.h. It is tested, and not proved as the library is.
 *
 * Compile linnetshelf_io.c and folder_files.c into a program, and link it with liblinnetshelf.a.
 *
 * FOLDERS. A folder is one of the program cq, which docs/FORMATS.md describes. linnetshelf_io_load reads it. linnetshelf_io_open
 * enters it alone, to change it: until linnetshelf_io_close others wait who open it, cq among them. Also a second call in the same
 * thread waits then, for ever. What is appended is in memory alone, until linnetshelf_io_save writes it: all of it or nothing, also
 * if the process ends meanwhile. For messages that survive a crash one by one, use c/journal.h.
 *
 *     linnetshelf_folder *folder;
 *     linnetshelf_handle queue = {0};
 *     if (linnetshelf_io_open("queue", moment, &folder, &queue) == 0) {
 *         linnetshelf_io_append(&queue, moment, "hello", 5, 1000);
 *         int result = linnetshelf_io_save(folder, &queue);
 *         linnetshelf_destroy(queue);
 *         linnetshelf_io_close(folder);
 *     }
 *
 * RESULTS. A call that returns an int returns 0 if it is done, -1 with errno if a call of the system failed or a file is at fault,
 * and else a linnetshelf_status. Each such call can also return LINNETSHELF_OUT_OF_MEMORY. Where it does not return 0, it hands out
 * nothing, and `out` stays as it is. These values of errno are ours, besides those of the system:
 * - ENOENT: the folder is not there, or has no queue. linnetshelf_io_init makes one.
 * - EBADMSG: a file is not one of such a queue, or is no plain file: the settings, the record of a save, or the name of an image.
 * - ENOTSUP: the folder has version 1. `cq migrate` makes version 2 of it.
 * - EAGAIN: a queue is live in the folder: c/journal.h, `cq log` or another program keeps it in its log.
 * - EFBIG: the log has more than 1 GiB. A file that may not grow is EFBIG too.
 *
 * WAITING. `milliseconds` is the longest time that a call tries again. 0 tries once, and -1, or any other number below 0, has no
 * end. A call that waits yields the processor at first. Then it sleeps longer and longer, from 10 microseconds up to 1 millisecond.
 *
 * THREADS. As linnetshelf.h says of handles: a folder and an endpoint are each in one call at a time. What is true of fork() and of
 * signal handlers there is true here. A signal that interrupts a sleep or a call of the system ends no call.
 */
#ifndef LINNETSHELF_IO_H
#define LINNETSHELF_IO_H

#include "linnetshelf.h"

#ifdef __cplusplus
#include <atomic>
typedef std::atomic<bool> linnetshelf_io_flag;
extern "C" {
#else
#include <stdatomic.h>
/* What one thread sets and another one sees. `linnetshelf_io_flag ends = false;` makes one, and `atomic_store(&ends, true)` sets
 * it. */
typedef atomic_bool linnetshelf_io_flag;
#endif

/* A folder that is open to change. */
typedef struct linnetshelf_folder linnetshelf_folder;

/* Folders. */

/* Makes an empty queue in a folder, as `cq init` does. A folder that is not there is made, in one that is. `names` is a text that
 * ends with a zero byte, with a line for each name, as for linnetshelf_create; "" declares none.
 * EEXIST: a queue is there, or an image or a log of one. LINNETSHELF_BAD_SETTINGS. */
int linnetshelf_io_init(const char *path, const linnetshelf_settings *settings, const char *names);

/* Reads what a folder holds, with its log, also while another program has the queue live. Hands out what is saved: linnetshelf_open
 * makes a queue of it, unless no cycle has begun. It waits until nobody changes the folder, holds the lock only while it reads, and
 * changes nothing. The caller destroys `out`.
 * LINNETSHELF_BAD_SETTINGS. BEHIND_OPEN, and CUT to OVER_SHAPE: an image is at fault. BAD_CONTENTS, and BAD_HEAD to BAD_GAIN, as of
 * linnetshelf_play: the log is at fault, or is not of these images. */
int linnetshelf_io_load(const char *path, linnetshelf_handle *out);

/* Waits for the folder of a queue, and enters it alone. Finishes a save that was cut short, saves what the log has if it has bytes,
 * and opens the queue. Hands out the folder, and the queue's first endpoint, from which others are split off. Where no cycle has
 * begun, that of `moment` begins, in milliseconds of Unix time. The caller destroys the endpoints, and then closes the folder.
 * EAGAIN, and all statuses of linnetshelf_io_load and linnetshelf_open. LINNETSHELF_BAD_MOMENT: no cycle has begun, and `moment` is
 * in none. */
int linnetshelf_io_open(const char *path, uint64_t moment, linnetshelf_folder **folder, linnetshelf_handle *endpoint);

/* Saves what the queue holds at one moment of this call: all of it or nothing. Only files that changed are written. `handle` is an
 * endpoint of the queue of this folder, which goes on with all others; a message that is begun is not saved. Or it holds what
 * linnetshelf_stop left. The positions of names and the floor are those before that moment.
 *
 * After -1 the files are as they were, or all of them are new, where only the last sync failed. Call it again: nothing is lost in
 * memory.
 * LINNETSHELF_BAD_CONTENTS: what the handle holds has other settings or names than the folder. This does not notice every other
 * queue.
 * LINNETSHELF_WRONG_KIND. EBADMSG: a file was replaced by what is no plain file. ENOSPC, EDQUOT, EFBIG, EIO and others of the
 * system. */
int linnetshelf_io_save(linnetshelf_folder *folder, linnetshelf_handle *handle);

/* Lets others enter the folder, and frees `folder`. It saves nothing. */
void linnetshelf_io_close(linnetshelf_folder *folder);

/* Calls that wait. */

/* Appends a message as linnetshelf_append does. While another endpoint writes (BUSY), it tries again.
 * BUSY: another endpoint was writing until the time was over. All others that linnetshelf_append returns come at once. */
linnetshelf_answer linnetshelf_io_append(linnetshelf_handle *endpoint, uint64_t moment, const void *bytes, size_t length,
                                         int64_t milliseconds);

/* Reads the next message as linnetshelf_next does. While there is none (NOT_YET), it tries again.
 * NOT_YET: none came in time. FINISHED, NO_ROOM and all others come at once. With a buffer of `size` 0 it reads nothing: NO_ROOM
 * says that a message is there, and its length. */
linnetshelf_answer linnetshelf_io_next(linnetshelf_handle *endpoint, void *room, size_t size, int64_t milliseconds);

/* Following. */

/* Is called with a message, whose bytes stay until it returns. It may not use the endpoint that follows. False ends the following. */
typedef bool linnetshelf_io_message(void *context, uint64_t index, const void *bytes, size_t length);

/* Calls `call` with each message from a position on, in their order and each once, as they come: also over the ends of cycles.
 * Returns once another thread has set the flag `ends` and no message is left, or the queue is closed and all was read, or `call`
 * returned false. `from` may be an index that has no message: then it begins with the first one above that. 0 is the start.
 * linnetshelf_end returns the end, and linnetshelf_cursor where an endpoint is. The endpoint reads forwards afterwards, after the
 * last message of which `call` knows. Cycles that are dropped are skipped. `ends` may be NULL.
 * DONE: `ends` is set, or `call` returned false. FINISHED: the queue is closed. OUT_OF_MEMORY: call it again with
 * linnetshelf_cursor; no message was left out. WRONG_KIND. */
uint32_t linnetshelf_io_follow(linnetshelf_handle *endpoint, uint64_t from, linnetshelf_io_message *call, void *context,
                               const linnetshelf_io_flag *ends);

#ifdef __cplusplus
}
#endif

#endif
