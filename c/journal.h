/* Keeps the queue of a folder in the folder's log, so that what was appended survives a crash. POSIX alone.
 *
 * Compile c/journal.c and c/folder_files.c into a program, and link it with liblinnetshelf.a and -lpthread. The folder is one of the
 * program cq (`cq init` makes it, docs/FORMATS.md describes it), which reads it meanwhile. While a journal is open, commands of cq that
 * may write are refused, and so is a second journal.
 *
 * Each call returns 0 if it is done, -1 with errno if a call of the system failed, and else a linnetshelf_status. errno is EAGAIN if
 * another has the queue, ENOENT if the folder has none, EBADMSG if a file of the folder is not one of such a queue, ENOTSUP if the
 * folder has version 1, and EFBIG if the log has more than 1 GiB.
 */
#ifndef LINNETSHELF_JOURNAL_H
#define LINNETSHELF_JOURNAL_H

#include "linnetshelf.h"

#ifdef __cplusplus
extern "C" {
#endif

typedef struct journal journal;

/* Opens the queue of a folder: plays the log that is there, saves what it gives, and goes on with a new log and a thread of its own.
 * Hands out the first endpoint of the queue, of which more can be split off. `moment` is that of the first cycle, if none has begun, in
 * milliseconds of Unix time. */
int journal_open(const char *folder, uint64_t moment, journal **out, linnetshelf_handle *endpoint);

/* Waits until the message with this index is stored: from then on a crash does not take it. Any thread may wait. Where the log failed
 * it returns why, and the message may be stored or not. */
int journal_wait(journal *open, uint64_t index);

/* Returns the end below which all messages are stored. */
uint64_t journal_stored(journal *open);

/* Stores what was appended, and ends the thread. Endpoints are to be destroyed as ever; what they append from then on is not kept. No
 * other thread may use the journal any more. */
int journal_close(journal *open);

#ifdef __cplusplus
}
#endif

#endif
