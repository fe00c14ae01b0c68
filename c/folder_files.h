/* The files of a queue's folder, of which c/journal.c and c/linnetshelf_io.c make use: the lock, the record of a save, parts, the
 * settings, the images and the log. POSIX alone. Tested, and not proved. docs/FORMATS.md says what these files are, and in which
 * order they are saved.
 *
 * Each call returns 0 if it is done, -1 with errno if a call of the system failed or a file is not as docs/FORMATS.md says, and
 * else a linnetshelf_status. errno is EBADMSG if a file is not one of such a queue, ENOTSUP if the folder has version 1, ENOENT if
 * it has no queue, EAGAIN if a queue is live in it, and EFBIG if the log has more than 1 GiB.
 */
#ifndef LINNETSHELF_FOLDER_FILES_H
#define LINNETSHELF_FOLDER_FILES_H

#include "linnetshelf.h"
#include <errno.h>
#include <sys/types.h>

/* Bytes that grow: `length` of them are used, of memory for `size`. The caller frees `at`. */
typedef struct {
    char *at;
    size_t length, size;
} folder_bytes;

/* A folder. It is in one thread at a time. */
typedef struct {
    int at;              /* the folder itself, opened; its lock is held between folder_enter and folder_unlock */
    bool is_unsynced;    /* something was renamed or removed that no sync has brought to the disk */
    folder_bytes record; /* the record of a save that is not finished: its text; of no length if there is none */
    size_t removed;      /* where the names of the files that are removed begin in it, after those of the files with parts */
    int unfinished;      /* errno of what kept the last save from being finished, although it is done; 0 if nothing did */
} folder_files;

/* Opens a folder, and takes no lock. */
int folder_open(const char *path, folder_files *out);

/* Waits for the lock of a folder that is open: alone, or shared with other readers. Alone it finishes a save that was cut short,
 * and removes parts of others. What is read shared is what that save leaves. Where the system has no locks on folders, none is
 * held. */
int folder_enter(folder_files *files, bool is_alone);

/* Releases the lock. The folder stays open. */
void folder_unlock(folder_files *files);

/* Releases the lock, closes the folder, and frees what `files` holds. errno stays as it is. */
void folder_close(folder_files *files);

/* Reads the settings and the images, and hands out what is saved: without a cycle if none has begun. The log is not read. */
int folder_load(const folder_files *files, linnetshelf_handle *saved);

/* Reads what the folder holds as folder_load does, plays the log that is there on it, and changes no file. */
int folder_load_with_log(const folder_files *files, linnetshelf_handle *saved);

/* Reads what the folder holds, plays the log that is there on it, and saves what that gives with an empty log. Where no cycle has
 * begun, it begins that of `moment`, in milliseconds of Unix time. The folder is entered alone. If `log` is not NULL, the empty log
 * is made in any case, opened and locked; else a folder is left as it is whose log is missing or has no bytes. No log is handed out
 * while the record of a save is in the folder: if this save is done and cannot be finished, the call fails with errno of that. */
int folder_fold(folder_files *files, uint64_t moment, linnetshelf_handle *saved, int *log);

/* Saves what `saved` holds: all of it or nothing, also if the process ends meanwhile. Files that stay the same are left alone. With
 * `empties_log` the log is made anew, without a byte. The folder is entered alone. A save before this one that failed with its
 * record in place is finished first. Once the record of a save is on the disk, the save is done, even if a rename that is left to
 * make fails: the next save or the next one who enters alone makes it. */
int folder_save(folder_files *files, linnetshelf_handle *saved, bool empties_log);

/* Returns -1 with EEXIST if the folder has a file of a queue: its settings, an image, or a log with bytes. */
int folder_is_free(const folder_files *files);

/* Copies the names that a queue declares, each on a line of its own, as linnetshelf_create takes them. `handle` is that of an
 * endpoint or of what is saved. */
int folder_names(linnetshelf_handle *handle, linnetshelf_settings *settings, folder_bytes *names);

/* What those who make use of this share. */

/* Sets errno, and returns -1. */
static inline int fail(int error) {
    errno = error;
    return -1;
}

/* Makes sure that there is memory for this many bytes. What is there stays. */
int folder_reserve(folder_bytes *to, size_t size);

/* Writes all of the bytes at an offset, or fails. */
int folder_write_all(int file, const char *from, size_t length, uint64_t place);

/* Repeats a sync that a signal interrupted. One that failed otherwise is not repeated: bytes may be lost. */
int folder_sync(int file, int (*sync)(int));

#endif
