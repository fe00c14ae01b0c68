#define _POSIX_C_SOURCE 200809L
#include "linnetshelf_io.h"
#include "folder_files.h"

#include <errno.h>
#include <fcntl.h>
#include <sched.h>
#include <stdlib.h>
#include <string.h>
#include <sys/stat.h>
#include <time.h>
#include <unistd.h>

/* A wait yields the processor this many times before it sleeps, at first this long and at most that long, in nanoseconds. */
enum { YIELDS = 50, FIRST_PAUSE = 10000, LONGEST_PAUSE = 1000000 };

struct linnetshelf_folder {
    folder_files files;
    linnetshelf_settings settings;
    folder_bytes names; /* those that the queue declares, each on a line */
};

/* Folders. */

static bool are_same_settings(const linnetshelf_settings *one, const linnetshelf_settings *other) {
    return one->epoch == other->epoch && one->cells == other->cells && one->index_count == other->index_count &&
           one->index_spacing == other->index_spacing && one->cycles == other->cycles && one->roll == other->roll;
}

/* Brings the name of a folder that was made to the disk. */
static int sync_parent(const folder_files *files) {
    int parent = openat(files->at, "..", O_RDONLY | O_DIRECTORY | O_CLOEXEC);
    int result = parent < 0 ? -1 : folder_sync(parent, fsync), error = errno;
    if (parent >= 0)
        close(parent);
    errno = error;
    return result;
}

int linnetshelf_io_init(const char *path, const linnetshelf_settings *settings, const char *names) {
    linnetshelf_handle saved = {0};
    folder_files files;
    uint32_t status = linnetshelf_saved_new(settings, names, strlen(names), &saved);
    if (status != LINNETSHELF_DONE)
        return (int)status;
    bool is_made = !mkdir(path, 0777);
    int result = !is_made && errno != EEXIST ? -1 : folder_open(path, &files);
    if (!result) {
        result = folder_enter(&files, true);
        if (!result)
            result = folder_is_free(&files);
        if (!result)
            result = folder_save(&files, &saved, false);
        if (!result && is_made)
            result = sync_parent(&files);
        folder_close(&files);
    }
    int error = errno;
    linnetshelf_destroy(saved);
    if (result && is_made)
        rmdir(path);
    errno = error;
    return result;
}

int linnetshelf_io_load(const char *path, linnetshelf_handle *out) {
    folder_files files;
    linnetshelf_handle saved = {0};
    if (folder_open(path, &files))
        return -1;
    int result = folder_enter(&files, false);
    if (!result)
        result = folder_load_with_log(&files, &saved);
    folder_close(&files);
    if (!result)
        *out = saved;
    return result;
}

/* Opens the queue of a folder that is entered alone. */
static int open_queue(linnetshelf_folder *folder, uint64_t moment, linnetshelf_handle *endpoint) {
    linnetshelf_handle saved = {0}, made = {0};
    int result = folder_fold(&folder->files, moment, &saved, NULL);
    if (result)
        return result;
    result = folder_names(&saved, &folder->settings, &folder->names);
    if (!result)
        result = (int)linnetshelf_open(&saved, &made);
    int error = errno;
    linnetshelf_destroy(saved);
    errno = error;
    if (!result)
        *endpoint = made;
    return result;
}

int linnetshelf_io_open(const char *path, uint64_t moment, linnetshelf_folder **folder, linnetshelf_handle *endpoint) {
    linnetshelf_folder *made = calloc(1, sizeof *made);
    if (!made)
        return -1;
    int result = folder_open(path, &made->files);
    if (result) {
        int error = errno;
        free(made);
        errno = error;
        return -1;
    }
    result = folder_enter(&made->files, true);
    if (!result)
        result = open_queue(made, moment, endpoint);
    if (result) {
        int error = errno;
        linnetshelf_io_close(made);
        errno = error;
    } else {
        *folder = made;
    }
    return result;
}

/* Returns BAD_CONTENTS if what is saved has other settings or names than the folder. */
static int check_queue(const linnetshelf_folder *folder, linnetshelf_handle *saved) {
    linnetshelf_settings settings;
    folder_bytes names = {0};
    int result = folder_names(saved, &settings, &names);
    if (!result && (!are_same_settings(&settings, &folder->settings) || strcmp(names.at, folder->names.at) != 0))
        result = LINNETSHELF_BAD_CONTENTS;
    int error = errno;
    free(names.at);
    errno = error;
    return result;
}

/* Sets the positions and the floor of a copy of a queue. They were read before the copy was made, so that it can be opened. */
static int set_places(linnetshelf_handle *copy, const uint64_t *positions, uint32_t count, uint32_t floor) {
    uint32_t status = linnetshelf_saved_set_floor(copy, floor);
    for (uint32_t k = 0; k < count && status == LINNETSHELF_DONE; k++)
        status = linnetshelf_saved_set_position(copy, k, positions[k]);
    return (int)status;
}

/* Copies what a queue holds, with the positions of its names and its floor. WRONG_KIND: the handle holds no endpoint. */
static int copy_queue(linnetshelf_handle *endpoint, linnetshelf_handle *copy) {
    enum { MOST_NAMES = 16, MOST_NAME_BYTES = 32 };
    linnetshelf_settings settings;
    uint64_t positions[MOST_NAMES];
    linnetshelf_answer floor = linnetshelf_drop_before(endpoint, 0);
    if (floor.status != LINNETSHELF_DONE)
        return (int)floor.status;
    uint32_t count = (uint32_t)linnetshelf_settings_of(endpoint, &settings).index;
    for (uint32_t k = 0; k < count && k < MOST_NAMES; k++) {
        char name[MOST_NAME_BYTES];
        linnetshelf_answer found = linnetshelf_names_of(endpoint, k, name, sizeof name);
        if (found.status == LINNETSHELF_DONE)
            found = linnetshelf_position(endpoint, name, found.length);
        if (found.status != LINNETSHELF_DONE)
            return (int)found.status;
        positions[k] = found.index;
    }
    linnetshelf_handle made = {0};
    int result = (int)linnetshelf_snapshot(endpoint, &made);
    if (result)
        return result;
    result = set_places(&made, positions, count, (uint32_t)floor.index);
    if (result)
        linnetshelf_destroy(made);
    else
        *copy = made;
    return result;
}

int linnetshelf_io_save(linnetshelf_folder *folder, linnetshelf_handle *handle) {
    linnetshelf_handle copy = {0};
    int result = copy_queue(handle, &copy);
    bool is_copied = !result;
    if (result == LINNETSHELF_WRONG_KIND)
        result = 0;
    linnetshelf_handle *saved = is_copied ? &copy : handle;
    if (!result)
        result = check_queue(folder, saved);
    if (!result)
        result = folder_save(&folder->files, saved, false);
    int error = errno;
    if (is_copied)
        linnetshelf_destroy(copy);
    errno = error;
    return result;
}

void linnetshelf_io_close(linnetshelf_folder *folder) {
    folder_close(&folder->files);
    free(folder->names.at);
    free(folder);
}

/* Waiting. */

/* How long a call has waited. */
typedef struct {
    int64_t milliseconds; /* at most this long; below 0 without an end */
    int64_t until;        /* the end in nanoseconds of the clock; known once it has begun */
    bool has_begun;
    unsigned yields;
    int64_t pause; /* the next one, in nanoseconds */
} waiting;

/* Returns the time of a clock that nobody sets, in nanoseconds. */
static int64_t now(void) {
    struct timespec at;
    clock_gettime(CLOCK_MONOTONIC, &at);
    return (int64_t)at.tv_sec * 1000000000 + at.tv_nsec;
}

static waiting wait_for(int64_t milliseconds) {
    return (waiting){.milliseconds = milliseconds, .pause = FIRST_PAUSE};
}

/* Returns how many nanoseconds are left of a wait. The first call begins it. */
static int64_t left_of(waiting *of) {
    if (of->milliseconds < 0)
        return INT64_MAX;
    int64_t time = now();
    if (!of->has_begun) {
        of->has_begun = true;
        int64_t most = (INT64_MAX - time) / 1000000;
        of->until = time + (of->milliseconds < most ? of->milliseconds : most) * 1000000;
    }
    return of->until - time;
}

/* Yields or sleeps before the next try. Returns false if the time is over. */
static bool wait_more(waiting *of) {
    int64_t left = left_of(of);
    if (left <= 0)
        return false;
    if (of->yields < YIELDS) {
        of->yields++;
        sched_yield();
        return true;
    }
    int64_t pause = of->pause < left ? of->pause : left;
    struct timespec sleep = {0, (long)pause};
    nanosleep(&sleep, NULL);
    of->pause = of->pause * 3 / 2 < LONGEST_PAUSE ? of->pause * 3 / 2 : LONGEST_PAUSE;
    return true;
}

linnetshelf_answer linnetshelf_io_append(linnetshelf_handle *endpoint, uint64_t moment, const void *bytes, size_t length,
                                         int64_t milliseconds) {
    waiting wait = wait_for(milliseconds);
    linnetshelf_answer answer;
    do
        answer = linnetshelf_append(endpoint, moment, bytes, length);
    while (answer.status == LINNETSHELF_BUSY && wait_more(&wait));
    return answer;
}

linnetshelf_answer linnetshelf_io_next(linnetshelf_handle *endpoint, void *room, size_t size, int64_t milliseconds) {
    waiting wait = wait_for(milliseconds);
    linnetshelf_answer answer;
    do
        answer = linnetshelf_next(endpoint, room, size);
    while (answer.status == LINNETSHELF_NOT_YET && wait_more(&wait));
    return answer;
}

/* Following. */

/* Moves to the first message that has this index or one above it. If there is none yet, to a place from which that is read. */
static uint32_t move_to_position(linnetshelf_handle *endpoint, uint64_t position) {
    for (;;) {
        char none;
        uint32_t status = linnetshelf_move_to(endpoint, position);
        if (status != LINNETSHELF_NO_MESSAGE)
            return status;
        status = linnetshelf_read_at(endpoint, position, &none, 0).status;
        /* Its cycle was dropped, or has ended before it: what comes after it is found from the start. */
        if (status == LINNETSHELF_NEVER || status == LINNETSHELF_GONE)
            return linnetshelf_to_start(endpoint);
        if (status == LINNETSHELF_NOT_YET || status == LINNETSHELF_FINISHED) {
            linnetshelf_answer end = linnetshelf_to_end(endpoint);
            if (end.status != LINNETSHELF_DONE || end.index <= position)
                return end.status;
        }
        /* It came meanwhile. */
    }
}

/* Reads the next message. The buffer grows until it fits. */
static linnetshelf_answer read_next(linnetshelf_handle *endpoint, folder_bytes *room) {
    for (;;) {
        char none;
        linnetshelf_answer answer = linnetshelf_next(endpoint, room->size ? room->at : &none, room->size);
        if (answer.status != LINNETSHELF_NO_ROOM)
            return answer;
        size_t size = 2 * room->size > answer.length ? 2 * room->size : answer.length;
        if (folder_reserve(room, size) && folder_reserve(room, answer.length)) {
            answer.status = LINNETSHELF_OUT_OF_MEMORY;
            return answer;
        }
    }
}

/* Calls with messages until the flag is set and none is left. */
static uint32_t follow(linnetshelf_handle *endpoint, uint64_t from, linnetshelf_io_message *call, void *context,
                       const linnetshelf_io_flag *ends, folder_bytes *room) {
    waiting wait = wait_for(-1);
    for (;;) {
        /* What was appended before the flag was set is read after it was seen. */
        bool is_last = ends && atomic_load(ends);
        linnetshelf_answer answer = read_next(endpoint, room);
        if (answer.status == LINNETSHELF_DONE) {
            if (answer.index >= from && !call(context, answer.index, room->at, answer.length))
                return LINNETSHELF_DONE;
            wait = wait_for(-1);
        } else if (answer.status != LINNETSHELF_NOT_YET) {
            return answer.status;
        } else if (is_last) {
            return LINNETSHELF_DONE;
        } else {
            wait_more(&wait);
        }
    }
}

uint32_t linnetshelf_io_follow(linnetshelf_handle *endpoint, uint64_t from, linnetshelf_io_message *call, void *context,
                               const linnetshelf_io_flag *ends) {
    folder_bytes room = {0};
    uint32_t status = linnetshelf_direction(endpoint, LINNETSHELF_FORWARDS);
    if (status == LINNETSHELF_DONE)
        status = move_to_position(endpoint, from);
    if (status == LINNETSHELF_DONE)
        status = follow(endpoint, from, call, context, ends, &room);
    free(room.at);
    return status;
}
