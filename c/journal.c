#define _POSIX_C_SOURCE 200809L
#include "journal.h"
#include "folder_files.h"

#include <pthread.h>
#include <stdlib.h>
#include <time.h>
#include <unistd.h>

enum { IDLE_MILLIS = 5 };

struct journal {
    folder_files files;
    int log;
    linnetshelf_handle keeper; /* made, used and destroyed by the thread alone */
    folder_bytes room;
    pthread_t thread;
    pthread_mutex_t lock;
    pthread_cond_t wake, stored_more;
    uint64_t stored;
    bool has_begun, is_closing, has_ended;
    bool is_woken; /* somebody began to wait, or to close, since the last turn began */
    int fault, error; /* what the thread ended with, and errno of it */
    uint64_t moment;
    linnetshelf_handle endpoint; /* the first one, for the caller */
};

/* The log. */

/* Makes a call of the log. */
static int make_call(const journal *of, const linnetshelf_call *call) {
    int result = 0;
    switch (call->kind) {
    case LINNETSHELF_LOG_WRITE:
        return folder_write_all(of->log, of->room.at, call->length, call->place);
    case LINNETSHELF_LOG_CUT:
        do
            result = ftruncate(of->log, (off_t)call->place);
        while (result < 0 && errno == EINTR);
        return result;
    case LINNETSHELF_LOG_SYNC:
        return folder_sync(of->log, fdatasync);
    case LINNETSHELF_LOG_SYNC_FOLDER:
        return folder_sync(of->files.at, fsync);
    default:
        return fail(EBADMSG);
    }
}

/* Makes all calls of the log that are left. `count` is how many. */
static int make_calls(journal *of, size_t *count) {
    *count = 0;
    for (;;) {
        char none;
        linnetshelf_call call = linnetshelf_log_call(&of->keeper, of->room.size ? of->room.at : &none, of->room.size);
        if (call.status == LINNETSHELF_NO_ROOM) {
            if (folder_reserve(&of->room, call.length))
                return -1;
            continue;
        }
        if (call.status != LINNETSHELF_DONE)
            return call.status == LINNETSHELF_NO_CALL ? 0 : (int)call.status;
        if (make_call(of, &call)) {
            int error = errno;
            linnetshelf_log_done(&of->keeper, false);
            return fail(error);
        }
        linnetshelf_log_done(&of->keeper, true);
        ++*count;
    }
}

/* The thread. */

/* Makes a turn, and its calls. `is_idle`: nothing was left to do. */
static int turn(journal *of, bool *is_idle) {
    size_t count = 0;
    uint32_t status = linnetshelf_turn(&of->keeper);
    *is_idle = false;
    if (status != LINNETSHELF_DONE)
        return (int)status;
    int result = make_calls(of, &count);
    *is_idle = count == 0;
    return result;
}

/* Waits until somebody begins to wait for a message, or for a while. */
static void rest(journal *of) {
    struct timespec until;
    clock_gettime(CLOCK_REALTIME, &until);
    until.tv_nsec += IDLE_MILLIS * 1000000;
    until.tv_sec += until.tv_nsec / 1000000000;
    until.tv_nsec %= 1000000000;
    pthread_cond_timedwait(&of->wake, &of->lock, &until);
}

/* Makes turns until the journal is closed and all is stored, or until one fails. The lock is held. */
static void make_turns(journal *of) {
    bool is_idle = false, is_last = false;
    while (!of->fault && !(is_last && is_idle)) {
        is_last = of->is_closing;
        of->is_woken = false;
        pthread_mutex_unlock(&of->lock);
        int fault = turn(of, &is_idle), error = errno;
        uint64_t stored = linnetshelf_stored(&of->keeper).index;
        pthread_mutex_lock(&of->lock);
        /* A later turn keeps what one without memory did not. At the end there is none. */
        bool is_refused = fault == LINNETSHELF_OUT_OF_MEMORY && !is_last;
        if (is_refused)
            fault = 0;
        of->fault = fault;
        of->error = error;
        if (stored != of->stored || fault) {
            of->stored = stored;
            pthread_cond_broadcast(&of->stored_more);
        }
        if (is_refused || (is_idle && !fault && !of->is_woken))
            rest(of);
    }
}

/* Folds the log that is there, opens the queue with its keeper, and makes the first calls of the new log. */
static int begin(journal *of) {
    linnetshelf_handle saved = {0};
    int result = folder_enter(&of->files, true);
    if (!result)
        result = folder_fold(&of->files, of->moment, &saved, &of->log);
    if (result)
        return result;
    uint32_t status = linnetshelf_keep(&saved, &of->endpoint, &of->keeper);
    linnetshelf_destroy(saved);
    if (status != LINNETSHELF_DONE)
        return (int)status;
    size_t count;
    result = make_calls(of, &count);
    if (result) {
        int error = errno;
        linnetshelf_destroy(of->keeper);
        linnetshelf_destroy(of->endpoint);
        errno = error;
        return result;
    }
    of->stored = linnetshelf_stored(&of->keeper).index;
    /* From here on the lock of the log keeps others out. */
    folder_unlock(&of->files);
    return 0;
}

/* A keeper stays in one thread, so this one makes it, and destroys it. The endpoint goes to the caller. */
static void *run(void *at) {
    journal *of = at;
    int fault = begin(of), error = errno;
    pthread_mutex_lock(&of->lock);
    of->fault = fault;
    of->error = error;
    of->has_begun = true;
    pthread_cond_broadcast(&of->stored_more);
    if (!fault) {
        make_turns(of);
        linnetshelf_destroy(of->keeper);
    }
    of->has_ended = true;
    pthread_cond_broadcast(&of->stored_more);
    pthread_mutex_unlock(&of->lock);
    return NULL;
}

/* The calls. */

/* Waits for the end of the thread, and frees the journal. Returns what the thread ended with. */
static int end(journal *of) {
    pthread_join(of->thread, NULL);
    int result = of->fault, error = of->error;
    pthread_cond_destroy(&of->stored_more);
    pthread_cond_destroy(&of->wake);
    pthread_mutex_destroy(&of->lock);
    if (of->log >= 0)
        close(of->log);
    folder_close(&of->files);
    free(of->room.at);
    free(of);
    errno = error;
    return result;
}

/* Starts the thread of a journal. */
static int start(journal *of) {
    pthread_mutex_init(&of->lock, NULL);
    pthread_cond_init(&of->wake, NULL);
    pthread_cond_init(&of->stored_more, NULL);
    int error = pthread_create(&of->thread, NULL, run, of);
    return error ? fail(error) : 0;
}

int journal_open(const char *folder, uint64_t moment, journal **out, linnetshelf_handle *endpoint) {
    journal *made = calloc(1, sizeof *made);
    if (!made)
        return -1;
    made->log = -1;
    made->moment = moment;
    bool is_open = !folder_open(folder, &made->files);
    if (!is_open || start(made)) {
        int error = errno;
        if (is_open)
            folder_close(&made->files);
        free(made);
        return fail(error);
    }
    pthread_mutex_lock(&made->lock);
    while (!made->has_begun)
        pthread_cond_wait(&made->stored_more, &made->lock);
    is_open = !made->fault;
    pthread_mutex_unlock(&made->lock);
    if (!is_open)
        return end(made);
    *endpoint = made->endpoint;
    *out = made;
    return 0;
}

int journal_wait(journal *open, uint64_t index) {
    pthread_mutex_lock(&open->lock);
    open->is_woken = true;
    pthread_cond_signal(&open->wake);
    while (open->stored <= index && !open->fault && !open->has_ended)
        pthread_cond_wait(&open->stored_more, &open->lock);
    int result = open->stored > index ? 0 : open->fault;
    if (result < 0)
        errno = open->error;
    pthread_mutex_unlock(&open->lock);
    return result;
}

uint64_t journal_stored(journal *open) {
    pthread_mutex_lock(&open->lock);
    uint64_t stored = open->stored;
    pthread_mutex_unlock(&open->lock);
    return stored;
}

int journal_close(journal *open) {
    pthread_mutex_lock(&open->lock);
    open->is_closing = open->is_woken = true;
    pthread_cond_signal(&open->wake);
    pthread_mutex_unlock(&open->lock);
    return end(open);
}
