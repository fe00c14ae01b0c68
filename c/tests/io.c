/* Folders, calls that wait, and followers of linnetshelf_io.h: over real folders, with real threads and processes that are killed.
 *
 *     io [MESSAGES [ROUNDS [CQ]]]
 *
 * MESSAGES is how many each thread appends, at most 40,000. ROUNDS is how many saves are killed at random moments, without which none
 * are killed at all. CQ is the program cq, which then reads the folders too. It is linked with --wrap of the calls that change a
 * folder. */
#define _DEFAULT_SOURCE
#include "../linnetshelf_io.h"
#include "../journal.h"
#include "check.h"
#include <dirent.h>
#include <errno.h>
#include <fcntl.h>
#include <pthread.h>
#include <sched.h>
#include <signal.h>
#include <stdarg.h>
#include <stdlib.h>
#include <string.h>
#include <sys/file.h>
#include <sys/resource.h>
#include <sys/stat.h>
#include <sys/wait.h>
#include <time.h>
#include <unistd.h>

static char room[] = "/tmp/io.XXXXXX", folder[64];
static const char *cq;
static const uint64_t MOMENT = 20000 * (uint64_t)86400000;
static const char FIRST[] = "20241004.cqi", LAST[] = "20241005.cqi", CONFIG[] = "queue.cqc", RECORD[] = "queue.save", LOG[] = "queue.log";

/* Calls of the system that change a folder. */

int __real_renameat(int from_folder, const char *from, int to_folder, const char *to);
int __real_unlinkat(int at, const char *name, int flags);
int __real_fsync(int file);
int __real_openat(int at, const char *name, int flags, ...);
ssize_t __real_pwrite(int file, const void *from, size_t length, off_t place);

/* How many such calls are made before one fails, or the process is killed; none are counted below 0. The thread of a journal counts
 * its calls too. */
static _Atomic int before_fault = -1;
static _Atomic bool has_failed;
static bool is_killed_then, all_fail_then;

/* Whether another process, which takes no lock of the folder, writes to a log as soon as it is there. */
static bool is_log_shared;

static void put_text(const char *name, const char *text);

/* The calls since this was cleared, but for those that open files and write to them. It is for tests of one thread. */
static char trace[1024];
static bool is_traced;

/* Adds a call to the trace. */
static void note_call(const char *call, const char *name) {
    size_t length = strlen(trace);
    if (is_traced)
        snprintf(trace + length, sizeof trace - length, "%s %s, ", call, name);
}

/* Returns whether this call is to fail. */
static bool fails(void) {
    if (before_fault < 0 || before_fault-- > 0)
        return false;
    if (is_killed_then)
        kill(getpid(), SIGKILL);
    has_failed = true;
    if (all_fail_then)
        before_fault = 0;
    errno = EIO;
    return true;
}

int __wrap_renameat(int from_folder, const char *from, int to_folder, const char *to) {
    note_call("rename", to);
    int result = fails() ? -1 : __real_renameat(from_folder, from, to_folder, to);
    if (!result && is_log_shared && !strcmp(to, LOG))
        put_text(LOG, "x");
    return result;
}

int __wrap_unlinkat(int at, const char *name, int flags) {
    note_call("remove", name);
    return fails() ? -1 : __real_unlinkat(at, name, flags);
}

int __wrap_fsync(int file) {
    struct stat found;
    note_call("sync", fstat(file, &found) || !S_ISDIR(found.st_mode) ? "file" : "folder");
    return fails() ? -1 : __real_fsync(file);
}

int __wrap_openat(int at, const char *name, int flags, ...) {
    va_list more;
    va_start(more, flags);
    mode_t mode = flags & O_CREAT ? va_arg(more, mode_t) : 0;
    va_end(more);
    return fails() ? -1 : __real_openat(at, name, flags, mode);
}

ssize_t __wrap_pwrite(int file, const void *from, size_t length, off_t place) {
    return fails() ? -1 : __real_pwrite(file, from, length, place);
}

/* Files. */

static const char *path_of(const char *name) {
    static char paths[4][512];
    static int turn;
    turn = (turn + 1) % 4;
    snprintf(paths[turn], sizeof paths[turn], "%s/%s", folder, name);
    return paths[turn];
}

static void put_file(const char *name, const void *from, size_t length) {
    FILE *file = fopen(path_of(name), "w");
    CHECK(file && fwrite(from, 1, length, file) == length && !fclose(file));
}

static void put_text(const char *name, const char *text) {
    put_file(name, text, strlen(text));
}

static bool is_there(const char *name) {
    struct stat found;
    return lstat(path_of(name), &found) == 0;
}

/* The files of a folder. */
struct files {
    size_t count;
    struct {
        char name[256];
        char *at;
        size_t length;
        ino_t inode;
    } of[16];
};

static struct files get_files(void) {
    static struct files files;
    files.count = 0;
    DIR *entries = opendir(folder);
    struct dirent *entry;
    while (entries && (entry = readdir(entries))) {
        struct stat found;
        if (entry->d_name[0] == '.' || lstat(path_of(entry->d_name), &found) || !S_ISREG(found.st_mode) || files.count == 16)
            continue;
        FILE *file = fopen(path_of(entry->d_name), "r");
        size_t length = (size_t)found.st_size, k = files.count++;
        snprintf(files.of[k].name, sizeof files.of[k].name, "%s", entry->d_name);
        files.of[k].at = malloc(length + 1);
        files.of[k].length = file ? fread(files.of[k].at, 1, length, file) : 0;
        files.of[k].inode = found.st_ino;
        if (file)
            fclose(file);
    }
    closedir(entries);
    return files;
}

static void free_files(struct files *files) {
    for (size_t k = 0; k < files->count; k++)
        free(files->of[k].at);
    files->count = 0;
}

/* Returns the place of a file, or -1. */
static int find(const struct files *files, const char *name) {
    for (size_t k = 0; k < files->count; k++)
        if (!strcmp(files->of[k].name, name))
            return (int)k;
    return -1;
}

/* Whether both have a file of this name with the same bytes. */
static bool is_same_file(const struct files *one, const struct files *other, const char *name) {
    int k = find(one, name), j = find(other, name);
    return k >= 0 && j >= 0 && one->of[k].length == other->of[j].length &&
           !memcmp(one->of[k].at, other->of[j].at, one->of[k].length);
}

static bool are_same(const struct files *one, const struct files *other) {
    bool are = one->count == other->count;
    for (size_t k = 0; k < one->count && are; k++)
        are = is_same_file(one, other, one->of[k].name);
    return are;
}

/* Whether nothing changed in the folder since then. */
static bool stays(const struct files *before) {
    struct files now = get_files();
    bool is = are_same(before, &now);
    free_files(&now);
    return is;
}

static void put_files(const struct files *files) {
    for (size_t k = 0; k < files->count; k++)
        put_file(files->of[k].name, files->of[k].at, files->of[k].length);
}

static void clear(void) {
    DIR *entries = opendir(folder);
    struct dirent *entry;
    while (entries && (entry = readdir(entries)))
        if (strcmp(entry->d_name, ".") && strcmp(entry->d_name, ".."))
            CHECK(remove(path_of(entry->d_name)) == 0);
    closedir(entries);
}

/* Queues. */

static void init(void) {
    clear();
    CHECK(linnetshelf_io_init(folder, &SMALL, "a\nb") == 0);
}

/* Reads all messages of a queue, whose texts have to be these, each with a space after it. */
static bool has(linnetshelf_handle *queue, const char *texts) {
    char found[512] = "", message[64];
    linnetshelf_answer answer;
    size_t length = 0;
    CHECK(linnetshelf_to_start(queue) == STATUS(DONE));
    while ((answer = linnetshelf_next(queue, message, sizeof message)).status == STATUS(DONE))
        length += (size_t)snprintf(found + length, sizeof found - length, "%.*s ", (int)answer.length, message);
    CHECK(answer.status == STATUS(NOT_YET));
    return !strcmp(found, texts);
}

/* Whether the folder has these messages, for who reads it. */
static bool holds(const char *texts) {
    linnetshelf_handle saved = {0}, queue = {0};
    int result = linnetshelf_io_load(folder, &saved);
    CHECK(result == 0);
    if (result)
        return false;
    result = (int)linnetshelf_open(&saved, &queue);
    CHECK(result == STATUS(DONE));
    bool is = !result && has(&queue, texts);
    linnetshelf_destroy(saved);
    if (!result)
        linnetshelf_destroy(queue);
    return is;
}

static void append(linnetshelf_handle *queue, uint64_t moment, const char *text) {
    CHECK(linnetshelf_io_append(queue, moment, text, strlen(text), -1).status == STATUS(DONE));
}

/* Makes the folder of two cycles, with the messages `one` and `two`. */
static void make_two(void) {
    linnetshelf_folder *open = NULL;
    linnetshelf_handle queue = {0};
    init();
    CHECK(linnetshelf_io_open(folder, MOMENT, &open, &queue) == 0);
    append(&queue, MOMENT, "one");
    append(&queue, MOMENT + DAY, "two");
    CHECK(linnetshelf_io_save(open, &queue) == 0);
    linnetshelf_destroy(queue);
    linnetshelf_io_close(open);
}

/* Whether the folder is refused with this result, to those who read it and to those who enter it, and stays as it is. */
static bool refuses(int result, int error) {
    linnetshelf_folder *open = NULL;
    linnetshelf_handle handle = {0};
    struct files before = get_files();
    errno = 0;
    bool is = linnetshelf_io_load(folder, &handle) == result && (result >= 0 || errno == error) && !handle.at;
    errno = 0;
    is = is && linnetshelf_io_open(folder, MOMENT, &open, &handle) == result && (result >= 0 || errno == error) && !handle.at && !open;
    is = is && stays(&before);
    free_files(&before);
    return is;
}

static void keeps(void) {
    linnetshelf_folder *open = NULL;
    linnetshelf_handle queue = {0}, more = {0}, saved = {0};
    char text[8];
    init();
    struct files before = get_files();
    CHECK(before.count == 1 && find(&before, CONFIG) == 0);
    CHECK(linnetshelf_io_init(folder, &SMALL, "") == -1 && errno == EEXIST);
    CHECK(linnetshelf_io_open(folder, MOMENT, &open, &queue) == 0);
    append(&queue, MOMENT, "one");
    CHECK(stays(&before));
    CHECK(linnetshelf_io_save(open, &queue) == 0);
    free_files(&before);
    before = get_files();
    CHECK(before.count == 2 && find(&before, FIRST) >= 0);

    /* The other endpoint has begun a message, which is not saved. What is the same is left alone. */
    CHECK(linnetshelf_split(&queue, &more) == STATUS(DONE));
    append(&more, MOMENT + DAY, "two");
    CHECK(linnetshelf_take(&queue, "b", 1, text, sizeof text).status == STATUS(DONE));
    CHECK(linnetshelf_drop_before(&queue, 20000).status == STATUS(DONE));
    CHECK(linnetshelf_begin(&more, MOMENT + DAY, 8) == STATUS(DONE) && linnetshelf_put(&more, "begun", 5) == STATUS(DONE));
    CHECK(chmod(path_of(CONFIG), 0640) == 0);
    CHECK(linnetshelf_io_save(open, &queue) == 0);
    struct files after = get_files();
    CHECK(after.count == 3 && !is_same_file(&before, &after, FIRST) && !is_same_file(&before, &after, CONFIG));
    struct stat found;
    CHECK(stat(path_of(CONFIG), &found) == 0 && (found.st_mode & 0777) == 0640);
    CHECK(linnetshelf_complete(&more).status == STATUS(DONE));
    CHECK(linnetshelf_io_save(open, &more) == 0);
    struct files last = get_files();
    CHECK(last.of[find(&last, FIRST)].inode == after.of[find(&after, FIRST)].inode);
    CHECK(last.of[find(&last, CONFIG)].inode == after.of[find(&after, CONFIG)].inode);
    CHECK(last.of[find(&last, LAST)].inode != after.of[find(&after, LAST)].inode);

    /* What stop leaves is saved too. Nothing changed since then. */
    CHECK(linnetshelf_io_save(open, &queue) == 0 && stays(&last));
    linnetshelf_destroy(more);
    CHECK(linnetshelf_stop(&queue) == STATUS(DONE));
    CHECK(linnetshelf_io_save(open, &queue) == 0 && stays(&last));
    linnetshelf_destroy(queue);
    linnetshelf_io_close(open);
    CHECK(holds("one two begun "));
    CHECK(linnetshelf_io_load(folder, &saved) == 0);
    CHECK(linnetshelf_saved_position(&saved, 0).index == 0);
    CHECK(linnetshelf_saved_position(&saved, 1).index == (20000ull << 32 | 1));
    CHECK(linnetshelf_saved_floor(&saved).index == 20000);
    linnetshelf_destroy(saved);
    free_files(&before);
    free_files(&after);
    free_files(&last);
}

static void makes_folders(void) {
    linnetshelf_handle saved = {0}, queue = {0};
    linnetshelf_settings wrong = SMALL, found;
    init();
    clear();
    CHECK(rmdir(folder) == 0);
    wrong.cells = 1;
    CHECK(linnetshelf_io_init(folder, &wrong, "") == STATUS(BAD_SETTINGS) && access(folder, F_OK));
    CHECK(linnetshelf_io_init(folder, &SMALL, "a\na") == STATUS(BAD_SETTINGS) && access(folder, F_OK));
    CHECK(linnetshelf_io_init("/tmp/no.such.folder/queue", &SMALL, "") == -1 && errno == ENOENT);
    CHECK(linnetshelf_io_init(folder, &SMALL, "") == 0);
    CHECK(linnetshelf_io_load(folder, &saved) == 0);
    CHECK(linnetshelf_saved_count(&saved).index == 0 && linnetshelf_open(&saved, &queue) == STATUS(BAD_CONTENTS));
    CHECK(linnetshelf_settings_of(&saved, &found).index == 0 && found.cells == SMALL.cells && found.roll == SMALL.roll);
    linnetshelf_destroy(saved);
    const char *names[] = {FIRST, LOG};
    for (int k = 0; k < 2; k++) {
        clear();
        put_text(names[k], "x");
        CHECK(linnetshelf_io_init(folder, &SMALL, "") == -1 && errno == EEXIST && !is_there(CONFIG));
    }
    clear();
    put_text(LOG, "");
    CHECK(linnetshelf_io_init(folder, &SMALL, "") == 0);
}

static void refuses_faults(void) {
    linnetshelf_folder *open = NULL;
    linnetshelf_handle queue = {0}, other = {0};
    clear();
    CHECK(refuses(-1, ENOENT));
    init();
    struct files before = get_files();
    char text[256];
    snprintf(text, sizeof text, "%.*s", (int)before.of[0].length, before.of[0].at);
    put_text(CONFIG, "cq 2\nroll daily\nepoch 00\n");
    CHECK(refuses(-1, EBADMSG));
    text[3] = '1';
    put_text(CONFIG, text);
    CHECK(refuses(-1, ENOTSUP));
    text[3] = '2';
    memcpy(strstr(text, "4096"), "4   ", 4);
    put_text(CONFIG, text);
    CHECK(refuses(-1, EBADMSG));
    put_text(CONFIG, "cq 2\nroll daily\nepoch 0\ncells 4096\ncount 17\nspacing 4\ncycles 4\n");
    CHECK(refuses(STATUS(BAD_SETTINGS), 0));
    put_files(&before);
    put_text("20240230.cqi", "");
    CHECK(refuses(-1, EBADMSG));
    CHECK(unlink(path_of("20240230.cqi")) == 0);
    put_text(FIRST, "\1");
    CHECK(refuses(STATUS(CUT), 0));
    CHECK(unlink(path_of(FIRST)) == 0 && symlink(CONFIG, path_of(FIRST)) == 0);
    CHECK(refuses(-1, EBADMSG));
    CHECK(unlink(path_of(FIRST)) == 0 && mkfifo(path_of(FIRST), 0600) == 0);
    CHECK(refuses(-1, EBADMSG));
    CHECK(unlink(path_of(FIRST)) == 0 && mkdir(path_of(FIRST), 0700) == 0);
    CHECK(refuses(-1, EBADMSG));
    free_files(&before);

    /* A position is not lost with the images. */
    make_two();
    CHECK(unlink(path_of(FIRST)) == 0 && unlink(path_of(LAST)) == 0);
    put_text(CONFIG, "cq 2\nroll daily\nepoch 0\ncells 4096\ncount 16\nspacing 4\ncycles 4\nname a 7\n");
    before = get_files();
    CHECK(linnetshelf_io_open(folder, MOMENT, &open, &queue) == STATUS(BAD_CONTENTS) && stays(&before));
    free_files(&before);

    /* Another queue is not saved there. */
    make_two();
    before = get_files();
    CHECK(linnetshelf_io_open(folder, MOMENT, &open, &queue) == 0);
    CHECK(linnetshelf_create(&SMALL, "a", 1, MOMENT, &other) == STATUS(DONE));
    CHECK(linnetshelf_io_save(open, &other) == STATUS(BAD_CONTENTS));
    linnetshelf_destroy(other);
    linnetshelf_shelf_settings shelf = {.queue = SMALL, .most = 2};
    CHECK(linnetshelf_shelf_create(&shelf, "", 0, MOMENT, &other) == STATUS(DONE));
    CHECK(linnetshelf_io_save(open, &other) == STATUS(WRONG_KIND));
    linnetshelf_destroy(other);
    CHECK(unlink(path_of(LAST)) == 0 && symlink(CONFIG, path_of(LAST)) == 0);
    append(&queue, MOMENT + DAY, "three");
    CHECK(linnetshelf_io_save(open, &queue) == -1 && errno == EBADMSG);
    CHECK(unlink(path_of(LAST)) == 0 && linnetshelf_io_save(open, &queue) == 0);
    linnetshelf_destroy(queue);
    linnetshelf_io_close(open);
    CHECK(holds("one two three "));
    free_files(&before);
}

/* Records of saves. */

/* A record, the names of its files with parts and of those that it removes, and the messages and the number of files after it. */
static const struct {
    const char *text, *names[3], *removed[4], *messages;
    size_t count;
} SAVES[] = {
    {"cq save 1\n77\n20241005.cqi\nqueue.cqc\nend\n", {LAST, CONFIG}, {NULL}, "one two three ", 3},
    {"cq save 1\n77\n20241005.cqi\nqueue.log\nend\n", {LAST, LOG}, {NULL}, "one two three ", 4},
    {"cq save 2\n77\n\n20241004.cqi\nend\n", {NULL}, {FIRST}, "two ", 2},
    {"cq save 2\n77\n20241005.cqi\nqueue.cqc\n\n20241004.cqi\nend\n", {LAST, CONFIG}, {FIRST}, "two three ", 2},
    {"cq save 2\n77\n20241004.cqi\nqueue.cqc\n\n20241004.cqi\nend\n", {FIRST, CONFIG}, {FIRST}, "two ", 2},
    {"cq save 2\n77\nqueue.cqc\n\n20241003.cqi\n20241004.cqi\nqueue.log\nend\n", {CONFIG}, {"20241003.cqi", FIRST, LOG}, "two ", 2},
};

/* Makes the folder before and after a save, from which records are made. */
static void make_both(struct files *before, struct files *after) {
    linnetshelf_folder *open = NULL;
    linnetshelf_handle queue = {0};
    char text[8];
    make_two();
    *before = get_files();
    CHECK(linnetshelf_io_open(folder, MOMENT, &open, &queue) == 0);
    append(&queue, MOMENT + DAY, "three");
    CHECK(linnetshelf_take(&queue, "a", 1, text, sizeof text).status == STATUS(DONE));
    CHECK(linnetshelf_take(&queue, "a", 1, text, sizeof text).status == STATUS(DONE));
    CHECK(linnetshelf_io_save(open, &queue) == 0);
    linnetshelf_destroy(queue);
    linnetshelf_io_close(open);
    *after = get_files();
}

/* Makes the folder of a save that was cut short after this number of its renames and removals. Returns how many it has. */
static int cut_short(size_t which, int done, const struct files *before, const struct files *after) {
    int step = 0;
    clear();
    put_files(before);
    put_text(RECORD, SAVES[which].text);
    put_text("queue.cqc.8.part", "of another");
    for (const char *const *name = SAVES[which].names; *name; name++, step++) {
        char part[64];
        int k = find(after, *name);
        snprintf(part, sizeof part, step < done ? "%s" : "%s.77.part", *name);
        put_file(part, k < 0 ? "" : after->of[k].at, k < 0 ? 0 : after->of[k].length);
    }
    for (const char *const *name = SAVES[which].removed; *name; name++, step++)
        if (step < done && is_there(*name))
            CHECK(unlink(path_of(*name)) == 0);
    return step;
}

/* Saves of either form that were cut short at each of their steps are read through, and finished. */
static void finishes_saves(void) {
    struct files before, after;
    make_both(&before, &after);
    for (size_t which = 0; which < sizeof SAVES / sizeof *SAVES; which++) {
        for (int done = 0; done <= cut_short(which, done, &before, &after); done++) {
            linnetshelf_folder *open = NULL;
            linnetshelf_handle queue = {0};
            struct files there = get_files();
            CHECK(holds(SAVES[which].messages) && stays(&there));
            free_files(&there);
            CHECK(linnetshelf_io_open(folder, MOMENT, &open, &queue) == 0);
            CHECK(has(&queue, SAVES[which].messages));
            linnetshelf_destroy(queue);
            linnetshelf_io_close(open);
            there = get_files();
            bool is_changed = strstr(SAVES[which].text, CONFIG) != NULL;
            CHECK(there.count == SAVES[which].count && is_same_file(&there, is_changed ? &after : &before, CONFIG));
            CHECK(holds(SAVES[which].messages));
            free_files(&there);
        }
    }
    free_files(&before);
    free_files(&after);
}

/* A record of any other form is refused, and stays. */
static void refuses_records(void) {
    static const char *const WRONG[] = {
        "", "cq save 1\n", "cq save 1\n77\nend\n", "cq save 1\n77\n\nend\n", "cq save 1\n77\nqueue.cqc\n", "cq save 1\n77\nqueue.cqc\nend",
        "cq save 1\n77\nqueue.cqc\nend\nx", "cq save 1\n77\nqueue.cqc\nend\n\n", "cq save 1\n77\nqueue.cqc\nend\nend\n",
        "cq save 1\n077\nqueue.cqc\nend\n", "cq save 1\n+77\nqueue.cqc\nend\n", "cq save 1\n4294967296\nqueue.cqc\nend\n",
        "cq save 1\nqueue.cqc\nend\n", "cq save 1\n77\nqueue.cqd\nend\n", "cq save 1\n77\nqueue.save\nend\n", "cq save 1\n77\n../20241004.cqi\nend\n",
        "cq save 1\n77\nqueue.cqc\n\n20241004.cqi\nend\n", "cq save 1\r\n77\r\nqueue.cqc\r\nend\r\n", " cq save 1\n77\nqueue.cqc\nend\n",
        "cq save 1\n77\n\xff.cqi\nend\n", "cq save 1\n77\n\xed\xa0\x80.cqi\nend\n", "cq save 1\n77\n\xc0\xaf.cqi\nend\n",
        "cq save 2\n77\nend\n", "cq save 2\n77\n\nend\n", "cq save 2\n77\nqueue.cqc\nend\n", "cq save 2\n77\nqueue.cqc\n\nend\n",
        "cq save 2\n77\nqueue.cqc\n20241004.cqi\nend\n", "cq save 2\n77\nqueue.cqc\n\n\n20241004.cqi\nend\n",
        "cq save 2\n77\nqueue.cqc\n\n20241004.cqi\n\nend\n", "cq save 2\n77\nqueue.cqc\n\n20241004.cqi\n", "cq save 2\n77\n\na/20241004.cqi\nend\n",
        "cq save 2\n77\n\n20241004.cqi\nend\nx", "cq save 02\n77\n\n20241004.cqi\nend\n", "cq save 3\n77\n\n20241004.cqi\nend\n"};
    make_two();
    for (size_t k = 0; k < sizeof WRONG / sizeof *WRONG; k++) {
        put_text(RECORD, WRONG[k]);
        CHECK(refuses(-1, EBADMSG));
    }
    put_text(RECORD, "cq save 2\n77\n\nqueue.cqc\nend\n");
    linnetshelf_handle saved = {0};
    CHECK(linnetshelf_io_load(folder, &saved) == -1 && errno == ENOENT && is_there(CONFIG));
    put_file(RECORD, "cq save 1\n77\nqueue.cqc\nend\n\0", 28);
    CHECK(refuses(-1, EBADMSG));
    put_file(RECORD, "cq save 1\n77\n\0.cqi\nend\n", 23);
    CHECK(refuses(-1, EBADMSG));

    /* The longest record, and one that is longer. */
    static char text[1048577];
    size_t length = (size_t)snprintf(text, sizeof text, "cq save 2\n1\n\n");
    for (int k = 0; k < 104855; k++, length += 10)
        memcpy(text + length, "queue.log\n", 10);
    memcpy(text + length, "12345.cqi\nend\n", 14);
    CHECK(length + 14 == sizeof text);
    put_file(RECORD, text, sizeof text);
    CHECK(refuses(-1, EBADMSG));
    memcpy(text + length, "1234.cqi\nend\n", 13);
    put_file(RECORD, text, sizeof text - 1);
    CHECK(holds("one two "));
    linnetshelf_folder *open = NULL;
    linnetshelf_handle queue = {0};
    CHECK(linnetshelf_io_open(folder, MOMENT, &open, &queue) == 0);
    linnetshelf_destroy(queue);
    linnetshelf_io_close(open);
    CHECK(!is_there(RECORD));
}

/* The record is on the disk before a part is renamed, and its removal before another save begins. */
static void syncs_the_record(void) {
    struct files before, after;
    linnetshelf_folder *open = NULL;
    linnetshelf_handle queue = {0};
    make_both(&before, &after);
    cut_short(3, 0, &before, &after);
    CHECK(unlink(path_of("queue.cqc.8.part")) == 0);
    is_traced = true;
    CHECK(linnetshelf_io_open(folder, MOMENT, &open, &queue) == 0);
    CHECK(!strcmp(trace, "sync folder, rename 20241005.cqi, rename queue.cqc, remove 20241004.cqi, sync folder, remove queue.save, "
                         "sync folder, "));
    append(&queue, MOMENT + 2 * DAY, "four");
    trace[0] = 0;
    CHECK(linnetshelf_io_save(open, &queue) == 0);
    const char *renamed = strstr(trace, "sync file, rename queue.save, ");
    CHECK(renamed && !strcmp(renamed, "sync file, rename queue.save, sync folder, rename 20241005.cqi, rename 20241006.cqi, "
                                      "sync folder, remove queue.save, sync folder, "));
    trace[0] = 0;
    CHECK(linnetshelf_drop_before(&queue, 20001).status == STATUS(DONE) && linnetshelf_io_save(open, &queue) == 0);
    renamed = strstr(trace, "sync file, ");
    CHECK(renamed && !strcmp(renamed, "sync file, rename queue.cqc, sync folder, "));
    is_traced = false;
    linnetshelf_destroy(queue);
    linnetshelf_io_close(open);
    free_files(&before);
    free_files(&after);
}

/* Saves of which a call of the system fails, or that are killed there. */

/* Opens the folder of make_two, and changes all of its files but the first image. */
static void change(linnetshelf_folder **open, linnetshelf_handle *queue) {
    char text[8];
    CHECK(linnetshelf_io_open(folder, MOMENT, open, queue) == 0);
    append(queue, MOMENT + DAY, "three");
    CHECK(linnetshelf_take(queue, "a", 1, text, sizeof text).status == STATUS(DONE));
}

/* Whether the folder has all of that change. If it has not, it has to have nothing of it. */
static bool is_changed(void) {
    linnetshelf_handle saved = {0};
    CHECK(linnetshelf_io_load(folder, &saved) == 0);
    bool is = linnetshelf_saved_position(&saved, 0).index != 0;
    linnetshelf_destroy(saved);
    CHECK(holds(is ? "one two three " : "one two "));
    return is;
}

/* The same of a folder whose lock this process holds: of a copy of it. */
static bool is_changed_inside(void) {
    struct files files = get_files();
    char own[sizeof folder];
    memcpy(own, folder, sizeof own);
    snprintf(folder, sizeof folder, "%s/copy", room);
    CHECK(mkdir(folder, 0700) == 0);
    put_files(&files);
    bool is = is_changed();
    clear();
    CHECK(rmdir(folder) == 0);
    memcpy(folder, own, sizeof own);
    free_files(&files);
    return is;
}

static size_t count_files(void) {
    struct files files = get_files();
    size_t count = files.count;
    free_files(&files);
    return count;
}

/* Each call of a save fails in turn. It is tried again, with more messages: a save that left its record is finished first. */
static void fails_at_each_call(void) {
    int fault = 0, left = 0;
    for (bool is_hit = true; is_hit; fault++) {
        linnetshelf_folder *open = NULL;
        linnetshelf_handle queue = {0};
        make_two();
        change(&open, &queue);
        before_fault = fault;
        int result = linnetshelf_io_save(open, &queue), error = errno;
        is_hit = before_fault < 0;
        before_fault = -1;
        CHECK(result == 0 ? is_changed_inside() : result == -1 && error == EIO);
        bool is_left = is_there(RECORD), is_saved = is_changed_inside();
        CHECK(is_left <= is_saved && (is_saved || count_files() == 3));
        if (is_left) {
            /* It opens and syncs the record, makes two renames, syncs, removes the record and syncs: then the next save begins. */
            left++;
            before_fault = 7;
            CHECK(linnetshelf_io_save(open, &queue) == -1 && before_fault < 0);
            CHECK(!is_there(RECORD) && count_files() == 3 && is_changed_inside());
        }
        append(&queue, MOMENT + DAY, "four");
        CHECK(linnetshelf_io_save(open, &queue) == 0 && count_files() == 3);
        linnetshelf_destroy(queue);
        linnetshelf_io_close(open);
        CHECK(holds("one two three four "));
    }
    CHECK(fault > 20 && left >= 5);
}

/* Runs a child that is killed before its call with this number: of a save, or of an opening. Returns whether it was killed. */
static bool is_killed(bool saves, int calls) {
    int status = 0;
    pid_t child = fork();
    if (child == 0) {
        linnetshelf_folder *open = NULL;
        linnetshelf_handle queue = {0};
        is_killed_then = true;
        if (saves)
            change(&open, &queue);
        before_fault = calls;
        if (saves ? linnetshelf_io_save(open, &queue) : linnetshelf_io_open(folder, MOMENT, &open, &queue))
            _exit(1);
        _exit(failures != 0);
    }
    CHECK(waitpid(child, &status, 0) == child && (WIFSIGNALED(status) ? WTERMSIG(status) == SIGKILL : status == 0));
    return WIFSIGNALED(status);
}

/* Opens the folder alone, and changes nothing. */
static void enter(void) {
    linnetshelf_folder *open = NULL;
    linnetshelf_handle queue = {0};
    CHECK(linnetshelf_io_open(folder, MOMENT, &open, &queue) == 0);
    linnetshelf_destroy(queue);
    linnetshelf_io_close(open);
}

/* A save is killed before each of its calls, and then those who open the folder before each of theirs. */
static void is_killed_at_each_call(void) {
    int kills = 0, more = 0;
    make_two();
    struct files first = get_files();
    for (bool was_killed = true; was_killed; kills++) {
        clear();
        put_files(&first);
        was_killed = is_killed(true, kills);
        struct files left = get_files();
        bool is_saved = is_changed();
        CHECK(was_killed || is_saved);
        for (int calls = 0;; calls++, more++) {
            clear();
            put_files(&left);
            bool was_killed_again = is_killed(false, calls);
            CHECK(is_changed() == is_saved);
            enter();
            CHECK(is_changed() == is_saved && count_files() == 3);
            if (!was_killed_again)
                break;
        }
        free_files(&left);
    }
    CHECK(kills > 20 && more > 100);
    free_files(&first);
}

/* So is an opening that finishes a save which removes a file. */
static void is_killed_while_it_finishes(void) {
    struct files before, after;
    make_both(&before, &after);
    for (size_t which = 0; which < sizeof SAVES / sizeof *SAVES; which++) {
        int calls = 0;
        for (bool was_killed = true; was_killed; calls++) {
            cut_short(which, 0, &before, &after);
            was_killed = is_killed(false, calls);
            CHECK(holds(SAVES[which].messages));
            enter();
            CHECK(holds(SAVES[which].messages) && count_files() == SAVES[which].count);
        }
        CHECK(calls > 6);
    }
    free_files(&before);
    free_files(&after);
}

/* Logs. */

/* What a log has is read while its queue is live, and saved once it is not. */
static void plays_a_log(void) {
    journal *live = NULL;
    linnetshelf_folder *open = NULL;
    linnetshelf_handle queue = {0}, again = {0};
    make_two();
    CHECK(journal_open(folder, MOMENT, &live, &queue) == 0);
    uint64_t index = linnetshelf_append(&queue, MOMENT + DAY, "three", 5).index;
    CHECK(journal_wait(live, index) == 0);
    CHECK(holds("one two three "));
    CHECK(linnetshelf_io_open(folder, MOMENT, &open, &again) == -1 && errno == EAGAIN && !open);
    linnetshelf_destroy(queue);
    CHECK(journal_close(live) == 0);
    struct files there = get_files();
    CHECK(holds("one two three ") && stays(&there) && there.of[find(&there, LOG)].length > 0);
    free_files(&there);
    CHECK(linnetshelf_io_open(folder, MOMENT, &open, &again) == 0);
    there = get_files();
    CHECK(find(&there, LOG) >= 0 && there.of[find(&there, LOG)].length == 0);
    free_files(&there);
    append(&again, MOMENT + DAY, "four");
    CHECK(linnetshelf_io_save(open, &again) == 0);
    linnetshelf_destroy(again);
    linnetshelf_io_close(open);
    CHECK(holds("one two three four "));

    /* The log of another queue is refused. */
    CHECK(journal_open(folder, MOMENT, &live, &queue) == 0);
    index = linnetshelf_append(&queue, MOMENT + DAY, "five", 4).index;
    CHECK(journal_wait(live, index) == 0);
    linnetshelf_destroy(queue);
    CHECK(journal_close(live) == 0);
    there = get_files();
    make_two();
    int log = find(&there, LOG);
    put_file(LOG, there.of[log].at, there.of[log].length);
    CHECK(refuses(STATUS(OTHER_LOG), 0));
    free_files(&there);
}

/* Makes a folder in which no cycle has begun, with an empty log. */
static void make_none(void) {
    init();
    put_text(LOG, "");
}

/* Makes the folder of two cycles, with the message `three` in its log. */
static void make_logged(void) {
    journal *live = NULL;
    linnetshelf_handle queue = {0};
    make_two();
    CHECK(journal_open(folder, MOMENT, &live, &queue) == 0);
    CHECK(journal_wait(live, linnetshelf_append(&queue, MOMENT + DAY, "three", 5).index) == 0);
    linnetshelf_destroy(queue);
    CHECK(journal_close(live) == 0);
}

/* Whether those who enter alone are refused, because a queue is live. They finish a save first if its record is there. */
static bool keeps_others_out(void) {
    linnetshelf_folder *open = NULL;
    linnetshelf_handle queue = {0};
    int result = linnetshelf_io_open(folder, MOMENT, &open, &queue), error = errno;
    if (!result) {
        linnetshelf_destroy(queue);
        linnetshelf_io_close(open);
    }
    return result == -1 && error == EAGAIN && !open;
}

/* Opens a journal while the call of the system with this number fails. If the journal opens all the same, stores the message `last`
 * in it, while others want to enter. Returns whether it is stored. */
static bool stores_last(int fault, bool closes) {
    journal *live = NULL;
    linnetshelf_handle queue = {0};
    has_failed = false;
    before_fault = fault;
    int result = journal_open(folder, MOMENT, &live, &queue), error = errno;
    before_fault = -1;
    if (result) {
        CHECK(has_failed && result == -1 && error == EIO && !live && !queue.at);
        return false;
    }
    CHECK(!is_there(RECORD) && keeps_others_out());
    CHECK(journal_wait(live, linnetshelf_append(&queue, MOMENT + DAY, "last", 4).index) == 0);
    CHECK(keeps_others_out());
    if (!closes)
        _exit(failures != 0);
    linnetshelf_destroy(queue);
    CHECK(journal_close(live) == 0);
    return true;
}

/* The same in a child, which ends without closing its journal. */
static bool stores_last_and_ends(int fault) {
    int status = 0;
    pid_t child = fork();
    if (child == 0) {
        failures = 0;
        bool is_stored = stores_last(fault, false);
        _exit(is_stored || failures ? 1 : 2);
    }
    CHECK(waitpid(child, &status, 0) == child && WIFEXITED(status) && WEXITSTATUS(status) != 1);
    return WEXITSTATUS(status) == 0;
}

/* Whether cq reads these messages. */
static bool cq_reads(const char *texts) {
    char command[1024];
    snprintf(command, sizeof command, "test \"$(%s read %s | cut -c18- | tr '\\n' ' ')\" = '%s'", cq, folder, texts);
    return !cq || system(command) == 0;
}

/* Whether the folder has these messages, for those who read it and for the next one who goes live. */
static bool holds_live(const char *texts) {
    journal *live = NULL;
    linnetshelf_handle queue = {0};
    bool is = !*texts || (holds(texts) && cq_reads(texts));
    int result = journal_open(folder, MOMENT, &live, &queue);
    CHECK(result == 0);
    if (result)
        return false;
    is = is && !is_there(RECORD) && has(&queue, texts);
    linnetshelf_destroy(queue);
    CHECK(journal_close(live) == 0);
    return is && holds(texts) && cq_reads(texts);
}

/* Folders whose queue goes live, and the messages before and after `last` is stored. */
static const struct {
    void (*make)(void);
    const char *before, *after;
} CLOSED[] = {
    {make_none, "", "last "}, {make_two, "one two ", "one two last "}, {make_logged, "one two three ", "one two three last "}};

/* Opens a journal in such a folder while a call fails: what is stored is there then, and the next opening works. Returns whether the
 * opening failed and left the record of a save. */
static bool opens_with_fault(size_t which, int fault, bool closes) {
    CLOSED[which].make();
    bool is_stored = closes ? stores_last(fault, true) : stores_last_and_ends(fault);
    bool is_left = is_there(RECORD);
    CHECK(!is_stored || !is_left);
    CHECK(holds_live(is_stored ? CLOSED[which].after : CLOSED[which].before));
    return is_left;
}

/* Each call of an opening with a log fails in turn, alone or with all that come after it. */
static void goes_live_or_fails(bool kills) {
    int left = 0;
    for (size_t which = 0; which < sizeof CLOSED / sizeof *CLOSED; which++) {
        for (int all = 0; all < 2; all++) {
            int fault = 0;
            all_fail_then = all;
            do
                left += opens_with_fault(which, fault, true);
            while (has_failed && ++fault);
            CHECK(fault > 15);
            for (; kills && fault >= 0; fault--)
                opens_with_fault(which, fault, false);
        }
    }
    all_fail_then = false;
    CHECK(left >= 12);
}

/* A log that has bytes although it was just emptied is in use by another. */
static void refuses_a_log_with_bytes(void) {
    journal *live = NULL;
    linnetshelf_handle queue = {0};
    make_logged();
    is_log_shared = true;
    CHECK(journal_open(folder, MOMENT, &live, &queue) == -1 && errno == EAGAIN && !live && !queue.at);
    is_log_shared = false;
    CHECK(holds_live("one two three "));
}

/* Locks. */

/* In a child: holds the lock of the folder, says so, and lets it go after a while. */
static pid_t hold(int how, int milliseconds) {
    int ends[2];
    char byte;
    CHECK(pipe(ends) == 0);
    pid_t child = fork();
    if (child == 0) {
        int at = open(folder, O_RDONLY | O_DIRECTORY);
        struct timespec pause = {0, milliseconds * 1000000L};
        if (at < 0 || flock(at, how) || write(ends[1], "", 1) != 1)
            _exit(1);
        nanosleep(&pause, NULL);
        _exit(0);
    }
    close(ends[1]);
    CHECK(read(ends[0], &byte, 1) == 1);
    close(ends[0]);
    return child;
}

/* The seconds within which a call answers that waits for nothing, also under valgrind on a machine that does much else. */
enum { SOON = 10 };

static double seconds(void) {
    struct timespec at;
    CHECK(clock_gettime(CLOCK_MONOTONIC, &at) == 0);
    return (double)at.tv_sec + (double)at.tv_nsec / 1e9;
}

static void ended(pid_t child) {
    int status = 1;
    CHECK(waitpid(child, &status, 0) == child && status == 0);
}

static void waits_for_others(void) {
    linnetshelf_folder *open = NULL;
    linnetshelf_handle queue = {0};
    make_two();
    double began = seconds();
    pid_t child = hold(LOCK_EX, 200);
    CHECK(holds("one two ") && seconds() - began >= 0.2);
    ended(child);
    began = seconds();
    child = hold(LOCK_SH, 200);
    CHECK(linnetshelf_io_open(folder, MOMENT, &open, &queue) == 0 && seconds() - began >= 0.2);
    ended(child);
    int at = openat(AT_FDCWD, folder, O_RDONLY | O_DIRECTORY);
    CHECK(flock(at, LOCK_SH | LOCK_NB) == -1 && errno == EWOULDBLOCK);
    linnetshelf_destroy(queue);
    linnetshelf_io_close(open);
    CHECK(flock(at, LOCK_SH | LOCK_NB) == 0);
    CHECK(holds("one two "));
    close(at);
}

/* A disk that is full, by a limit on the size of files. */
static void survives_a_full_disk(void) {
    linnetshelf_folder *open = NULL;
    linnetshelf_handle queue = {0};
    static char message[4000];
    memset(message, 'x', sizeof message);
    make_two();
    struct files before = get_files();
    signal(SIGXFSZ, SIG_IGN);
    struct rlimit usual, limit;
    CHECK(getrlimit(RLIMIT_FSIZE, &usual) == 0);
    CHECK(linnetshelf_io_open(folder, MOMENT, &open, &queue) == 0);
    CHECK(linnetshelf_io_append(&queue, MOMENT + DAY, message, sizeof message, 0).status == STATUS(DONE));
    CHECK(linnetshelf_io_append(&queue, MOMENT + 2 * DAY, "last", 4, 0).status == STATUS(DONE));
    for (rlim_t size = 0; size < 4096; size += 100) {
        limit = usual;
        limit.rlim_cur = size;
        CHECK(setrlimit(RLIMIT_FSIZE, &limit) == 0);
        int result = linnetshelf_io_save(open, &queue), error = errno;
        CHECK(setrlimit(RLIMIT_FSIZE, &usual) == 0);
        CHECK(result == -1 && error == EFBIG && stays(&before));
    }
    CHECK(linnetshelf_io_save(open, &queue) == 0 && !stays(&before));
    linnetshelf_destroy(queue);
    linnetshelf_io_close(open);
    free_files(&before);
    before = get_files();
    CHECK(before.count == 4);
    free_files(&before);
}

/* Saves that are killed. */

enum { BATCH = 10, MOST_BATCHES = 60 };

static const linnetshelf_settings MANY = {
    .epoch = 0, .cells = 4096, .index_count = 16, .index_spacing = 4, .cycles = 64, .roll = LINNETSHELF_DAILY};

/* Counts the messages of a queue, which have to be the numbers from 0 on, and all of a batch: the name has taken as many batches. */
static uint32_t count_batches(linnetshelf_handle *queue) {
    uint32_t count = 0, number;
    linnetshelf_answer answer;
    CHECK(linnetshelf_to_start(queue) == STATUS(DONE));
    while ((answer = linnetshelf_next(queue, &number, sizeof number)).status == STATUS(DONE))
        CHECK(answer.length == sizeof number && number == count++);
    CHECK(count % BATCH == 0);
    uint64_t taken = linnetshelf_position(queue, "a", 1).index;
    CHECK(count == 0 || taken == ((20000 + (uint64_t)(count / BATCH - 1) / 2) << 32 | (1 + (count / BATCH - 1) % 2)));
    return count / BATCH;
}

/* In a child: appends batch after batch, each in two cycles, saves it, and says so, until it is killed. */
static void save_until_killed(int to) {
    linnetshelf_folder *open = NULL;
    linnetshelf_handle queue = {0};
    if (linnetshelf_io_open(folder, MOMENT, &open, &queue))
        _exit(1);
    for (uint32_t batch = count_batches(&queue); batch < MOST_BATCHES; batch++) {
        for (uint32_t k = 0; k < BATCH; k++) {
            uint32_t number = batch * BATCH + k;
            if (linnetshelf_io_append(&queue, MOMENT + batch / 2 * DAY, &number, sizeof number, -1).status != STATUS(DONE))
                _exit(2);
        }
        uint64_t at = linnetshelf_position(&queue, "a", 1).index, next = (20000 + (uint64_t)batch / 2) << 32 | (1 + batch % 2);
        linnetshelf_end(&queue); /* so that it has seen what it appended */
        if (linnetshelf_seek(&queue, "a", 1, at, next).status != STATUS(DONE) || linnetshelf_io_save(open, &queue))
            _exit(3);
        uint32_t saved = batch + 1;
        if (write(to, &saved, sizeof saved) != sizeof saved)
            _exit(4);
    }
    for (;;)
        pause();
}

/* Whether cq finds the folder whole, and this many messages in it. Their bytes may be those of LF, so it prints digits. */
static bool cq_counts(uint32_t count) {
    char command[512];
    snprintf(command, sizeof command, "%s check %s >/dev/null && test $(%s read --hex %s | wc -l) = %u", cq, folder, cq, folder, count);
    return system(command) == 0;
}

/* Reads the folder by the library for C, and by cq. Returns how many batches it has. */
static uint32_t batches_in_folder(void) {
    linnetshelf_handle saved = {0}, queue = {0};
    uint32_t count = 0;
    CHECK(linnetshelf_io_load(folder, &saved) == 0);
    if (linnetshelf_saved_count(&saved).index) {
        CHECK(linnetshelf_open(&saved, &queue) == STATUS(DONE));
        count = count_batches(&queue);
        linnetshelf_destroy(queue);
    }
    linnetshelf_destroy(saved);
    return count;
}

static void survives_kills(int rounds) {
    uint32_t saved = MOST_BATCHES, kills_within = 0;
    for (int round = 0; round < rounds; round++) {
        if (saved > MOST_BATCHES / 2) {
            clear();
            CHECK(linnetshelf_io_init(folder, &MANY, "a") == 0);
            saved = 0;
        }
        int ends[2], status = 0;
        CHECK(pipe(ends) == 0);
        pid_t child = fork();
        if (child == 0) {
            close(ends[0]);
            save_until_killed(ends[1]);
        }
        close(ends[1]);
        uint32_t number;
        for (int k = 0; k < round % 3 && read(ends[0], &number, sizeof number) == sizeof number; k++)
            saved = number;
        struct timespec while_it_runs = {0, rand() % 4000000};
        nanosleep(&while_it_runs, NULL);
        kill(child, SIGKILL);
        while (read(ends[0], &number, sizeof number) == sizeof number)
            saved = number;
        close(ends[0]);
        CHECK(waitpid(child, &status, 0) == child && WIFSIGNALED(status));
        kills_within += is_there(RECORD);
        uint32_t found = batches_in_folder();
        CHECK(found == saved || found == saved + 1);
        CHECK(!cq || found == 0 || cq_counts(found * BATCH));
        saved = found;
    }
    printf("%d saves were killed, %u of them with a record\n", rounds, kills_within);
}

/* Waiting. */

struct helper {
    linnetshelf_handle queue;
    pthread_t thread;
};

static void pause_for(int milliseconds) {
    struct timespec pause = {0, milliseconds * 1000000L};
    nanosleep(&pause, NULL);
}

static void *complete_later(void *at) {
    struct helper *helper = at;
    pause_for(50);
    CHECK(linnetshelf_complete(&helper->queue).status == STATUS(DONE));
    return NULL;
}

static void *append_later(void *at) {
    struct helper *helper = at;
    pause_for(50);
    append(&helper->queue, 0, "later");
    return NULL;
}

static void *close_later(void *at) {
    struct helper *helper = at;
    pause_for(50);
    CHECK(linnetshelf_close(&helper->queue) == STATUS(DONE));
    return NULL;
}

static void waits(void) {
    linnetshelf_handle queue = {0};
    struct helper helper = {.queue = {0}};
    char text[8];
    CHECK(linnetshelf_create(&SMALL, "", 0, 0, &queue) == STATUS(DONE) && linnetshelf_split(&queue, &helper.queue) == STATUS(DONE));
    CHECK(linnetshelf_io_append(&queue, 0, "", 0, -1).status == STATUS(BAD_ROOM));
    CHECK(linnetshelf_begin(&helper.queue, 0, 8) == STATUS(DONE) && linnetshelf_put(&helper.queue, "begun", 5) == STATUS(DONE));
    double began = seconds();
    CHECK(linnetshelf_io_append(&queue, 0, "x", 1, 0).status == STATUS(BUSY) && seconds() - began < SOON);
    began = seconds();
    CHECK(linnetshelf_io_append(&queue, 0, "x", 1, 50).status == STATUS(BUSY) && seconds() - began >= 0.05);
    CHECK(pthread_create(&helper.thread, NULL, complete_later, &helper) == 0);
    CHECK(linnetshelf_io_append(&queue, 0, "x", 1, INT64_MAX).index == 1);
    pthread_join(helper.thread, NULL);

    CHECK(linnetshelf_io_next(&queue, text, 0, -1).status == STATUS(NO_ROOM));
    CHECK(linnetshelf_io_next(&queue, text, sizeof text, 0).length == 5 && linnetshelf_io_next(&queue, text, sizeof text, 0).length == 1);
    began = seconds();
    CHECK(linnetshelf_io_next(&queue, text, sizeof text, 0).status == STATUS(NOT_YET) && seconds() - began < SOON);
    began = seconds();
    CHECK(linnetshelf_io_next(&queue, text, sizeof text, 50).status == STATUS(NOT_YET) && seconds() - began >= 0.05);
    CHECK(pthread_create(&helper.thread, NULL, append_later, &helper) == 0);
    CHECK(linnetshelf_io_next(&queue, text, sizeof text, -1).index == 2 && !memcmp(text, "later", 5));
    pthread_join(helper.thread, NULL);
    CHECK(pthread_create(&helper.thread, NULL, close_later, &helper) == 0);
    CHECK(linnetshelf_io_next(&queue, text, sizeof text, -1).status == STATUS(FINISHED));
    pthread_join(helper.thread, NULL);
    CHECK(linnetshelf_io_append(&queue, 0, "x", 1, -1).status == STATUS(CLOSED));
    linnetshelf_destroy(helper.queue);
    linnetshelf_destroy(queue);
}

/* Following. */

/* What a follower found: the texts of the messages, each with a space after it. */
struct found {
    char texts[16384];
    size_t length, most;
};

static bool note(void *context, uint64_t index, const void *bytes, size_t length) {
    struct found *found = context;
    (void)index;
    found->length += (size_t)snprintf(found->texts + found->length, sizeof found->texts - found->length, "%.*s ", (int)length,
                                      (const char *)bytes);
    return --found->most > 0;
}

static bool follows(linnetshelf_handle *queue, uint64_t from, size_t most, const char *texts, uint32_t status) {
    linnetshelf_io_flag ends = true;
    struct found found = {.most = most};
    return linnetshelf_io_follow(queue, from, note, &found, &ends) == status && !strcmp(found.texts, texts);
}

static void follows_from_positions(void) {
    linnetshelf_handle queue = {0};
    struct helper helper = {.queue = {0}};
    static char message[8000];
    CHECK(linnetshelf_create(&SMALL, "", 0, 0, &queue) == STATUS(DONE) && linnetshelf_split(&queue, &helper.queue) == STATUS(DONE));
    CHECK(follows(&queue, 0, 9, "", STATUS(DONE)));
    append(&queue, 0, "a");
    append(&queue, 0, "b");
    append(&queue, 2 * DAY, "c");
    append(&queue, 3 * DAY, "d");
    CHECK(follows(&queue, 0, 9, "a b c d ", STATUS(DONE)));
    CHECK(follows(&queue, 1, 9, "b c d ", STATUS(DONE)));
    CHECK(follows(&queue, 1, 2, "b c ", STATUS(DONE)) && linnetshelf_cursor(&queue).index > 2ull << 32);
    CHECK(follows(&queue, linnetshelf_cursor(&queue).index, 9, "d ", STATUS(DONE)));
    CHECK(follows(&queue, 2, 9, "c d ", STATUS(DONE)));
    CHECK(follows(&queue, 1ull << 32 | 7, 9, "c d ", STATUS(DONE)));
    CHECK(follows(&queue, 2ull << 32, 9, "c d ", STATUS(DONE)));
    CHECK(follows(&queue, linnetshelf_end(&queue).index, 9, "", STATUS(DONE)));
    CHECK(linnetshelf_direction(&queue, LINNETSHELF_BACKWARDS) == STATUS(DONE));
    CHECK(follows(&queue, 3ull << 32 | 2, 9, "", STATUS(DONE)));
    append(&queue, 0, "e");
    append(&queue, 0, "f");
    CHECK(follows(&queue, 3ull << 32 | 2, 9, "f ", STATUS(DONE)));
    CHECK(linnetshelf_drop_before(&queue, 2).status == STATUS(DONE));
    CHECK(follows(&queue, 1, 9, "c d e f ", STATUS(DONE)));
    memset(message, '-', sizeof message - 1);
    append(&queue, 0, message);
    append(&queue, 0, "g");
    struct found found = {.most = 2};
    CHECK(linnetshelf_io_follow(&queue, 3ull << 32 | 3, note, &found, NULL) == STATUS(DONE) && found.length == sizeof message + 2);
    CHECK(pthread_create(&helper.thread, NULL, close_later, &helper) == 0);
    found = (struct found){.most = 9};
    CHECK(linnetshelf_io_follow(&queue, 3ull << 32 | 4, note, &found, NULL) == STATUS(FINISHED) && !strcmp(found.texts, "g "));
    pthread_join(helper.thread, NULL);
    linnetshelf_destroy(helper.queue);
    CHECK(linnetshelf_stop(&queue) == STATUS(DONE));
    CHECK(linnetshelf_io_follow(&queue, 0, note, &found, NULL) == STATUS(WRONG_KIND));
    linnetshelf_destroy(queue);
}

/* A thread that is ahead moves all others to its cycle, so the messages of all have to fit into the last one. */
enum { THREADS = 8, CYCLES = 4, MOST_EACH = 40000 };

static uint32_t each = 20000;
static linnetshelf_io_flag are_done = false;

struct worker {
    uint32_t number;
    linnetshelf_handle writer, reader;
    pthread_t writing, reading;
    uint32_t next[THREADS]; /* of each thread, the message that was not read yet */
    uint64_t last;          /* the index of the message that was read last */
};

/* Appends messages at the moments that their numbers give, or a cycle later if that one is full. */
static void *write_all(void *at) {
    struct worker *self = at;
    for (uint32_t k = 0; k < each && failures == 0; k++) {
        uint32_t message[2] = {self->number, k};
        uint64_t moment = (uint64_t)k * CYCLES / each * DAY;
        linnetshelf_answer answer;
        while ((answer = linnetshelf_io_append(&self->writer, moment, message, sizeof message, 60000)).status == STATUS(CYCLE_FULL))
            moment += DAY;
        CHECK(answer.status == STATUS(DONE));
    }
    return NULL;
}

static bool take_one(void *context, uint64_t index, const void *bytes, size_t length) {
    struct worker *self = context;
    uint32_t message[2] = {0, 0};
    CHECK(length == sizeof message && (index > self->last || index == 0));
    memcpy(message, bytes, sizeof message);
    CHECK(message[0] < THREADS && message[1] == self->next[message[0] % THREADS]++);
    self->last = index;
    return failures == 0;
}

static void *read_all(void *at) {
    struct worker *self = at;
    CHECK(linnetshelf_io_follow(&self->reader, 0, take_one, self, &are_done) == STATUS(DONE));
    for (int k = 0; k < THREADS; k++)
        CHECK(self->next[k] == each);
    return NULL;
}

/* Eight threads append, and eight follow them. */
static void follows_threads(void) {
    static const linnetshelf_settings settings = {
        .cells = 1048576, .index_count = 1024, .index_spacing = 16, .cycles = CYCLES, .roll = LINNETSHELF_DAILY};
    static struct worker workers[THREADS];
    CHECK(linnetshelf_create(&settings, "", 0, 0, &workers[0].writer) == STATUS(DONE));
    for (uint32_t k = 0; k < THREADS; k++) {
        workers[k].number = k;
        CHECK(k == 0 || linnetshelf_split(&workers[0].writer, &workers[k].writer) == STATUS(DONE));
        CHECK(linnetshelf_split(&workers[0].writer, &workers[k].reader) == STATUS(DONE));
    }
    for (int k = 0; k < THREADS; k++) {
        CHECK(pthread_create(&workers[k].reading, NULL, read_all, &workers[k]) == 0);
        CHECK(pthread_create(&workers[k].writing, NULL, write_all, &workers[k]) == 0);
    }
    for (int k = 0; k < THREADS; k++)
        pthread_join(workers[k].writing, NULL);
    atomic_store(&are_done, true);
    for (int k = 0; k < THREADS; k++) {
        pthread_join(workers[k].reading, NULL);
        linnetshelf_destroy(workers[k].writer);
        linnetshelf_destroy(workers[k].reader);
    }
}

int main(int count, char **words) {
    if (count > 1)
        each = (uint32_t)atoi(words[1]);
    CHECK(each <= MOST_EACH);
    int rounds = count > 2 ? atoi(words[2]) : 40;
    cq = count > 3 && *words[3] ? words[3] : NULL;
    CHECK(mkdtemp(room) != NULL);
    snprintf(folder, sizeof folder, "%s/queue", room);
    CHECK(mkdir(folder, 0700) == 0);
    keeps();
    makes_folders();
    refuses_faults();
    finishes_saves();
    refuses_records();
    syncs_the_record();
    fails_at_each_call();
    if (rounds) {
        is_killed_at_each_call();
        is_killed_while_it_finishes();
    }
    waits_for_others();
    survives_kills(rounds);
    survives_a_full_disk();
    plays_a_log();
    goes_live_or_fails(rounds > 0);
    refuses_a_log_with_bytes();
    waits();
    follows_from_positions();
    follows_threads();
    clear();
    CHECK(rmdir(folder) == 0 && rmdir(room) == 0);
    return failures != 0;
}
