#define _POSIX_C_SOURCE 200809L
#define _DEFAULT_SOURCE /* flock */
#include "folder_files.h"

#include <dirent.h>
#include <fcntl.h>
#include <stdio.h>
#include <stdlib.h>
#include <string.h>
#include <sys/file.h>
#include <sys/stat.h>
#include <unistd.h>

/* A part has the longest name of a file, two dots, the ten digits of a process, and `part`. */
enum { LONGEST_NAME = 255, PART_SIZE = LONGEST_NAME + 20, CYCLE_NAME_SIZE = 24 };

static const size_t MOST_RECORD_BYTES = 1 << 20, MOST_CONFIG_BYTES = 1 << 20;

/* The log that is played has at most as many bytes as the program cq plays. */
static const size_t MOST_LOG_BYTES = 1 << 30;

static const char CONFIG[] = "queue.cqc", RECORD[] = "queue.save", LOG[] = "queue.log", IMAGE[] = ".cqi", PART[] = ".part";

static bool is_interrupted(int result) {
    return result < 0 && errno == EINTR;
}

/* Closes a file, and leaves errno as it is. */
static void close_quietly(int file) {
    int error = errno;
    close(file);
    errno = error;
}

/* Bytes. */

int folder_reserve(folder_bytes *to, size_t size) {
    if (size <= to->size)
        return 0;
    char *at = realloc(to->at, size);
    if (!at)
        return -1;
    to->at = at;
    to->size = size;
    return 0;
}

/* Frees bytes, and leaves errno as it is. */
static void free_bytes(folder_bytes *of) {
    int error = errno;
    free(of->at);
    *of = (folder_bytes){0};
    errno = error;
}

/* Adds bytes, and a zero byte after them that does not count. */
static int add(folder_bytes *to, const char *from, size_t length) {
    if (to->length + length + 1 > to->size && folder_reserve(to, 2 * (to->length + length + 1)))
        return -1;
    memcpy(to->at + to->length, from, length);
    to->length += length;
    to->at[to->length] = 0;
    return 0;
}

static int add_line(folder_bytes *to, const char *text) {
    return add(to, text, strlen(text)) || add(to, "\n", 1) ? -1 : 0;
}

static bool is_same(const folder_bytes *one, const folder_bytes *other) {
    return one->length == other->length && (!one->length || !memcmp(one->at, other->at, one->length));
}

static bool ends_with(const char *text, const char *ending) {
    size_t length = strlen(text), last = strlen(ending);
    return length >= last && !strcmp(text + length - last, ending);
}

/* Files. */

/* Opens a plain file of the folder. A link, a folder or a FIFO of this name is not opened. */
static int open_plain(int folder, const char *name, int flags) {
    struct stat found;
    int file;
    do
        file = openat(folder, name, flags | O_NOFOLLOW | O_NONBLOCK | O_CLOEXEC);
    while (is_interrupted(file));
    if (file < 0)
        return errno == ELOOP || errno == EISDIR || errno == ENXIO ? fail(EBADMSG) : -1;
    if (fstat(file, &found) || !S_ISREG(found.st_mode)) {
        close(file);
        return fail(EBADMSG);
    }
    return file;
}

/* Reads a file up to `most` bytes, and puts a zero byte after them that does not count. EFBIG: it has more. */
static int read_all(int file, folder_bytes *into, size_t most) {
    into->length = 0;
    for (;;) {
        if (into->length + 1 >= into->size && folder_reserve(into, into->size ? 2 * into->size : 4096))
            return -1;
        ssize_t got = pread(file, into->at + into->length, into->size - into->length - 1, (off_t)into->length);
        if (got < 0 && errno != EINTR)
            return -1;
        if (got > 0)
            into->length += (size_t)got;
        if (into->length > most)
            return fail(EFBIG);
        if (got == 0) {
            into->at[into->length] = 0;
            return 0;
        }
    }
}

static int read_plain(int folder, const char *name, folder_bytes *into, size_t most) {
    int file = open_plain(folder, name, O_RDONLY);
    if (file < 0)
        return -1;
    int result = read_all(file, into, most);
    close_quietly(file);
    return result;
}

int folder_write_all(int file, const char *from, size_t length, uint64_t place) {
    while (length) {
        ssize_t put = pwrite(file, from, length, (off_t)place);
        if (put < 0 && errno != EINTR)
            return -1;
        if (put > 0) {
            from += put;
            length -= (size_t)put;
            place += (uint64_t)put;
        }
    }
    return 0;
}

int folder_sync(int file, int (*sync)(int)) {
    int result;
    do
        result = sync(file);
    while (is_interrupted(result));
    return result;
}

static int lock(int file, int how) {
    int result;
    do
        result = flock(file, how);
    while (is_interrupted(result));
    return result;
}

/* Brings to the disk what was renamed and removed in the folder. */
static int sync_names(folder_files *files) {
    if (folder_sync(files->at, fsync))
        return -1;
    files->is_unsynced = false;
    return 0;
}

/* Removes a file, if it is there. */
static int remove_file(const folder_files *files, const char *name) {
    return unlinkat(files->at, name, 0) && errno != ENOENT ? -1 : 0;
}

/* Calls `call` with each name in the folder, until one call does not return 0. */
static int each_name(const folder_files *files, int (*call)(void *, const char *), void *context) {
    int again = openat(files->at, ".", O_RDONLY | O_DIRECTORY | O_CLOEXEC), result = 0;
    DIR *entries = again < 0 ? NULL : fdopendir(again);
    if (!entries) {
        if (again >= 0)
            close_quietly(again);
        return -1;
    }
    for (;;) {
        errno = 0;
        struct dirent *entry = readdir(entries);
        if (!entry)
            result = errno ? -1 : 0;
        else
            result = call(context, entry->d_name);
        if (!entry || result)
            break;
    }
    int error = errno;
    closedir(entries);
    errno = error;
    return result;
}

/* Parts. */

/* Makes the name of the part of a file. ENAMETOOLONG: no file has a name as long as this. */
static int part_of(char *part, const char *name, unsigned long process) {
    if (strlen(name) > LONGEST_NAME)
        return fail(ENAMETOOLONG);
    snprintf(part, PART_SIZE, "%s.%lu%s", name, process, PART);
    return 0;
}

static unsigned long this_process(void) {
    return (unsigned long)getpid();
}

/* Fills a part that is new: with the mode of the file that it will replace, and on the disk. */
static int fill_part(const folder_files *files, const char *name, int part, const folder_bytes *from) {
    struct stat found;
    if (!fstatat(files->at, name, &found, AT_SYMLINK_NOFOLLOW)) {
        if (!S_ISREG(found.st_mode))
            return fail(EBADMSG);
        if (fchmod(part, found.st_mode & 07777))
            return -1;
    } else if (errno != ENOENT) {
        return -1;
    }
    return folder_write_all(part, from->at, from->length, 0) || folder_sync(part, fsync) ? -1 : 0;
}

/* Writes the part of a file. */
static int write_part(const folder_files *files, const char *name, const folder_bytes *from) {
    char part[PART_SIZE];
    if (part_of(part, name, this_process()) || remove_file(files, part))
        return -1;
    int file = openat(files->at, part, O_WRONLY | O_CREAT | O_EXCL | O_CLOEXEC, 0666);
    if (file < 0)
        return -1;
    int result = fill_part(files, name, file, from);
    close_quietly(file);
    return result;
}

static int place_part(const folder_files *files, const char *name, unsigned long process) {
    char part[PART_SIZE];
    return part_of(part, name, process) ? -1 : renameat(files->at, part, files->at, name);
}

static void remove_part(const folder_files *files, const char *name) {
    char part[PART_SIZE];
    if (!part_of(part, name, this_process()))
        remove_file(files, part);
}

/* The record of a save. */

/* Returns whether a record may name this file. */
static bool may_be_saved(const char *name) {
    return !strcmp(name, CONFIG) || !strcmp(name, LOG) || (ends_with(name, IMAGE) && !strchr(name, '/'));
}

/* Reads a number below 2^32 in decimal, without leading zeros, up to a character. Returns what comes after that, or NULL. */
static const char *read_number(const char *from, char until, unsigned long *number) {
    size_t digits = strspn(from, "0123456789");
    if (!digits || digits > 10 || (*from == '0' && digits > 1) || from[digits] != until)
        return NULL;
    *number = strtoul(from, NULL, 10);
    return *number <= UINT32_MAX ? from + digits + 1 : NULL;
}

/* Returns how many bytes the character of UTF-8 has that begins here, or 0 if none does. The text ends with a zero byte. */
static size_t character_at(const unsigned char *at) {
    if (at[0] < 0x80)
        return 1;
    size_t more = at[0] >= 0xc2 && at[0] < 0xe0 ? 1 : (at[0] & 0xf0) == 0xe0 ? 2 : at[0] >= 0xf0 && at[0] < 0xf5 ? 3 : 0;
    for (size_t k = 1; k <= more; k++) {
        if ((at[k] & 0xc0) != 0x80)
            return 0;
    }
    bool is_long = (at[0] == 0xe0 && at[1] < 0xa0) || (at[0] == 0xf0 && at[1] < 0x90);
    bool is_outside = (at[0] == 0xed && at[1] > 0x9f) || (at[0] == 0xf4 && at[1] > 0x8f);
    return more && !is_long && !is_outside ? more + 1 : 0;
}

/* Returns whether a text is UTF-8, and has no zero byte. */
static bool is_text(const folder_bytes *text) {
    size_t at = 0, more = 1;
    while (at < text->length && text->at[at] && (more = character_at((const unsigned char *)text->at + at)))
        at += more;
    return at == text->length;
}

/* Ends each line of names that a record may have with a zero byte in place of LF. Returns what comes after them. */
static char *split_names(char *from, size_t *count) {
    for (*count = 0;; ++*count) {
        char *end = strchr(from, '\n');
        if (!end)
            return from;
        *end = 0;
        if (!may_be_saved(from)) {
            *end = '\n';
            return from;
        }
        from = end + 1;
    }
}

/* Tests that the record that was read has one of its two forms, and ends each of its names with a zero byte. The number of the
 * process and the first name are where `first_name` finds them. */
static int parse_record(folder_files *files) {
    static const char REPLACES[] = "cq save 1\n", REMOVES[] = "cq save 2\n";
    folder_bytes *text = &files->record;
    unsigned long process;
    size_t names = 0, removed = 0;
    bool has_removals = !strncmp(text->at, REMOVES, strlen(REMOVES));
    if (!is_text(text) || (!has_removals && strncmp(text->at, REPLACES, strlen(REPLACES))))
        return fail(EBADMSG);
    const char *lines = read_number(text->at + strlen(REPLACES), '\n', &process);
    if (!lines)
        return fail(EBADMSG);
    char *rest = split_names(text->at + (lines - text->at), &names);
    files->removed = (size_t)(rest - text->at);
    if (has_removals && *rest == '\n') {
        files->removed++;
        rest = split_names(rest + 1, &removed);
    }
    if (strcmp(rest, "end\n") || (has_removals ? !removed : !names))
        return fail(EBADMSG);
    *rest = 0;
    return 0;
}

/* Reads the record that is there, if one is. */
static int read_record(folder_files *files) {
    int result = read_plain(files->at, RECORD, &files->record, MOST_RECORD_BYTES);
    bool is_none = result && errno == ENOENT;
    if (result && errno == EFBIG)
        errno = EBADMSG;
    if (!result)
        result = parse_record(files);
    if (result)
        files->record.length = 0;
    return is_none ? 0 : result;
}

static bool has_record(const folder_files *files) {
    return files->record.length > 0;
}

/* Returns the number of the process of the record that is there, whose parts have it in their names. */
static unsigned long process_of_record(const folder_files *files) {
    return strtoul(files->record.at + strlen("cq save 1\n"), NULL, 10);
}

/* Returns the first name of the record that is there, of a file with a part. If there is none, an empty line comes there. */
static const char *first_name(const folder_files *files) {
    return strchr(files->record.at + strlen("cq save 1\n"), '\n') + 1;
}

/* Returns the name after this one in the record. The names end with an empty one. */
static const char *next_name(const char *name) {
    return name + strlen(name) + 1;
}

static const char *first_removed(const folder_files *files) {
    return files->record.at + files->removed;
}

/* Returns where the names of files with parts end. */
static const char *end_of_names(const folder_files *files) {
    return first_removed(files) - (files->record.at[strlen("cq save ")] == '2');
}

/* Returns whether the save whose record is there replaces a file by a part. */
static bool replaces(const folder_files *files, const char *name) {
    if (has_record(files)) {
        for (const char *it = first_name(files); it < end_of_names(files); it = next_name(it)) {
            if (!strcmp(it, name))
                return true;
        }
    }
    return false;
}

/* Returns whether the save whose record is there removes a file. */
static bool removes(const folder_files *files, const char *name) {
    if (has_record(files)) {
        for (const char *it = first_removed(files); *it; it = next_name(it)) {
            if (!strcmp(it, name))
                return true;
        }
    }
    return false;
}

/* Renames the parts that are left of a save whose record is on the disk, removes the files that are to go, and the record. A part
 * that is gone has been renamed, and a file that is gone has been removed. */
static int settle(folder_files *files) {
    if (!has_record(files))
        return 0;
    for (const char *name = first_name(files); name < end_of_names(files); name = next_name(name)) {
        if (place_part(files, name, process_of_record(files)) && errno != ENOENT)
            return -1;
    }
    for (const char *name = first_removed(files); *name; name = next_name(name)) {
        if (remove_file(files, name))
            return -1;
    }
    if (sync_names(files))
        return -1;
    files->is_unsynced = true;
    if (remove_file(files, RECORD))
        return -1;
    files->record.length = 0;
    return 0;
}

/* Finishes a save whose record is there, if one is, and brings to the disk what one before this left. */
static int finish_earlier(folder_files *files) {
    /* The record may not be on the disk yet. Without it a crash could keep some of the renames and lose the others. */
    if ((has_record(files) || files->is_unsynced) && sync_names(files))
        return -1;
    if (settle(files))
        return -1;
    /* Else the record could come back after the machine stops, when a later save writes parts of the same names. */
    return files->is_unsynced ? sync_names(files) : 0;
}

/* Removes a file if its name is that of a part which a save has made. */
static int sweep_name(void *context, const char *name) {
    char front[PART_SIZE];
    unsigned long process;
    size_t length = strlen(name);
    if (length >= PART_SIZE || !ends_with(name, PART))
        return 0;
    memcpy(front, name, length + 1);
    front[length - strlen(PART)] = 0;
    char *dot = strrchr(front, '.');
    if (!dot || !read_number(dot + 1, 0, &process))
        return 0;
    *dot = 0;
    if (!strcmp(front, RECORD) || may_be_saved(front))
        remove_file(context, name);
    return 0;
}

/* The folder. */

int folder_open(const char *path, folder_files *out) {
    *out = (folder_files){.at = open(path, O_RDONLY | O_DIRECTORY | O_CLOEXEC)};
    return out->at < 0 ? -1 : 0;
}

/* Whether a system, or a file system, that fails so has no locks on folders. */
static bool has_no_locks(int error) {
    return error == EBADF || error == EINVAL || error == ENOLCK || error == ENOSYS || error == EOPNOTSUPP;
}

int folder_enter(folder_files *files, bool is_alone) {
    bool is_held = !lock(files->at, is_alone ? LOCK_EX : LOCK_SH);
    if (!is_held && !has_no_locks(errno))
        return -1;
    if (read_record(files))
        return -1;
    if (!is_alone)
        return 0;
    if (finish_earlier(files))
        return -1;
    /* Without locks, a part may be that of a process that is running. */
    return is_held ? each_name(files, sweep_name, files) : 0;
}

void folder_unlock(folder_files *files) {
    int error = errno;
    lock(files->at, LOCK_UN);
    errno = error;
}

void folder_close(folder_files *files) {
    /* A child that another thread starts just now has the open folder too, until it runs its program. */
    folder_unlock(files);
    close_quietly(files->at);
    free_bytes(&files->record);
    files->at = -1;
}

/* Reads a file; of a save that was cut short, what it wrote. ENOENT: there is none, or such a save removes it. */
static int read_through(const folder_files *files, const char *name, folder_bytes *into, size_t most) {
    char part[PART_SIZE];
    if (removes(files, name))
        return fail(ENOENT);
    if (replaces(files, name)) {
        if (part_of(part, name, process_of_record(files)))
            return -1;
        if (!read_plain(files->at, part, into, most))
            return 0;
        if (errno != ENOENT)
            return -1;
    }
    return read_plain(files->at, name, into, most);
}

/* What the files hold. */

/* Destroys what is saved, and leaves errno as it is. */
static void destroy_saved(const linnetshelf_handle *saved) {
    int error = errno;
    linnetshelf_destroy(*saved);
    errno = error;
}

/* The images of a folder. */
typedef struct {
    linnetshelf_settings settings;
    const folder_files *files;
    struct image {
        uint32_t cycle;
        char name[CYCLE_NAME_SIZE];
    } *at;
    size_t count, size;
} images;

/* Makes the name of the image of a cycle. */
static int image_name(const linnetshelf_settings *of, uint32_t cycle, char name[CYCLE_NAME_SIZE]) {
    linnetshelf_answer answer =
        linnetshelf_cycle_name(of->roll, of->epoch, cycle, name, CYCLE_NAME_SIZE - sizeof IMAGE);
    if (answer.status == LINNETSHELF_DONE)
        memcpy(name + answer.length, IMAGE, sizeof IMAGE);
    return (int)answer.status;
}

/* Adds an image to those of a folder, unless it is there already or a save removes it. EBADMSG: no cycle has an image of this name. */
static int add_image(void *context, const char *name) {
    images *to = context;
    if (!ends_with(name, IMAGE) || removes(to->files, name))
        return 0;
    size_t length = strlen(name);
    linnetshelf_answer cycle =
        linnetshelf_cycle_named(to->settings.roll, to->settings.epoch, name, length - strlen(IMAGE));
    if (cycle.status == LINNETSHELF_NO_SUCH_PLACE || length >= CYCLE_NAME_SIZE)
        return fail(EBADMSG);
    if (cycle.status != LINNETSHELF_DONE)
        return (int)cycle.status;
    for (size_t k = 0; k < to->count; k++) {
        if (to->at[k].cycle == cycle.index)
            return 0;
    }
    if (to->count == to->size) {
        size_t size = to->size ? 2 * to->size : 64;
        struct image *at = realloc(to->at, size * sizeof *at);
        if (!at)
            return -1;
        to->at = at;
        to->size = size;
    }
    struct image *added = &to->at[to->count++];
    added->cycle = (uint32_t)cycle.index;
    memcpy(added->name, name, length + 1);
    return 0;
}

static int compare_images(const void *one, const void *other) {
    uint32_t first = ((const struct image *)one)->cycle, second = ((const struct image *)other)->cycle;
    return (first > second) - (first < second);
}

/* Lists the images of a folder in the order of their cycles, with those that a save which was cut short has written. */
static int list_images(images *to) {
    const folder_files *files = to->files;
    int result = each_name(files, add_image, to);
    if (!result && has_record(files)) {
        for (const char *name = first_name(files); name < end_of_names(files) && !result; name = next_name(name))
            result = add_image(to, name);
    }
    if (!result && to->count)
        qsort(to->at, to->count, sizeof *to->at, compare_images);
    return result;
}

/* Adds the images of a folder to what is saved. */
static int add_images(const folder_files *files, linnetshelf_handle *saved) {
    images found = {.files = files};
    folder_bytes image = {0};
    linnetshelf_settings_of(saved, &found.settings);
    int result = list_images(&found);
    for (size_t k = 0; k < found.count && !result; k++) {
        result = read_through(files, found.at[k].name, &image, SIZE_MAX / 4);
        if (!result)
            result = (int)linnetshelf_saved_add(saved, found.at[k].cycle, image.at, image.length).status;
    }
    free_bytes(&image);
    int error = errno;
    free(found.at);
    errno = error;
    return result;
}

/* Reads the settings. */
static int read_config(const folder_files *files, linnetshelf_handle *saved) {
    folder_bytes text = {0};
    int result = read_through(files, CONFIG, &text, MOST_CONFIG_BYTES);
    if (result && errno == EFBIG)
        errno = EBADMSG;
    if (!result && !strncmp(text.at, "cq 1\n", 5))
        result = fail(ENOTSUP);
    if (!result) {
        linnetshelf_answer answer = linnetshelf_config_read(text.at, text.length, saved);
        bool is_text_wrong = answer.status == LINNETSHELF_BAD_SETTINGS && answer.index;
        result = is_text_wrong ? fail(EBADMSG) : (int)answer.status;
    }
    free_bytes(&text);
    return result;
}

int folder_load(const folder_files *files, linnetshelf_handle *saved) {
    int result = read_config(files, saved);
    if (result)
        return result;
    result = add_images(files, saved);
    if (result)
        destroy_saved(saved);
    return result;
}

int folder_names(linnetshelf_handle *handle, linnetshelf_settings *settings, folder_bytes *names) {
    linnetshelf_answer count = linnetshelf_settings_of(handle, settings);
    names->length = 0;
    if (count.status != LINNETSHELF_DONE || add(names, "", 0))
        return count.status != LINNETSHELF_DONE ? (int)count.status : -1;
    for (uint32_t k = 0; k < count.index; k++) {
        char name[32];
        linnetshelf_answer answer = linnetshelf_names_of(handle, k, name, sizeof name);
        if (answer.status != LINNETSHELF_DONE)
            return (int)answer.status;
        if ((k && add(names, "\n", 1)) || add(names, name, answer.length))
            return -1;
    }
    return 0;
}

/* Begins the cycle of a moment where none has begun. Without a cycle no position and no floor can be other than 0. */
static int begin_first(linnetshelf_handle *saved, uint64_t moment) {
    linnetshelf_settings settings;
    linnetshelf_handle made = {0};
    folder_bytes names = {0};
    int result = folder_names(saved, &settings, &names);
    uint64_t count = linnetshelf_settings_of(saved, &settings).index;
    for (uint32_t k = 0; k < count && !result; k++)
        result = linnetshelf_saved_position(saved, k).index ? LINNETSHELF_BAD_CONTENTS : 0;
    if (!result && linnetshelf_saved_floor(saved).index)
        result = LINNETSHELF_BAD_CONTENTS;
    if (!result)
        result = (int)linnetshelf_create(&settings, names.at, names.length, moment, &made);
    if (!result) {
        result = (int)linnetshelf_stop(&made);
        if (result) {
            linnetshelf_destroy(made);
        } else {
            linnetshelf_destroy(*saved);
            *saved = made;
        }
    }
    free_bytes(&names);
    return result;
}

/* The log. */

/* Opens and locks the log, alone. EAGAIN: another has it. */
static int open_log(const folder_files *files) {
    int log = open_plain(files->at, LOG, O_RDWR);
    if (log >= 0 && lock(log, LOCK_EX | LOCK_NB)) {
        if (errno == EWOULDBLOCK)
            errno = EAGAIN;
        close_quietly(log);
        return -1;
    }
    return log;
}

int folder_load_with_log(const folder_files *files, linnetshelf_handle *saved) {
    folder_bytes log = {0};
    int result = folder_load(files, saved);
    if (result)
        return result;
    result = read_through(files, LOG, &log, MOST_LOG_BYTES);
    if (result && errno == ENOENT)
        result = 0;
    else if (!result && log.length)
        result = (int)linnetshelf_play(saved, log.at, log.length).status;
    free_bytes(&log);
    if (result)
        destroy_saved(saved);
    return result;
}

/* Plays the log that is there, which is open or is not, and saves what that gives with an empty log. Without `always` it does so
 * only where the log has bytes. */
static int play_and_save(folder_files *files, int log, linnetshelf_handle *saved, bool always) {
    folder_bytes text = {0};
    int result = log < 0 ? 0 : read_all(log, &text, MOST_LOG_BYTES);
    if (!result && text.length)
        result = (int)linnetshelf_play(saved, text.at, text.length).status;
    if (!result && (always || text.length))
        result = folder_save(files, saved, true);
    free_bytes(&text);
    return result;
}

/* Opens and locks the log that a save has just emptied. Fails with the error that kept the save from being finished, if one did: the
 * next one who enters alone finishes it, and would put the empty log in the place of this one. EAGAIN: another has put bytes into it. */
static int open_new_log(const folder_files *files) {
    struct stat found;
    if (files->unfinished)
        return fail(files->unfinished);
    int log = open_log(files);
    if (log >= 0 && (fstat(log, &found) || (found.st_size && fail(EAGAIN)))) {
        close_quietly(log);
        return -1;
    }
    return log;
}

/* Begins a cycle if none has begun, and folds the log. */
static int fold(folder_files *files, uint64_t moment, linnetshelf_handle *saved, int *new_log) {
    int result = linnetshelf_saved_count(saved).index ? 0 : begin_first(saved, moment);
    if (result)
        return result;
    int log = open_log(files);
    if (log < 0 && errno != ENOENT)
        return -1;
    result = play_and_save(files, log, saved, new_log != NULL);
    if (log >= 0)
        close_quietly(log);
    if (!result && new_log && (*new_log = open_new_log(files)) < 0)
        result = -1;
    return result;
}

int folder_fold(folder_files *files, uint64_t moment, linnetshelf_handle *saved, int *log) {
    int result = folder_load(files, saved);
    if (result)
        return result;
    result = fold(files, moment, saved, log);
    if (result)
        destroy_saved(saved);
    return result;
}

/* Saves of several files, all of them or none. */

/* The files of a save whose parts are written: the text of its record, up to the last name, and how many they are. */
typedef struct {
    folder_bytes record;
    size_t count;
} save;

static int begin_save(save *to) {
    char line[32];
    snprintf(line, sizeof line, "cq save 1\n%lu", this_process());
    return add_line(&to->record, line);
}

/* Writes the part of a file, and adds the file to a save. */
static int save_file(folder_files *files, save *to, const char *name, const folder_bytes *data) {
    if (add_line(&to->record, name))
        return -1;
    to->count++;
    return write_part(files, name, data);
}

/* Writes the part of a file unless the file has these bytes. */
static int save_change(folder_files *files, save *to, const char *name, const folder_bytes *data, folder_bytes *room) {
    int result = read_plain(files->at, name, room, SIZE_MAX / 4);
    if (result && errno != ENOENT)
        return -1;
    return !result && is_same(room, data) ? 0 : save_file(files, to, name, data);
}

/* Returns the name of a file of a save, from 0. It is whole until the next call. */
static const char *name_in(save *of, size_t k, char name[LONGEST_NAME + 1]) {
    const char *line = of->record.at;
    for (size_t lines = 0; lines < k + 2; lines++)
        line = strchr(line, '\n') + 1;
    snprintf(name, LONGEST_NAME + 1, "%.*s", (int)strcspn(line, "\n"), line);
    return name;
}

/* Removes what a save has made that failed. A rename may return an error and be done nevertheless, so the record is removed first.
 * The parts stay if it cannot be removed, or may come back. */
static void give_up(folder_files *files, save *given) {
    char name[LONGEST_NAME + 1];
    int error = errno;
    bool is_withdrawn = !unlinkat(files->at, RECORD, 0) ? !sync_names(files) : errno == ENOENT;
    if (is_withdrawn) {
        for (size_t k = 0; k < given->count; k++)
            remove_part(files, name_in(given, k, name));
        remove_part(files, RECORD);
    }
    errno = error;
}

/* Renames the part of the only file of a save, or that of its record. From then on the files are saved. */
static int promise(folder_files *files, save *of) {
    char name[LONGEST_NAME + 1];
    files->is_unsynced = true;
    if (of->count == 1)
        return place_part(files, name_in(of, 0, name), this_process());
    if (add_line(&of->record, "end") || write_part(files, RECORD, &of->record))
        return -1;
    return place_part(files, RECORD, this_process());
}

/* Saves the files whose parts are written. */
static int commit(folder_files *files, save *of) {
    if (promise(files, of)) {
        give_up(files, of);
        return -1;
    }
    if (of->count == 1)
        return sync_names(files);
    if (sync_names(files))
        return -1;
    /* They are saved. What is left after an error here is done by the next save, or by the next one who enters alone. */
    if (read_record(files) || settle(files)) {
        files->unfinished = errno;
        return 0;
    }
    return sync_names(files);
}

/* Copies the image of a cycle. */
static int copy_image(linnetshelf_handle *saved, uint32_t k, folder_bytes *image) {
    char none;
    linnetshelf_answer answer = linnetshelf_saved_image(saved, k, image->size ? image->at : &none, image->size);
    if (answer.status == LINNETSHELF_NO_ROOM) {
        if (folder_reserve(image, answer.length))
            return -1;
        answer = linnetshelf_saved_image(saved, k, image->at, image->size);
    }
    image->length = answer.length;
    return (int)answer.status;
}

/* Copies the text of the settings. */
static int copy_config(linnetshelf_handle *saved, folder_bytes *text) {
    if (folder_reserve(text, 4096))
        return -1;
    linnetshelf_answer answer = linnetshelf_config_write(saved, text->at, text->size);
    if (answer.status == LINNETSHELF_NO_ROOM) {
        if (folder_reserve(text, answer.length))
            return -1;
        answer = linnetshelf_config_write(saved, text->at, text->size);
    }
    text->length = answer.length;
    return (int)answer.status;
}

/* Writes the parts of what changed. */
static int write_parts(folder_files *files, linnetshelf_handle *saved, bool empties_log, save *to) {
    static const folder_bytes NONE = {.at = ""};
    linnetshelf_settings settings;
    char name[CYCLE_NAME_SIZE];
    folder_bytes made = {0}, there = {0};
    linnetshelf_settings_of(saved, &settings);
    uint32_t count = (uint32_t)linnetshelf_saved_count(saved).index;
    int result = begin_save(to);
    for (uint32_t k = 0; k < count && !result; k++) {
        result = image_name(&settings, (uint32_t)linnetshelf_saved_cycle(saved, k).index, name);
        if (!result)
            result = copy_image(saved, k, &made);
        if (!result)
            result = save_change(files, to, name, &made, &there);
    }
    if (!result)
        result = copy_config(saved, &made);
    if (!result)
        result = save_change(files, to, CONFIG, &made, &there);
    if (!result && empties_log)
        result = save_file(files, to, LOG, &NONE);
    free_bytes(&made);
    free_bytes(&there);
    return result;
}

int folder_save(folder_files *files, linnetshelf_handle *saved, bool empties_log) {
    save made = {.count = 0};
    if (read_record(files) || finish_earlier(files))
        return -1;
    files->unfinished = 0;
    int result = write_parts(files, saved, empties_log, &made);
    if (result)
        give_up(files, &made);
    else if (made.count)
        result = commit(files, &made);
    free_bytes(&made.record);
    return result;
}

/* Whether a name is that of an image. */
static int find_image(void *context, const char *name) {
    (void)context;
    return ends_with(name, IMAGE) ? fail(EEXIST) : 0;
}

int folder_is_free(const folder_files *files) {
    struct stat found;
    if (!fstatat(files->at, CONFIG, &found, AT_SYMLINK_NOFOLLOW) ||
        (!fstatat(files->at, LOG, &found, AT_SYMLINK_NOFOLLOW) && found.st_size))
        return fail(EEXIST);
    return each_name(files, find_image, NULL);
}
