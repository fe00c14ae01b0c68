/* The examples of docs/C.md that are no programs of their own, each as that page has it. */
#define _DEFAULT_SOURCE
#include "../journal.h"
#include "check.h"
#include <sched.h>
#include <stdlib.h>
#include <unistd.h>

static const uint64_t moment = 20000 * (uint64_t)86400000;
static const uint64_t FIRST = (uint64_t)20000 << 32;

/* What the examples used, one message after the other. */
static char used[64];
static size_t used_length;

static void use(const char *bytes, size_t length) {
    CHECK(used_length + length < sizeof used);
    if (used_length + length >= sizeof used)
        return;
    memcpy(used + used_length, bytes, length);
    used_length += length;
}

/* Whether the examples used just this since the last call. */
static bool was_used(const char *text) {
    bool is_so = used_length == strlen(text) && !memcmp(used, text, used_length);
    used_length = 0;
    return is_so;
}

static linnetshelf_handle new_queue(void) {
    linnetshelf_handle queue = {0};
    CHECK(linnetshelf_create(&SMALL, "reader", 6, moment, &queue) == STATUS(DONE));
    return queue;
}

/* An append while others write. */
static void append_one(linnetshelf_handle mine, const char *bytes, size_t length) {
    linnetshelf_answer answer;
    while ((answer = linnetshelf_append(&mine, moment, bytes, length)).status == LINNETSHELF_BUSY)
        sched_yield();
    CHECK(answer.status == STATUS(DONE));
}

/* Many messages by one call. */
static int append_and_read_many(linnetshelf_handle mine) {
    uint32_t lengths[] = {5, 6};
    linnetshelf_many many = linnetshelf_append_many(&mine, moment, "hello world", 11, lengths, 2);
    if (many.status != LINNETSHELF_DONE)
        return 1;

    char room[4096];
    linnetshelf_answer answers[64];
    many = linnetshelf_next_many(&mine, room, sizeof room, answers, 64);
    for (uint64_t k = 0, start = 0; k < many.count; start += answers[k++].length)
        use(room + start, answers[k].length);
    CHECK(many.status == STATUS(NOT_YET) && many.count == 3 && answers[2].index == FIRST + 2);
    return 0;
}

/* The name of an image. */
static void print_file_name(void) {
    char name[13];
    linnetshelf_answer cycle = linnetshelf_cycle_of(LINNETSHELF_DAILY, 0, moment);
    linnetshelf_answer answer = linnetshelf_cycle_name(LINNETSHELF_DAILY, 0, (uint32_t)cycle.index, name, sizeof name);
    printf("%.*s.cqi\n", (int)answer.length, name);
    CHECK(answer.length == 8 && !memcmp(name, "20241004", 8));
}

/* A queue that is read as a channel. */
static void read_channel(linnetshelf_handle mine) {
    char room[64];
    linnetshelf_answer answer;
    for (;;) {
        answer = linnetshelf_next(&mine, room, sizeof room);
        if (answer.status == LINNETSHELF_DONE)
            use(room, answer.length);
        else if (answer.status == LINNETSHELF_NOT_YET)
            sched_yield();
        else
            break;
    }
    CHECK(answer.status == STATUS(FINISHED));
}

/* A shelf, here by one thread: it appends, closes the shelf, and reads it up to its end. */
static int use_shelf(const char *bytes, size_t length) {
    char room[64];
    linnetshelf_shelf_settings settings = {
        .queue = {.cells = 65536, .index_count = 64, .index_spacing = 16, .cycles = 1, .roll = LINNETSHELF_DAILY},
        .most = 8, .at_limit = LINNETSHELF_REFUSE};
    linnetshelf_handle writer = {0}, reader = {0};
    if (linnetshelf_shelf_create(&settings, "", 0, moment, &writer) != LINNETSHELF_DONE ||
        linnetshelf_shelf_reader(&writer, &reader) != LINNETSHELF_DONE)
        return 1;

    /* in the thread of the writer, until it has no more to say */
    linnetshelf_shelf_answer answer;
    while ((answer = linnetshelf_shelf_append(&writer, moment, bytes, length)).status == LINNETSHELF_BUSY ||
           answer.status == LINNETSHELF_FULL)
        sched_yield();

    /* at the end of the last writer */
    while (linnetshelf_shelf_close(&writer) == LINNETSHELF_BUSY)
        sched_yield();

    /* in the thread of the reader, up to FINISHED */
    for (;;) {
        answer = linnetshelf_shelf_next(&reader, room, sizeof room);
        if (answer.status == LINNETSHELF_DONE)
            use(room, answer.length);
        else if (answer.status == LINNETSHELF_NOT_YET || answer.status == LINNETSHELF_BUSY)
            sched_yield();
        else
            break;
    }
    CHECK(answer.status == STATUS(FINISHED));
    linnetshelf_destroy(reader);
    linnetshelf_destroy(writer);
    return 0;
}

/* A journal that is closed when its log is long, and opened again. */
static int reopen_journal(const char *folder) {
    journal *open;
    linnetshelf_handle queue = {0};
    if (journal_open(folder, moment, &open, &queue) != 0)
        return 1;
    append_one(queue, "kept", 4);
    /* all other endpoints of the queue are destroyed */
    linnetshelf_destroy(queue);
    if (journal_close(open) != 0 || journal_open(folder, moment, &open, &queue) != 0)
        return 1;
    char room[8];
    CHECK(linnetshelf_to_start(&queue) == STATUS(DONE));
    CHECK(linnetshelf_next(&queue, room, sizeof room).length == 4 && !memcmp(room, "kept", 4));
    linnetshelf_destroy(queue);
    return journal_close(open) != 0;
}

/* A folder as `cq init` makes it, with a journal. */
static void use_journal(void) {
    char folder[] = "/tmp/examples.XXXXXX", command[64];
    CHECK(mkdtemp(folder) != NULL);
    snprintf(command, sizeof command, "%s/queue.cqc", folder);
    FILE *file = fopen(command, "w");
    CHECK(file && fputs("cq 2\nroll daily\nepoch 0\ncells 4096\ncount 16\nspacing 4\ncycles 4\n", file) >= 0 && !fclose(file));
    CHECK(reopen_journal(folder) == 0);
    snprintf(command, sizeof command, "rm -r %s", folder);
    CHECK(system(command) == 0);
}

/* What appends to the queue of the log below: a message at each sync. After twenty syncs the disk fails. */
static linnetshelf_handle *writer;
static int written, syncs;

static void start(linnetshelf_handle *queue) {
    writer = queue;
    written = syncs = 0;
}

static bool make(int file, const linnetshelf_call *call, const char *room) {
    switch (call->kind) {
    case LINNETSHELF_LOG_WRITE:
        return pwrite(file, room, call->length, (off_t)call->place) == (ssize_t)call->length;
    case LINNETSHELF_LOG_CUT:
        return ftruncate(file, (off_t)call->place) == 0;
    case LINNETSHELF_LOG_SYNC_FOLDER:
        return true;
    default:
        if (linnetshelf_append(writer, moment, "kept", 4).status == STATUS(DONE))
            written++;
        return ++syncs <= 20 && fsync(file) == 0;
    }
}

/* The calls of a log, made of a file. It ends when one of them fails. */
static int keep_log(linnetshelf_handle saved, int file, uint64_t *stored) {
    static char room[1 << 17];
    size_t size = sizeof room;
    linnetshelf_handle queue = {0}, keeper = {0};
    if (linnetshelf_keep(&saved, &queue, &keeper) != LINNETSHELF_DONE)
        return 1;
    start(&queue);
    for (;;) {
        linnetshelf_call call;
        while ((call = linnetshelf_log_call(&keeper, room, size)).status == LINNETSHELF_DONE)
            linnetshelf_log_done(&keeper, make(file, &call, room));
        if (call.status != LINNETSHELF_NO_CALL)
            break;
        /* all messages below linnetshelf_stored(&keeper).index are stored */
        if (linnetshelf_turn(&keeper) != LINNETSHELF_DONE)
            break;
    }
    *stored = linnetshelf_stored(&keeper).index;
    CHECK(linnetshelf_turn(&keeper) == STATUS(LOG_STOPPED));
    linnetshelf_destroy(keeper);
    linnetshelf_destroy(queue);
    return 0;
}

/* The log gives at least what was known to be stored, and at most what was written. */
static void play_log(void) {
    static char bytes[1 << 20];
    char path[] = "/tmp/examples.XXXXXX";
    uint64_t stored = 0;
    int file = mkstemp(path);
    linnetshelf_handle saved = new_queue();
    CHECK(file >= 0 && linnetshelf_stop(&saved) == STATUS(DONE));
    CHECK(keep_log(saved, file, &stored) == 0);
    ssize_t length = pread(file, bytes, sizeof bytes, 0);
    CHECK(length > 0 && linnetshelf_play(&saved, bytes, (size_t)length).status == STATUS(DONE));
    uint64_t count = linnetshelf_saved_length(&saved, 0).index;
    CHECK(stored > FIRST && FIRST + count >= stored && count <= (uint64_t)written);
    linnetshelf_destroy(saved);
    close(file);
    unlink(path);
}

int main(void) {
    linnetshelf_handle queue = new_queue();
    append_one(queue, "first", 5);
    CHECK(append_and_read_many(queue) == 0);
    CHECK(was_used("firsthello world"));
    append_one(queue, "last", 4);
    CHECK(linnetshelf_close(&queue) == STATUS(DONE));
    read_channel(queue);
    CHECK(was_used("last"));
    linnetshelf_destroy(queue);
    print_file_name();
    CHECK(use_shelf("shelved", 7) == 0 && was_used("shelved"));
    use_journal();
    play_log();
    return failures != 0;
}
