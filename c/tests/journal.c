/* The journal over real folders: what was stored is there after the process was killed, and after the disk was full. */
#define _DEFAULT_SOURCE
#include "../journal.h"
#include "check.h"
#include <dirent.h>
#include <errno.h>
#include <fcntl.h>
#include <pthread.h>
#include <sched.h>
#include <signal.h>
#include <stdlib.h>
#include <string.h>
#include <sys/resource.h>
#include <sys/stat.h>
#include <sys/wait.h>
#include <time.h>
#include <unistd.h>

static char folder[] = "/tmp/journal.XXXXXX";
static const uint64_t MOMENT = 20000 * (uint64_t)86400000;

static void write_file(const char *name, const char *text) {
    char path[256];
    snprintf(path, sizeof path, "%s/%s", folder, name);
    FILE *file = fopen(path, "w");
    CHECK(file && fputs(text, file) >= 0 && !fclose(file));
}

/* Removes all files of the folder, and makes the queue of `cq init` in it. */
static void init(const char *text) {
    DIR *entries = opendir(folder);
    struct dirent *entry;
    char path[512];
    while (entries && (entry = readdir(entries))) {
        snprintf(path, sizeof path, "%s/%s", folder, entry->d_name);
        unlink(path);
    }
    closedir(entries);
    write_file("queue.cqc", text);
}

static const char CONFIG[] = "cq 2\nroll daily\nepoch 0\ncells 65536\ncount 64\nspacing 16\ncycles 64\nname reader 0\n";

/* Appends the number as a message, and returns its index. */
static uint64_t append(linnetshelf_handle *queue, uint64_t moment, uint32_t number) {
    linnetshelf_answer answer;
    while ((answer = linnetshelf_append(queue, moment, &number, sizeof number)).status == STATUS(BUSY))
        sched_yield();
    CHECK(answer.status == STATUS(DONE));
    return answer.index;
}

/* Counts the messages of a queue, which have to be the numbers from 0 on. */
static uint32_t count_messages(linnetshelf_handle *queue) {
    uint32_t count = 0, number;
    linnetshelf_answer answer;
    CHECK(linnetshelf_to_start(queue) == STATUS(DONE));
    while ((answer = linnetshelf_next(queue, &number, sizeof number)).status == STATUS(DONE)) {
        CHECK(answer.length == sizeof number && number == count);
        count++;
    }
    CHECK(answer.status == STATUS(NOT_YET));
    return count;
}

static uint32_t count_in_folder(void) {
    journal *open = NULL;
    linnetshelf_handle queue = {0};
    int result = journal_open(folder, MOMENT, &open, &queue);
    CHECK(result == 0);
    if (result) {
        perror("journal_open");
        return 0;
    }
    uint32_t count = count_messages(&queue);
    linnetshelf_destroy(queue);
    CHECK(journal_close(open) == 0);
    return count;
}

/* What was appended is there again, over several cycles, with the position of a name. */
static void keeps(void) {
    init(CONFIG);
    char room[8];
    for (uint32_t round = 0; round < 3; round++) {
        journal *open = NULL;
        linnetshelf_handle queue = {0};
        CHECK(journal_open(folder, MOMENT, &open, &queue) == 0);
        CHECK(count_messages(&queue) == 100 * round);
        for (uint32_t i = 0; i < 100; i++) {
            uint64_t index = append(&queue, MOMENT + (round * 100 + i) / 60 * DAY, 100 * round + i);
            if (i % 10 == 0) {
                CHECK(journal_wait(open, index) == 0);
                CHECK(journal_stored(open) > index);
            }
        }
        CHECK(linnetshelf_take(&queue, "reader", 6, room, sizeof room).length == 4);
        uint32_t taken;
        memcpy(&taken, room, sizeof taken);
        CHECK(taken == round);
        linnetshelf_destroy(queue);
        CHECK(journal_close(open) == 0);
    }
    CHECK(count_in_folder() == 300);
}

/* Another journal is refused while one is open, and a folder without a queue is. */
static void keeps_others_out(void) {
    init(CONFIG);
    journal *open = NULL, *other = NULL;
    linnetshelf_handle queue = {0}, none = {0};
    CHECK(journal_open(folder, MOMENT, &open, &queue) == 0);
    CHECK(journal_open(folder, MOMENT, &other, &none) == -1 && errno == EAGAIN);
    CHECK(other == NULL && none.at == NULL);
    linnetshelf_destroy(queue);
    CHECK(journal_close(open) == 0);
    init("cq 2\nroll daily\nepoch 00\n");
    CHECK(journal_open(folder, MOMENT, &other, &none) == -1 && errno == EBADMSG);
    init(CONFIG);
    write_file("20240230.cqi", "");
    CHECK(journal_open(folder, MOMENT, &other, &none) == -1 && errno == EBADMSG);
    init(CONFIG);
    write_file("queue.log", "not a log");
    CHECK(count_in_folder() == 0); /* it has no frame */
    init(CONFIG);
    write_file("queue.save", "cq save 1\n12\nqueue.cqc\n");
    CHECK(journal_open(folder, MOMENT, &other, &none) == -1 && errno == EBADMSG); /* it has no end */
    write_file("queue.save", "cq save 1\n12\n../x\nend\n");
    CHECK(journal_open(folder, MOMENT, &other, &none) == -1 && errno == EBADMSG);
    CHECK(journal_open("/tmp/no.such.folder", MOMENT, &other, &none) == -1 && errno == ENOENT);
}

/* A save that was cut short after its record was there is finished. */
static void finishes_a_save(void) {
    init("cq 1\n");
    write_file("queue.cqc.77.part", CONFIG);
    write_file("queue.log.77.part", "");
    write_file("queue.save", "cq save 1\n77\nqueue.cqc\nqueue.log\nend\n");
    CHECK(count_in_folder() == 0);
    char path[256];
    snprintf(path, sizeof path, "%s/queue.save", folder);
    CHECK(access(path, F_OK) == -1);
}

/* In a child: appends, and writes each number to a pipe once it is stored, until it is killed. */
static void append_until_killed(int to) {
    journal *open = NULL;
    linnetshelf_handle queue = {0};
    if (journal_open(folder, MOMENT, &open, &queue))
        _exit(1);
    for (uint32_t number = count_messages(&queue);; number++) {
        uint64_t index = append(&queue, MOMENT, number);
        if (journal_wait(open, index) || write(to, &number, sizeof number) != sizeof number)
            _exit(1);
    }
}

static double now(void) {
    struct timespec at;
    CHECK(clock_gettime(CLOCK_MONOTONIC, &at) == 0);
    return (double)at.tv_sec + (double)at.tv_nsec / 1e9;
}

/* Kills a process while it opens the folder, where it saves what the log has: after this share of the time that an opening takes. */
static void kill_while_it_opens(double share) {
    static double seconds = 0.002;
    int ends[2];
    CHECK(pipe(ends) == 0);
    double began = now();
    pid_t child = fork();
    if (child == 0) {
        journal *open = NULL;
        linnetshelf_handle queue = {0};
        if (journal_open(folder, MOMENT, &open, &queue) || write(ends[1], "", 1) != 1)
            _exit(1);
        for (;;)
            pause();
    }
    close(ends[1]);
    char byte;
    if (share < 1) {
        struct timespec part = {0, (long)(share * seconds * 1e9)};
        nanosleep(&part, NULL);
    } else if (read(ends[0], &byte, 1) == 1) {
        seconds = now() - began < 0.5 ? now() - began : 0.5;
    }
    kill(child, SIGKILL);
    close(ends[0]);
    int status = 0;
    CHECK(waitpid(child, &status, 0) == child && WIFSIGNALED(status));
}

/* Kills a process that appends, again and again, and then others that open what it left: each message that was stored is there. */
static void survives_kills(int rounds) {
    init(CONFIG);
    uint32_t stored = 0;
    kill_while_it_opens(1);
    for (int round = 0; round < rounds; round++) {
        int ends[2];
        CHECK(pipe(ends) == 0);
        pid_t child = fork();
        if (child == 0) {
            close(ends[0]);
            append_until_killed(ends[1]);
        }
        close(ends[1]);
        uint32_t number;
        for (int i = 0; i < 5 + round % 7 && read(ends[0], &number, sizeof number) == sizeof number; i++)
            stored = number + 1;
        struct timespec while_it_runs = {0, 200000 * (round % 10)};
        nanosleep(&while_it_runs, NULL);
        kill(child, SIGKILL);
        while (read(ends[0], &number, sizeof number) == sizeof number)
            stored = number + 1;
        close(ends[0]);
        int status = 0;
        CHECK(waitpid(child, &status, 0) == child && WIFSIGNALED(status));
        for (int i = 0; i < 3; i++)
            kill_while_it_opens((round * 3 + i) % 10 / 9.0);
        uint32_t found = count_in_folder();
        CHECK(found >= stored && found <= stored + 1);
        stored = found;
    }
    CHECK(stored >= 5 * (uint32_t)rounds);
}

/* A disk that is full, by a limit on the size of files: the journal says so, and what was stored is there. */
static void survives_a_full_disk(void) {
    init(CONFIG);
    signal(SIGXFSZ, SIG_IGN);
    journal *open = NULL;
    linnetshelf_handle queue = {0};
    CHECK(journal_open(folder, MOMENT, &open, &queue) == 0);
    struct rlimit before, limit;
    CHECK(getrlimit(RLIMIT_FSIZE, &before) == 0);
    limit = before;
    limit.rlim_cur = 6000;
    CHECK(setrlimit(RLIMIT_FSIZE, &limit) == 0);
    uint32_t stored = 0;
    for (uint32_t number = 0; number < 1000; number++) {
        if (journal_wait(open, append(&queue, MOMENT, number))) {
            CHECK(errno == EFBIG);
            break;
        }
        stored = number + 1;
    }
    CHECK(stored > 0 && stored < 1000);
    CHECK(journal_wait(open, append(&queue, MOMENT, 0)) == -1 && errno == EFBIG);
    linnetshelf_destroy(queue);
    CHECK(journal_close(open) == -1 && errno == EFBIG);
    CHECK(setrlimit(RLIMIT_FSIZE, &before) == 0);
    uint32_t found = count_in_folder();
    CHECK(found >= stored && found <= stored + 1);
}

struct writer {
    journal *open;
    linnetshelf_handle queue;
    pthread_t thread;
};

static void *append_and_wait(void *at) {
    struct writer *writer = at;
    for (int i = 0; i < 50; i++) {
        linnetshelf_answer answer;
        while ((answer = linnetshelf_append(&writer->queue, MOMENT, "x", 1)).status == STATUS(BUSY))
            sched_yield();
        CHECK(answer.status == STATUS(DONE) && journal_wait(writer->open, answer.index) == 0);
    }
    return NULL;
}

/* Several threads append and wait, each with an endpoint of its own. */
static void shares(void) {
    init(CONFIG);
    journal *open = NULL;
    linnetshelf_handle queue = {0};
    struct writer writers[4];
    CHECK(journal_open(folder, MOMENT, &open, &queue) == 0);
    for (int i = 0; i < 4; i++) {
        writers[i].open = open;
        CHECK(linnetshelf_split(&queue, &writers[i].queue) == STATUS(DONE));
        CHECK(pthread_create(&writers[i].thread, NULL, append_and_wait, &writers[i]) == 0);
    }
    for (int i = 0; i < 4; i++) {
        pthread_join(writers[i].thread, NULL);
        linnetshelf_destroy(writers[i].queue);
    }
    CHECK(linnetshelf_to_end(&queue).index - journal_stored(open) == 0);
    CHECK((uint32_t)journal_stored(open) == 200);
    linnetshelf_destroy(queue);
    CHECK(journal_close(open) == 0);
}

/* Holds the queue of a folder: appends and stores a message, prints its index, and closes at the end of the input. */
static void hold(const char *held) {
    journal *open = NULL;
    linnetshelf_handle queue = {0};
    CHECK(journal_open(held, MOMENT, &open, &queue) == 0);
    uint64_t index = linnetshelf_append(&queue, MOMENT, "held", 4).index;
    CHECK(journal_wait(open, index) == 0);
    CHECK(printf("%016llx\n", (unsigned long long)index) > 0 && fflush(stdout) == 0);
    while (getchar() != EOF)
        ;
    linnetshelf_destroy(queue);
    CHECK(journal_close(open) == 0);
}

/* With `hold FOLDER` it holds that queue for c/tests/live.py. Else it makes the tests, with this number of kills. */
int main(int count, char **words) {
    if (count == 3 && strcmp(words[1], "hold") == 0) {
        hold(words[2]);
        return failures != 0;
    }
    int rounds = count > 1 ? atoi(words[1]) : 10;
    CHECK(mkdtemp(folder) != NULL);
    keeps();
    keeps_others_out();
    finishes_a_save();
    shares();
    if (rounds)
        survives_kills(rounds);
    survives_a_full_disk();
    init(CONFIG);
    char path[256];
    snprintf(path, sizeof path, "%s/queue.cqc", folder);
    unlink(path);
    CHECK(rmdir(folder) == 0);
    return failures != 0;
}
