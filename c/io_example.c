/* The example of docs/C.md: appends a message to the queue of a folder, saves it, and prints all messages that the folder has. */
#include "linnetshelf_io.h"
#include <stdio.h>
#include <string.h>
#include <time.h>

static bool print(void *context, uint64_t index, const void *bytes, size_t length) {
    (void)context;
    printf("%016llx %.*s\n", (unsigned long long)index, (int)length, (const char *)bytes);
    return true;
}

int main(int count, char **words) {
    uint64_t moment = (uint64_t)time(NULL) * 1000;
    linnetshelf_folder *folder;
    linnetshelf_handle queue = {0};
    linnetshelf_io_flag ends = true; /* so that it reads what has come, and waits for no more */
    if (count != 3 || linnetshelf_io_open(words[1], moment, &folder, &queue) != 0)
        return 1;
    linnetshelf_answer answer = linnetshelf_io_append(&queue, moment, words[2], strlen(words[2]), 1000);
    bool is_saved = answer.status == LINNETSHELF_DONE && linnetshelf_io_save(folder, &queue) == 0;
    if (is_saved)
        linnetshelf_io_follow(&queue, 0, print, NULL, &ends);
    linnetshelf_destroy(queue);
    linnetshelf_io_close(folder);
    return !is_saved;
}
