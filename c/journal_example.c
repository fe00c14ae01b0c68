/* The example of docs/C.md: appends a message to the queue of a folder, and prints its index once it is stored. */
#include "journal.h"
#include <stdio.h>
#include <string.h>
#include <time.h>

int main(int count, char **words) {
    uint64_t moment = (uint64_t)time(NULL) * 1000;
    journal *open;
    linnetshelf_handle queue = {0};
    if (count != 3 || journal_open(words[1], moment, &open, &queue) != 0)
        return 1;
    linnetshelf_answer answer = linnetshelf_append(&queue, moment, words[2], strlen(words[2]));
    if (answer.status == LINNETSHELF_DONE && journal_wait(open, answer.index) == 0)
        printf("%016llx\n", (unsigned long long)answer.index);
    linnetshelf_destroy(queue);
    return journal_close(open) != 0;
}
