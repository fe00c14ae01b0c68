/* The example of linnetshelf.h: makes a queue, appends a message, and reads it. */
#include "linnetshelf.h"
#include <stdio.h>

int main(void) {
    linnetshelf_settings settings = {
        .cells = 65536, .index_count = 64, .index_spacing = 16, .cycles = 4, .roll = LINNETSHELF_DAILY};
    linnetshelf_handle queue = {0};
    if (linnetshelf_create(&settings, "reader", 6, 1728000000000, &queue) != LINNETSHELF_DONE)
        return 1;
    linnetshelf_append(&queue, 1728000000000, "hello", 5);
    char room[64];
    linnetshelf_answer answer = linnetshelf_next(&queue, room, sizeof room);
    if (answer.status == LINNETSHELF_DONE)
        printf("%.*s\n", (int)answer.length, room);
    linnetshelf_destroy(queue);
    return 0;
}
