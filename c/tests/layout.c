/* The structs of the header have the sizes and places that those of the library have. The library reads each field
 * of settings where the header has it, and an answer holds what the library returned. */
#include "check.h"
#include <stddef.h>

_Static_assert(sizeof(linnetshelf_handle) == sizeof(void *), "a handle is an address");
_Static_assert(sizeof(linnetshelf_settings) == 32, "settings");
_Static_assert(offsetof(linnetshelf_settings, epoch) == 0, "epoch");
_Static_assert(offsetof(linnetshelf_settings, cells) == 8, "cells");
_Static_assert(offsetof(linnetshelf_settings, index_count) == 12, "index_count");
_Static_assert(offsetof(linnetshelf_settings, index_spacing) == 16, "index_spacing");
_Static_assert(offsetof(linnetshelf_settings, cycles) == 20, "cycles");
_Static_assert(offsetof(linnetshelf_settings, roll) == 24, "roll");
_Static_assert(sizeof(linnetshelf_answer) == 16, "answer");
_Static_assert(offsetof(linnetshelf_answer, index) == 0, "index");
_Static_assert(offsetof(linnetshelf_answer, length) == 8, "length");
_Static_assert(offsetof(linnetshelf_answer, status) == 12, "status");
_Static_assert(sizeof(linnetshelf_many) == 24, "answer of many messages");
_Static_assert(offsetof(linnetshelf_many, index) == 0, "index of the last message");
_Static_assert(offsetof(linnetshelf_many, count) == 8, "count");
_Static_assert(offsetof(linnetshelf_many, length) == 16, "length of the next message");
_Static_assert(offsetof(linnetshelf_many, status) == 20, "status of the next message");
_Static_assert(sizeof(linnetshelf_shelf_answer) == 24, "answer of a shelf");
_Static_assert(offsetof(linnetshelf_shelf_answer, queue) == 0, "queue");
_Static_assert(offsetof(linnetshelf_shelf_answer, index) == 8, "index in a queue");
_Static_assert(offsetof(linnetshelf_shelf_answer, length) == 16, "length in a queue");
_Static_assert(offsetof(linnetshelf_shelf_answer, status) == 20, "status on a shelf");
_Static_assert(sizeof(linnetshelf_shelf_settings) == 40, "settings of a shelf");
_Static_assert(offsetof(linnetshelf_shelf_settings, queue) == 0, "settings of its queues");
_Static_assert(offsetof(linnetshelf_shelf_settings, most) == 32, "most");
_Static_assert(offsetof(linnetshelf_shelf_settings, at_limit) == 36, "at_limit");

/* Settings of a shelf are refused if a field is out of its limits, and an answer of a shelf holds what the library returned. */
static void shelves_have_the_layout(void) {
    linnetshelf_shelf_settings settings = {
        .queue = {.epoch = 2 * DAY, .cells = 64, .index_count = 8, .index_spacing = 1, .cycles = 1, .roll = LINNETSHELF_DAILY},
        .most = 2, .at_limit = LINNETSHELF_DROP_OLDEST};
    linnetshelf_handle writer = {0}, reader = {0};
    char room[4];
    settings.most = 1;
    CHECK(linnetshelf_shelf_create(&settings, "", 0, 5 * DAY, &writer) == STATUS(BAD_SHELF));
    settings.most = 2;
    settings.at_limit = UINT32_MAX;
    CHECK(linnetshelf_shelf_create(&settings, "", 0, 5 * DAY, &writer) == STATUS(BAD_SETTINGS));
    settings.at_limit = LINNETSHELF_DROP_OLDEST;
    settings.queue.roll = UINT32_MAX;
    CHECK(linnetshelf_shelf_create(&settings, "", 0, 5 * DAY, &writer) == STATUS(BAD_SETTINGS));
    settings.queue.roll = LINNETSHELF_DAILY;
    CHECK(linnetshelf_shelf_create(&settings, "", 0, 5 * DAY, &writer) == STATUS(DONE));
    CHECK(linnetshelf_shelf_advance(&writer, 6 * DAY).index == 4);
    linnetshelf_shelf_answer answer = linnetshelf_shelf_append(&writer, 5 * DAY, "message", 7);
    CHECK(answer.queue == 1 && answer.index == 4ull << 32 && answer.length == 0 && answer.status == STATUS(DONE));
    CHECK(linnetshelf_shelf_reader(&writer, &reader) == STATUS(DONE));
    answer = linnetshelf_shelf_next(&reader, room, sizeof room);
    CHECK(answer.queue == 0 && answer.index == 0 && answer.length == 7 && answer.status == STATUS(NO_ROOM));
    linnetshelf_destroy(writer);
    linnetshelf_destroy(reader);
}

/* The library gives the sizes of its own structs, in the order of the header. */
int main(void) {
    static const size_t wanted[] = {
        sizeof(linnetshelf_handle), sizeof(linnetshelf_settings), sizeof(linnetshelf_answer),
        sizeof(linnetshelf_shelf_answer), sizeof(linnetshelf_shelf_settings), sizeof(linnetshelf_call),
        sizeof(linnetshelf_many)};
    for (uint32_t k = 0; k < 7; k++)
        CHECK(linnetshelf_size(k) == wanted[k]);
    CHECK(linnetshelf_size(7) == 0);

    linnetshelf_settings settings = {.epoch = 2 * DAY, .cells = 64, .index_count = 8, .index_spacing = 1, .cycles = 3,
                                     .roll = LINNETSHELF_DAILY};
    linnetshelf_handle queue = {0};
    unsigned char *field[] = {(unsigned char *)&settings.epoch, (unsigned char *)&settings.cells,
                              (unsigned char *)&settings.index_count, (unsigned char *)&settings.index_spacing,
                              (unsigned char *)&settings.cycles, (unsigned char *)&settings.roll};
    for (int k = 0; k < 6; k++) {
        linnetshelf_settings saved = settings;
        memset(field[k], 0xff, k == 0 ? 8 : 4);
        CHECK(linnetshelf_create(&settings, "", 0, 5 * DAY, &queue) == STATUS(BAD_SETTINGS));
        settings = saved;
    }
    CHECK(linnetshelf_create(&settings, "", 0, 5 * DAY, &queue) == STATUS(DONE));
    linnetshelf_answer answer = linnetshelf_append(&queue, 5 * DAY, "message", 7);
    CHECK(answer.index == 3ull << 32 && answer.length == 0 && answer.status == STATUS(DONE));
    char room[4];
    answer = linnetshelf_next(&queue, room, sizeof room);
    CHECK(answer.index == 0 && answer.length == 7 && answer.status == STATUS(NO_ROOM));
    linnetshelf_destroy(queue);
    shelves_have_the_layout();
    return failures != 0;
}
