/* Each call once and more, on one thread: what it returns, and what it refuses. */
#include "check.h"
#include <stdlib.h>

static linnetshelf_handle queue_of(const char *names, uint64_t moment) {
    linnetshelf_handle queue = {0};
    CHECK(linnetshelf_create(&SMALL, names, strlen(names), moment, &queue) == STATUS(DONE));
    return queue;
}

static int is_message(linnetshelf_answer answer, uint64_t index, const char *room, const char *text) {
    return answer.status == STATUS(DONE) && answer.index == index && answer.length == strlen(text) &&
           memcmp(room, text, answer.length) == 0;
}

static void settings_are_tested(void) {
    linnetshelf_handle out = {0};
    for (int field = 0; field < 6; field++) {
        linnetshelf_settings bad = SMALL;
        switch (field) {
        case 0: bad.epoch = UINT64_MAX; break;
        case 1: bad.cells = 10; break;
        case 2: bad.index_count = 9; break;
        case 3: bad.index_spacing = 3; break;
        case 4: bad.cycles = 65; break;
        case 5: bad.roll = 3; break;
        }
        CHECK(linnetshelf_create(&bad, "a", 1, 0, &out) == STATUS(BAD_SETTINGS));
        CHECK(linnetshelf_saved_new(&bad, "a", 1, &out) == STATUS(BAD_SETTINGS));
    }
    CHECK(linnetshelf_create(&SMALL, "a\na", 3, 0, &out) == STATUS(BAD_SETTINGS));
    CHECK(linnetshelf_create(&SMALL, "a b", 3, 0, &out) == STATUS(BAD_SETTINGS));
    CHECK(linnetshelf_create(&SMALL, "\xff", 1, 0, &out) == STATUS(BAD_SETTINGS));
    CHECK(linnetshelf_create(&SMALL, "a\n\nb", 4, 0, &out) == STATUS(BAD_SETTINGS));
    linnetshelf_settings later = SMALL;
    later.epoch = 10 * DAY;
    CHECK(linnetshelf_create(&later, "a", 1, DAY, &out) == STATUS(BAD_MOMENT));
    CHECK(out.at == NULL);
    CHECK(linnetshelf_create(&SMALL, "", 0, 0, &out) == STATUS(DONE));
    linnetshelf_destroy(out);
}

static void messages_are_appended_and_read(void) {
    linnetshelf_handle queue = queue_of("reader\n", 5 * DAY);
    char room[64];
    CHECK(linnetshelf_next(&queue, room, sizeof room).status == STATUS(NOT_YET));
    CHECK(linnetshelf_append(&queue, 5 * DAY, "", 0).status == STATUS(BAD_ROOM));
    CHECK(linnetshelf_append(&queue, UINT64_MAX, "a", 1).status == STATUS(BAD_MOMENT));
    linnetshelf_answer answer = linnetshelf_append(&queue, 5 * DAY, "hello", 5);
    CHECK(answer.status == STATUS(DONE) && answer.index == 5ull << 32 && answer.length == 0);
    CHECK(linnetshelf_append(&queue, 0, "world", 5).index == (5ull << 32) + 1);
    CHECK(linnetshelf_append(&queue, 7 * DAY, "later", 5).index == 7ull << 32);

    answer = linnetshelf_next(&queue, room, 4);
    CHECK(answer.status == STATUS(NO_ROOM) && answer.length == 5);
    CHECK(linnetshelf_next(&queue, room, 0).status == STATUS(NO_ROOM));
    CHECK(is_message(linnetshelf_next(&queue, room, 5), 5ull << 32, room, "hello"));
    room[5] = '!';
    CHECK(is_message(linnetshelf_next(&queue, room, sizeof room), (5ull << 32) + 1, room, "world"));
    CHECK(room[5] == '!');
    CHECK(linnetshelf_cursor(&queue).index == (5ull << 32) + 2);
    CHECK(is_message(linnetshelf_next(&queue, room, sizeof room), 7ull << 32, room, "later"));
    CHECK(linnetshelf_next(&queue, room, sizeof room).status == STATUS(NOT_YET));

    CHECK(linnetshelf_direction(&queue, 2) == STATUS(BAD_DIRECTION));
    CHECK(linnetshelf_direction(&queue, LINNETSHELF_BACKWARDS) == STATUS(DONE));
    CHECK(is_message(linnetshelf_next(&queue, room, sizeof room), 7ull << 32, room, "later"));
    CHECK(is_message(linnetshelf_next(&queue, room, sizeof room), (5ull << 32) + 1, room, "world"));
    CHECK(linnetshelf_next(&queue, room, 4).status == STATUS(NO_ROOM));
    CHECK(is_message(linnetshelf_next(&queue, room, sizeof room), 5ull << 32, room, "hello"));
    CHECK(linnetshelf_next(&queue, room, sizeof room).status == STATUS(BEFORE_START));
    CHECK(linnetshelf_direction(&queue, LINNETSHELF_FORWARDS) == STATUS(DONE));

    CHECK(linnetshelf_move_to(&queue, 7ull << 32) == STATUS(DONE));
    CHECK(is_message(linnetshelf_next(&queue, room, sizeof room), 7ull << 32, room, "later"));
    CHECK(linnetshelf_move_to(&queue, 6ull << 32) == STATUS(NO_MESSAGE));
    CHECK(linnetshelf_to_start(&queue) == STATUS(DONE));
    CHECK(linnetshelf_cursor(&queue).index == 0);
    CHECK(linnetshelf_to_end(&queue).index == (7ull << 32) + 1);
    CHECK(linnetshelf_cursor(&queue).index == (7ull << 32) + 1);

    answer = linnetshelf_read_at(&queue, (5ull << 32) + 1, room, sizeof room);
    CHECK(answer.status == STATUS(DONE) && answer.length == 5 && memcmp(room, "world", 5) == 0);
    answer = linnetshelf_read_at(&queue, (5ull << 32) + 1, room, 1);
    CHECK(answer.status == STATUS(NO_ROOM) && answer.length == 5);
    CHECK(linnetshelf_read_at(&queue, (5ull << 32) + 2, room, sizeof room).status == STATUS(NEVER));
    CHECK(linnetshelf_read_at(&queue, (7ull << 32) + 1, room, sizeof room).status == STATUS(NOT_YET));

    CHECK(linnetshelf_drop_before(&queue, 8).status == STATUS(NOT_SEEN));
    CHECK(linnetshelf_drop_before(&queue, 7).index == 7);
    CHECK(linnetshelf_drop_before(&queue, 6).index == 7);
    CHECK(linnetshelf_read_at(&queue, 5ull << 32, room, sizeof room).status == STATUS(GONE));
    CHECK(linnetshelf_to_start(&queue) == STATUS(DONE));
    CHECK(is_message(linnetshelf_next(&queue, room, sizeof room), 7ull << 32, room, "later"));

    CHECK(linnetshelf_advance(&queue, 8 * DAY).index == 8);
    CHECK(linnetshelf_advance(&queue, 1).index == 8);
    CHECK(linnetshelf_advance(&queue, 9 * DAY).index == 9);
    CHECK(linnetshelf_advance(&queue, 10 * DAY).status == STATUS(NO_CYCLE_LEFT));
    linnetshelf_destroy(queue);
}

static int is_answer(linnetshelf_answer answer, uint64_t index, uint32_t length) {
    return answer.index == index && answer.length == length && answer.status == STATUS(DONE);
}

/* A peek returns the index and the length of the next message in either direction, and the endpoint stays where it is. */
static void next_message_is_peeked(void) {
    linnetshelf_handle queue = queue_of("", 5 * DAY), saved = {0};
    uint64_t first = 5ull << 32, later = 7ull << 32;
    char room[16];
    CHECK(linnetshelf_peek(&queue).status == STATUS(NOT_YET));
    CHECK(linnetshelf_append(&queue, 5 * DAY, "one", 3).status == STATUS(DONE));
    CHECK(linnetshelf_append(&queue, 5 * DAY, "three", 5).status == STATUS(DONE));
    CHECK(linnetshelf_append(&queue, 7 * DAY, "seven!!", 7).status == STATUS(DONE));
    CHECK(is_answer(linnetshelf_peek(&queue), first, 3) && is_answer(linnetshelf_peek(&queue), first, 3));
    CHECK(linnetshelf_cursor(&queue).index == 0);
    CHECK(is_message(linnetshelf_next(&queue, room, sizeof room), first, room, "one"));
    CHECK(is_answer(linnetshelf_peek(&queue), first + 1, 5) && linnetshelf_cursor(&queue).index == first + 1);
    CHECK(is_message(linnetshelf_next(&queue, room, sizeof room), first + 1, room, "three"));

    /* The next message is in a later cycle. The endpoint stays at the end of the one before, and has not seen that cycle. */
    CHECK(is_answer(linnetshelf_peek(&queue), later, 7) && linnetshelf_cursor(&queue).index == first + 2);
    CHECK(linnetshelf_drop_before(&queue, 7).status == STATUS(NOT_SEEN));
    CHECK(linnetshelf_direction(&queue, LINNETSHELF_BACKWARDS) == STATUS(DONE));
    CHECK(is_answer(linnetshelf_peek(&queue), first + 1, 5) && linnetshelf_cursor(&queue).index == first + 2);
    CHECK(linnetshelf_to_start(&queue) == STATUS(DONE));
    CHECK(linnetshelf_peek(&queue).status == STATUS(BEFORE_START));
    CHECK(linnetshelf_direction(&queue, LINNETSHELF_FORWARDS) == STATUS(DONE));

    /* What was dropped is passed over. */
    CHECK(linnetshelf_to_end(&queue).index == later + 1 && linnetshelf_drop_before(&queue, 7).index == 7);
    CHECK(linnetshelf_peek(&queue).status == STATUS(NOT_YET) && linnetshelf_cursor(&queue).index == later + 1);
    CHECK(linnetshelf_to_start(&queue) == STATUS(DONE));
    CHECK(is_answer(linnetshelf_peek(&queue), later, 7) && linnetshelf_cursor(&queue).index == 0);

    CHECK(linnetshelf_to_end(&queue).index == later + 1 && linnetshelf_close(&queue) == STATUS(DONE));
    CHECK(linnetshelf_peek(&queue).status == STATUS(FINISHED));
    CHECK(linnetshelf_saved_new(&SMALL, "", 0, &saved) == STATUS(DONE));
    CHECK(linnetshelf_peek(&saved).status == STATUS(WRONG_KIND));
    linnetshelf_destroy(saved);
    linnetshelf_destroy(queue);
}

/* A zero handle is ended by doing nothing, and what others hold stays. */
static void zero_handles_are_destroyed(void) {
    linnetshelf_handle queue = queue_of("", 0), zero = {0};
    char room[8];
    linnetshelf_destroy(zero);
    linnetshelf_destroy((linnetshelf_handle){0});
    CHECK(linnetshelf_append(&queue, 0, "there", 5).status == STATUS(DONE));
    linnetshelf_destroy(zero);
    CHECK(zero.at == NULL);
    CHECK(is_message(linnetshelf_next(&queue, room, sizeof room), 0, room, "there"));
    linnetshelf_destroy(queue);
}

static int is_many(linnetshelf_many many, uint64_t count, uint64_t index, uint32_t length, uint32_t status) {
    return many.count == count && many.index == index && many.length == length && many.status == status;
}

static void many_messages_are_appended(void) {
    linnetshelf_handle queue = queue_of("", 5 * DAY), other = {0};
    const uint32_t lengths[] = {3, 5, 1, 4}, empty[] = {2, 0, 1};
    uint64_t first = 5ull << 32;
    char room[64];
    CHECK(is_many(linnetshelf_append_many(&queue, 5 * DAY, "", 0, lengths, 0), 0, 0, 0, STATUS(DONE)));
    CHECK(linnetshelf_end(&queue).index == first);
    CHECK(is_many(linnetshelf_append_many(&queue, 5 * DAY, "onethree!four", 13, lengths, 4), 4, first + 3, 0, STATUS(DONE)));
    /* Bytes after the last message are no part of it, and each append is as one of linnetshelf_append. */
    CHECK(is_many(linnetshelf_append_many(&queue, 5 * DAY, "more than", 9, lengths, 1), 1, first + 4, 0, STATUS(DONE)));
    CHECK(is_many(linnetshelf_append_many(&queue, 5 * DAY, "abcdefgh", 8, lengths, 4), 2, first + 6, 1, STATUS(NO_ROOM)));
    CHECK(is_many(linnetshelf_append_many(&queue, 5 * DAY, "abc", 2, lengths, 4), 0, 0, 3, STATUS(NO_ROOM)));
    CHECK(is_many(linnetshelf_append_many(&queue, 5 * DAY, "abc", 3, empty, 3), 1, first + 7, 0, STATUS(BAD_ROOM)));
    CHECK(is_many(linnetshelf_append_many(&queue, UINT64_MAX, "abc", 3, lengths, 1), 0, 0, 0, STATUS(BAD_MOMENT)));
    static const char *const texts[] = {"one", "three", "!", "four", "mor", "abc", "defgh", "ab"};
    for (uint64_t k = 0; k < 8; k++)
        CHECK(is_message(linnetshelf_next(&queue, room, sizeof room), first + k, room, texts[k]));
    CHECK(linnetshelf_next(&queue, room, sizeof room).status == STATUS(NOT_YET));

    CHECK(linnetshelf_split(&queue, &other) == STATUS(DONE));
    CHECK(linnetshelf_begin(&other, 5 * DAY, 4) == STATUS(DONE));
    CHECK(is_many(linnetshelf_append_many(&queue, 5 * DAY, "abc", 3, lengths, 1), 0, 0, 0, STATUS(BUSY)));
    CHECK(is_many(linnetshelf_append_many(&other, 5 * DAY, "abc", 3, lengths, 1), 0, 0, 0, STATUS(WRITING)));
    CHECK(linnetshelf_roll_back(&other) == STATUS(DONE));
    linnetshelf_destroy(other);
    CHECK(linnetshelf_close(&queue) == STATUS(DONE));
    CHECK(is_many(linnetshelf_append_many(&queue, 5 * DAY, "abc", 3, lengths, 1), 0, 0, 0, STATUS(CLOSED)));
    linnetshelf_destroy(queue);
}

/* The messages before one that is refused stay, and its cycle gets no later one of the same call. */
static void many_messages_fill_a_cycle(void) {
    linnetshelf_settings tiny = SMALL;
    tiny.cells = 64;
    tiny.index_count = 8;
    linnetshelf_handle queue = {0};
    char messages[201];
    const uint32_t lengths[] = {40, 60, 100, 1};
    memset(messages, 'x', sizeof messages);
    CHECK(linnetshelf_create(&tiny, "", 0, 0, &queue) == STATUS(DONE));
    CHECK(is_many(linnetshelf_append_many(&queue, 0, messages, sizeof messages, lengths, 4), 2, 1, 0, STATUS(CYCLE_FULL)));
    CHECK(linnetshelf_end(&queue).index == 2);
    CHECK(is_many(linnetshelf_append_many(&queue, DAY, messages, 101, lengths + 2, 2), 2, (1ull << 32) + 1, 0, STATUS(DONE)));
    linnetshelf_destroy(queue);
}

static void many_messages_are_read(void) {
    linnetshelf_handle queue = queue_of("", 5 * DAY);
    uint64_t first = 5ull << 32, second = 7ull << 32;
    const uint32_t lengths[] = {3, 5, 1};
    char room[16];
    linnetshelf_answer answers[4] = {{9, 9, 9}, {9, 9, 9}, {9, 9, 9}, {9, 9, 9}};
    CHECK(is_many(linnetshelf_next_many(&queue, room, sizeof room, answers, 4), 0, 0, 0, STATUS(NOT_YET)));
    CHECK(linnetshelf_append_many(&queue, 5 * DAY, "onethree!", 9, lengths, 3).status == STATUS(DONE));
    CHECK(linnetshelf_append(&queue, 7 * DAY, "later", 5).index == second);

    /* A message that does not fit in what is left is not passed over. */
    memset(room, '.', sizeof room);
    CHECK(is_many(linnetshelf_next_many(&queue, room, 7, answers, 4), 1, first, 5, STATUS(NO_ROOM)));
    CHECK(is_answer(answers[0], first, 3) && answers[1].status == 9 && memcmp(room, "one.............", 16) == 0);
    CHECK(linnetshelf_cursor(&queue).index == first + 1);
    CHECK(is_many(linnetshelf_next_many(&queue, room, 4, answers, 4), 0, 0, 5, STATUS(NO_ROOM)));
    CHECK(is_many(linnetshelf_next_many(&queue, room, sizeof room, answers, 0), 0, 0, 0, STATUS(DONE)));
    CHECK(is_many(linnetshelf_next_many(&queue, room, sizeof room, answers, 2), 2, first + 2, 0, STATUS(DONE)));
    CHECK(is_answer(answers[0], first + 1, 5) && is_answer(answers[1], first + 2, 1) && answers[2].status == 9);
    CHECK(memcmp(room, "three!..........", 16) == 0);

    /* The messages of one call may be of several cycles. */
    CHECK(linnetshelf_to_start(&queue) == STATUS(DONE));
    CHECK(is_many(linnetshelf_next_many(&queue, room, 14, answers, 4), 4, second, 0, STATUS(DONE)));
    CHECK(is_answer(answers[2], first + 2, 1) && is_answer(answers[3], second, 5) && memcmp(room, "onethree!later..", 16) == 0);
    CHECK(is_many(linnetshelf_next_many(&queue, room, 14, answers, 4), 0, 0, 0, STATUS(NOT_YET)));
    CHECK(linnetshelf_direction(&queue, LINNETSHELF_BACKWARDS) == STATUS(DONE));
    CHECK(is_many(linnetshelf_next_many(&queue, room, 16, answers, 3), 3, first + 1, 0, STATUS(DONE)));
    CHECK(is_answer(answers[0], second, 5) && is_answer(answers[2], first + 1, 5) && memcmp(room, "later!three", 11) == 0);
    CHECK(is_many(linnetshelf_next_many(&queue, room, 16, answers, 3), 1, first, 0, STATUS(BEFORE_START)));
    CHECK(linnetshelf_direction(&queue, LINNETSHELF_FORWARDS) == STATUS(DONE));
    CHECK(linnetshelf_close(&queue) == STATUS(DONE));
    CHECK(is_many(linnetshelf_next_many(&queue, room, 16, answers, 4), 4, second, 0, STATUS(DONE)));
    CHECK(is_many(linnetshelf_next_many(&queue, room, 16, answers, 4), 0, 0, 0, STATUS(FINISHED)));

    CHECK(linnetshelf_stop(&queue) == STATUS(DONE));
    CHECK(is_many(linnetshelf_next_many(&queue, room, 16, answers, 4), 0, 0, 0, STATUS(WRONG_KIND)));
    CHECK(is_many(linnetshelf_append_many(&queue, 0, "abc", 3, lengths, 1), 0, 0, 0, STATUS(WRONG_KIND)));
    CHECK(linnetshelf_end(&queue).status == STATUS(WRONG_KIND));
    linnetshelf_destroy(queue);
}

/* The end is looked up without moving, and counts as seen. */
static void the_end_is_looked_up(void) {
    linnetshelf_handle one = queue_of("", 0), two = {0};
    char room[8];
    CHECK(linnetshelf_end(&one).index == 0);
    CHECK(linnetshelf_split(&one, &two) == STATUS(DONE));
    CHECK(linnetshelf_append(&one, 0, "a", 1).index == 0);
    CHECK(linnetshelf_append(&one, 3 * DAY, "b", 1).index == 3ull << 32);
    CHECK(linnetshelf_drop_before(&two, 3).status == STATUS(NOT_SEEN));
    for (int again = 0; again < 3; again++)
        CHECK(linnetshelf_end(&two).index == (3ull << 32) + 1);
    CHECK(linnetshelf_cursor(&two).index == 0);
    CHECK(is_message(linnetshelf_next(&two, room, sizeof room), 0, room, "a"));
    CHECK(linnetshelf_drop_before(&two, 3).index == 3);
    CHECK(linnetshelf_begin(&one, 0, 8) == STATUS(DONE));
    CHECK(linnetshelf_end(&one).index == (3ull << 32) + 1);
    CHECK(linnetshelf_put(&one, "c", 1) == STATUS(DONE));
    CHECK(linnetshelf_complete(&one).index == (3ull << 32) + 1);
    CHECK(linnetshelf_end(&two).index == (3ull << 32) + 2);
    /* No endpoint of it is left over. */
    linnetshelf_destroy(two);
    CHECK(linnetshelf_stop(&one) == STATUS(DONE));
    linnetshelf_destroy(one);
}

/* A buffer that is too small for a message whose cycle was dropped: reads and takes go on, or return that nothing
 * is there. */
static void a_small_room_passes_over_what_was_dropped(void) {
    linnetshelf_handle queue = queue_of("reader\n", 0);
    char room[1] = {'.'};
    CHECK(linnetshelf_append(&queue, 0, "hello", 5).status == STATUS(DONE));
    CHECK(linnetshelf_append(&queue, DAY, "c", 1).index == 1ull << 32);
    CHECK(linnetshelf_next(&queue, room, 1).status == STATUS(NO_ROOM));
    CHECK(linnetshelf_to_end(&queue).index == (1ull << 32) + 1);
    CHECK(linnetshelf_drop_before(&queue, 1).index == 1);
    CHECK(linnetshelf_to_start(&queue) == STATUS(DONE));
    CHECK(linnetshelf_read_at(&queue, 0, room, 1).status == STATUS(GONE) && room[0] == '.');
    CHECK(is_message(linnetshelf_next(&queue, room, 1), 1ull << 32, room, "c"));
    room[0] = '.';
    CHECK(is_message(linnetshelf_take(&queue, "reader", 6, room, 1), 1ull << 32, room, "c"));
    CHECK(linnetshelf_direction(&queue, LINNETSHELF_BACKWARDS) == STATUS(DONE));
    CHECK(linnetshelf_next(&queue, room, 0).length == 1);
    CHECK(is_message(linnetshelf_next(&queue, room, 1), 1ull << 32, room, "c"));
    CHECK(linnetshelf_next(&queue, room, 1).status == STATUS(BEFORE_START));
    linnetshelf_destroy(queue);
}

static void a_cycle_gets_full(void) {
    linnetshelf_settings tiny = SMALL;
    tiny.cells = 64;
    tiny.index_count = 8;
    linnetshelf_handle queue = {0};
    char message[200];
    memset(message, 'x', sizeof message);
    CHECK(linnetshelf_create(&tiny, "", 0, 0, &queue) == STATUS(DONE));
    CHECK(linnetshelf_append(&queue, 0, message, sizeof message).status == STATUS(CYCLE_FULL));
    CHECK(linnetshelf_append(&queue, 0, message, 100).status == STATUS(DONE));
    CHECK(linnetshelf_append(&queue, 0, message, 100).status == STATUS(CYCLE_FULL));
    CHECK(linnetshelf_append(&queue, DAY, message, 100).status == STATUS(DONE));
    linnetshelf_destroy(queue);
}

static void messages_are_put_in_parts(void) {
    linnetshelf_handle one = queue_of("", 0), other = {0};
    char room[64];
    CHECK(linnetshelf_split(&one, &other) == STATUS(DONE));
    CHECK(linnetshelf_put(&one, "a", 1) == STATUS(NOT_WRITING));
    CHECK(linnetshelf_complete(&one).status == STATUS(NOT_WRITING));
    CHECK(linnetshelf_roll_back(&one) == STATUS(NOT_WRITING));
    CHECK(linnetshelf_begin(&one, 0, 0) == STATUS(BAD_ROOM));
    CHECK(linnetshelf_begin(&one, 0, 8) == STATUS(DONE));
    CHECK(linnetshelf_begin(&one, 0, 8) == STATUS(WRITING));
    CHECK(linnetshelf_append(&one, 0, "a", 1).status == STATUS(WRITING));
    CHECK(linnetshelf_advance(&one, DAY).status == STATUS(WRITING));
    CHECK(linnetshelf_append(&other, 0, "a", 1).status == STATUS(BUSY));
    CHECK(linnetshelf_complete(&one).status == STATUS(EMPTY_MESSAGE));
    CHECK(linnetshelf_put(&one, "", 0) == STATUS(DONE));
    CHECK(linnetshelf_put(&one, "hello", 5) == STATUS(DONE));
    CHECK(linnetshelf_put(&one, "world", 5) == STATUS(PAST_ROOM));
    CHECK(linnetshelf_put(&one, "you", 3) == STATUS(DONE));
    CHECK(linnetshelf_next(&other, room, sizeof room).status == STATUS(NOT_YET));
    CHECK(linnetshelf_complete(&one).index == 0);
    CHECK(is_message(linnetshelf_next(&other, room, sizeof room), 0, room, "helloyou"));
    CHECK(linnetshelf_begin(&one, 0, 8) == STATUS(DONE));
    CHECK(linnetshelf_put(&one, "never", 5) == STATUS(DONE));
    CHECK(linnetshelf_roll_back(&one) == STATUS(DONE));
    CHECK(linnetshelf_append(&other, 0, "next", 4).index == 1);
    CHECK(is_message(linnetshelf_next(&other, room, sizeof room), 1, room, "next"));
    linnetshelf_destroy(one);
    linnetshelf_destroy(other);
}

static void names_take(void) {
    linnetshelf_handle one = queue_of("reader\nother", 0), two = {0};
    char room[64];
    CHECK(linnetshelf_split(&one, &two) == STATUS(DONE));
    CHECK(linnetshelf_take(&one, "reader", 6, room, sizeof room).status == STATUS(NOT_YET));
    linnetshelf_append(&one, 0, "first", 5);
    linnetshelf_append(&one, 0, "second", 6);
    CHECK(linnetshelf_take(&one, "nobody", 6, room, sizeof room).status == STATUS(NO_SUCH_NAME));
    CHECK(linnetshelf_take(&one, "\xff\xfe", 2, room, sizeof room).status == STATUS(NO_SUCH_NAME));
    CHECK(linnetshelf_take(&one, "", 0, room, sizeof room).status == STATUS(NO_SUCH_NAME));
    linnetshelf_answer answer = linnetshelf_take(&one, "reader", 6, room, 4);
    CHECK(answer.status == STATUS(NO_ROOM) && answer.length == 5);
    CHECK(is_message(linnetshelf_take(&two, "reader", 6, room, sizeof room), 0, room, "first"));
    CHECK(is_message(linnetshelf_take(&one, "reader", 6, room, sizeof room), 1, room, "second"));
    CHECK(linnetshelf_take(&two, "reader", 6, room, sizeof room).status == STATUS(NOT_YET));
    CHECK(is_message(linnetshelf_take(&two, "other", 5, room, sizeof room), 0, room, "first"));
    CHECK(linnetshelf_position(&one, "reader", 6).index == 2);
    CHECK(linnetshelf_position(&one, "nobody", 6).status == STATUS(NO_SUCH_NAME));
    CHECK(linnetshelf_seek(&one, "nobody", 6, 0, 0).status == STATUS(NO_SUCH_NAME));
    CHECK(linnetshelf_seek(&one, "reader", 6, 2, 99).status == STATUS(NOT_SEEN));
    answer = linnetshelf_seek(&one, "reader", 6, 1, 0);
    CHECK(answer.status == STATUS(MOVED) && answer.index == 2);
    CHECK(linnetshelf_seek(&one, "reader", 6, 2, 1).status == STATUS(DONE));
    CHECK(is_message(linnetshelf_take(&one, "reader", 6, room, sizeof room), 1, room, "second"));
    linnetshelf_destroy(one);
    linnetshelf_destroy(two);
}

/* Three endpoints are ended in each order; the ones that are left go on. */
static void endpoints_end_in_each_order(void) {
    static const int orders[6][3] = {{0, 1, 2}, {0, 2, 1}, {1, 0, 2}, {1, 2, 0}, {2, 0, 1}, {2, 1, 0}};
    for (int k = 0; k < 6; k++) {
        linnetshelf_handle ends[3] = {queue_of("", 0), {0}, {0}};
        char room[8];
        CHECK(linnetshelf_split(&ends[0], &ends[1]) == STATUS(DONE));
        CHECK(linnetshelf_split(&ends[1], &ends[2]) == STATUS(DONE));
        for (int gone = 0; gone < 3; gone++) {
            for (int j = gone; j < 3; j++) {
                linnetshelf_handle *end = &ends[orders[k][j]];
                CHECK(linnetshelf_append(end, 0, "x", 1).status == STATUS(DONE));
                CHECK(linnetshelf_next(end, room, sizeof room).status == STATUS(DONE));
            }
            linnetshelf_destroy(ends[orders[k][gone]]);
        }
    }
}

/* What one endpoint has seen of the end, the other has seen once they met; both stay where they read. */
static void endpoints_meet(void) {
    linnetshelf_handle one = queue_of("reader", 0), two = {0}, three = {0};
    char room[8];
    CHECK(linnetshelf_split(&one, &two) == STATUS(DONE) && linnetshelf_split(&two, &three) == STATUS(DONE));
    CHECK(linnetshelf_append(&one, 3 * DAY, "x", 1).index == 3ull << 32);
    CHECK(linnetshelf_drop_before(&two, 3).status == STATUS(NOT_SEEN));
    CHECK(linnetshelf_meet(&two, &three) == STATUS(DONE));
    CHECK(linnetshelf_drop_before(&two, 3).status == STATUS(NOT_SEEN));
    CHECK(linnetshelf_seek(&two, "reader", 6, 0, 3ull << 32).status == STATUS(NOT_SEEN));
    CHECK(linnetshelf_meet(&one, &two) == STATUS(DONE));
    CHECK(linnetshelf_cursor(&two).index == 0);
    CHECK(linnetshelf_seek(&two, "reader", 6, 0, 3ull << 32).status == STATUS(DONE));
    CHECK(linnetshelf_drop_before(&two, 3).index == 3);
    CHECK(linnetshelf_drop_before(&three, 3).status == STATUS(NOT_SEEN));
    CHECK(linnetshelf_meet(&three, &two) == STATUS(DONE));
    CHECK(linnetshelf_drop_before(&three, 3).index == 3);

    CHECK(linnetshelf_begin(&one, 0, 8) == STATUS(DONE));
    CHECK(linnetshelf_meet(&one, &three) == STATUS(DONE));
    CHECK(linnetshelf_put(&one, "y", 1) == STATUS(DONE));
    CHECK(linnetshelf_complete(&one).index == (3ull << 32) + 1);
    CHECK(is_message(linnetshelf_next(&three, room, sizeof room), 3ull << 32, room, "x"));

    linnetshelf_destroy(two);
    linnetshelf_destroy(three);
    CHECK(linnetshelf_stop(&one) == STATUS(DONE));
    two = queue_of("", 0);
    CHECK(linnetshelf_meet(&one, &two) == STATUS(WRONG_KIND));
    CHECK(linnetshelf_meet(&two, &one) == STATUS(WRONG_KIND));
    CHECK(linnetshelf_saved_count(&one).index == 2);
    CHECK(linnetshelf_append(&two, 0, "x", 1).index == 0);
    linnetshelf_destroy(one);
    linnetshelf_destroy(two);
}

static int is_count(linnetshelf_answer answer, uint64_t count) {
    return answer.status == STATUS(DONE) && answer.index == count && answer.length == 0;
}

/* Copies the images, positions and floor of what is saved into a new one. */
static linnetshelf_handle copy_of(linnetshelf_handle *saved, const char *names, int positions) {
    linnetshelf_handle copy = {0};
    CHECK(linnetshelf_saved_new(&SMALL, names, strlen(names), &copy) == STATUS(DONE));
    for (uint32_t k = 0; k < linnetshelf_saved_count(saved).index; k++) {
        linnetshelf_answer answer = linnetshelf_saved_image(saved, k, "", 0);
        CHECK(answer.status == STATUS(NO_ROOM) || (answer.status == STATUS(DONE) && answer.length == 0));
        char *image = malloc(answer.length + 1);
        answer = linnetshelf_saved_image(saved, k, image, answer.length);
        CHECK(answer.status == STATUS(DONE));
        CHECK(linnetshelf_saved_add(&copy, (uint32_t)linnetshelf_saved_cycle(saved, k).index, image, answer.length).status ==
              STATUS(DONE));
        free(image);
    }
    for (int k = 0; k < positions; k++)
        CHECK(linnetshelf_saved_set_position(&copy, k, linnetshelf_saved_position(saved, k).index) == STATUS(DONE));
    CHECK(linnetshelf_saved_set_floor(&copy, (uint32_t)linnetshelf_saved_floor(saved).index) == STATUS(DONE));
    return copy;
}

static void a_queue_is_saved_and_opened(void) {
    linnetshelf_handle queue = queue_of("reader\nother", 5 * DAY), other = {0}, again = {0};
    char room[64];
    linnetshelf_append(&queue, 5 * DAY, "one", 3);
    linnetshelf_append(&queue, 5 * DAY, "two", 3);
    linnetshelf_append(&queue, 6 * DAY, "three", 5);
    CHECK(linnetshelf_take(&queue, "other", 5, room, sizeof room).status == STATUS(DONE));
    CHECK(linnetshelf_drop_before(&queue, 6).status == STATUS(NOT_SEEN)); /* it appended there, and loaded no end */
    CHECK(linnetshelf_to_end(&queue).index == (6ull << 32) + 1);
    CHECK(linnetshelf_drop_before(&queue, 6).status == STATUS(DONE));
    CHECK(linnetshelf_split(&queue, &other) == STATUS(DONE));
    CHECK(linnetshelf_stop(&queue) == STATUS(IN_USE));
    CHECK(linnetshelf_append(&queue, 0, "four", 4).status == STATUS(DONE));
    linnetshelf_destroy(other);
    CHECK(linnetshelf_begin(&queue, 0, 8) == STATUS(DONE));
    CHECK(linnetshelf_put(&queue, "never", 5) == STATUS(DONE));
    CHECK(linnetshelf_stop(&queue) == STATUS(DONE));
    CHECK(linnetshelf_stop(&queue) == STATUS(WRONG_KIND));
    CHECK(linnetshelf_append(&queue, 0, "a", 1).status == STATUS(WRONG_KIND));
    CHECK(linnetshelf_next(&queue, room, sizeof room).status == STATUS(WRONG_KIND));
    CHECK(linnetshelf_split(&queue, &other) == STATUS(WRONG_KIND));

    CHECK(linnetshelf_saved_count(&queue).index == 2);
    CHECK(linnetshelf_saved_cycle(&queue, 0).index == 5 && linnetshelf_saved_cycle(&queue, 1).index == 6);
    CHECK(linnetshelf_saved_cycle(&queue, 2).status == STATUS(NO_SUCH_PLACE));
    CHECK(is_count(linnetshelf_saved_length(&queue, 0), 2) && is_count(linnetshelf_saved_length(&queue, 1), 2));
    CHECK(linnetshelf_saved_length(&queue, 2).status == STATUS(NO_SUCH_PLACE));
    CHECK(linnetshelf_saved_ended(&queue, 0).index == 1 && linnetshelf_saved_ended(&queue, 1).index == 0);
    CHECK(linnetshelf_saved_ended(&queue, 2).status == STATUS(NO_SUCH_PLACE));
    CHECK(linnetshelf_saved_image(&queue, 2, room, sizeof room).status == STATUS(NO_SUCH_PLACE));
    CHECK(linnetshelf_saved_position(&queue, 0).index == 0);
    CHECK(linnetshelf_saved_position(&queue, 1).index == (5ull << 32) + 1);
    CHECK(linnetshelf_saved_position(&queue, 2).status == STATUS(NO_SUCH_PLACE));
    CHECK(linnetshelf_saved_floor(&queue).index == 6);

    linnetshelf_handle copy = copy_of(&queue, "reader\nother", 2);
    CHECK(linnetshelf_saved_set_position(&copy, 2, 0) == STATUS(NO_SUCH_PLACE));
    CHECK(linnetshelf_saved_add(&copy, 9, "", 0).status == STATUS(BEHIND_OPEN));
    CHECK(linnetshelf_open(&copy, &again) == STATUS(DONE));
    CHECK(linnetshelf_open(&again, &other) == STATUS(WRONG_KIND));
    CHECK(linnetshelf_saved_count(&again).status == STATUS(WRONG_KIND));
    CHECK(is_message(linnetshelf_next(&again, room, sizeof room), 6ull << 32, room, "three"));
    CHECK(is_message(linnetshelf_next(&again, room, sizeof room), (6ull << 32) + 1, room, "four"));
    CHECK(linnetshelf_next(&again, room, sizeof room).status == STATUS(NOT_YET));
    CHECK(is_message(linnetshelf_take(&again, "other", 5, room, sizeof room), 6ull << 32, room, "three"));
    CHECK(linnetshelf_append(&again, 0, "five", 4).index == (6ull << 32) + 2);
    CHECK(linnetshelf_stop(&again) == STATUS(DONE));
    CHECK(linnetshelf_saved_position(&again, 1).index == (6ull << 32) + 1);

    CHECK(linnetshelf_saved_set_position(&copy, 0, UINT64_MAX) == STATUS(DONE));
    CHECK(linnetshelf_open(&copy, &other) == STATUS(BAD_CONTENTS));
    linnetshelf_destroy(copy);
    linnetshelf_destroy(again);
    linnetshelf_destroy(queue);
}

/* Nothing is appended or begun by this endpoint: the queue is closed. A current cycle that has begun is returned all the
 * same, and what is refused for itself has its own status. */
static void check_closed(linnetshelf_handle *end, uint64_t moment, uint64_t current) {
    static const char large[20000];
    CHECK(linnetshelf_append(end, moment, "x", 1).status == STATUS(CLOSED));
    CHECK(linnetshelf_append(end, moment + DAY, "x", 1).status == STATUS(CLOSED));
    CHECK(linnetshelf_append(end, moment + 90 * DAY, "x", 1).status == STATUS(CLOSED));
    CHECK(linnetshelf_append(end, moment, large, sizeof large).status == STATUS(CLOSED));
    CHECK(linnetshelf_append(end, moment, "", 0).status == STATUS(BAD_ROOM));
    CHECK(linnetshelf_append(end, UINT64_MAX, "x", 1).status == STATUS(BAD_MOMENT));
    CHECK(linnetshelf_begin(end, moment, 1) == STATUS(CLOSED));
    CHECK(linnetshelf_put(end, "x", 1) == STATUS(NOT_WRITING));
    CHECK(linnetshelf_complete(end).status == STATUS(NOT_WRITING));
    CHECK(linnetshelf_roll_back(end) == STATUS(NOT_WRITING));
    CHECK(linnetshelf_advance(end, moment).index == current);
    CHECK(linnetshelf_advance(end, moment + 90 * DAY).status == STATUS(CLOSED));
    CHECK(linnetshelf_close(end) == STATUS(CLOSED));
}

/* The messages `one`, `two` and `three`, of which the last is in a cycle of its own. */
static linnetshelf_handle queue_of_three(void) {
    linnetshelf_handle queue = queue_of("reader\nother", 5 * DAY);
    CHECK(linnetshelf_append(&queue, 5 * DAY, "one", 3).index == 5ull << 32);
    CHECK(linnetshelf_append(&queue, 5 * DAY, "two", 3).index == (5ull << 32) + 1);
    CHECK(linnetshelf_append(&queue, 7 * DAY, "three", 5).index == 7ull << 32);
    return queue;
}

static void a_queue_is_closed(void) {
    linnetshelf_handle one = queue_of_three(), two = {0}, three = {0};
    CHECK(linnetshelf_split(&one, &two) == STATUS(DONE));
    CHECK(linnetshelf_close(&one) == STATUS(DONE));
    check_closed(&one, 7 * DAY, 7);
    check_closed(&two, 7 * DAY, 7);
    CHECK(linnetshelf_split(&two, &three) == STATUS(DONE));
    check_closed(&three, 0, 7);
    CHECK(linnetshelf_meet(&three, &one) == STATUS(DONE));
    check_closed(&one, 0, 7);
    linnetshelf_destroy(one);
    linnetshelf_destroy(two);
    check_closed(&three, 7 * DAY, 7);
    linnetshelf_destroy(three);

    one = queue_of("", 0);
    char room[8];
    CHECK(linnetshelf_close(&one) == STATUS(DONE));
    check_closed(&one, 0, 0);
    CHECK(linnetshelf_next(&one, room, sizeof room).status == STATUS(FINISHED));
    linnetshelf_destroy(one);
}

/* Reads and takes of a closed queue: first the messages, and then that none comes. */
static void a_closed_queue_is_read_to_its_end(void) {
    linnetshelf_handle queue = queue_of_three(), other = {0};
    char room[8];
    CHECK(linnetshelf_split(&queue, &other) == STATUS(DONE));
    CHECK(is_message(linnetshelf_next(&other, room, sizeof room), 5ull << 32, room, "one"));
    CHECK(linnetshelf_close(&queue) == STATUS(DONE));

    for (int again = 0; again < 2; again++) {
        CHECK(linnetshelf_to_start(&queue) == STATUS(DONE));
        CHECK(is_message(linnetshelf_next(&queue, room, sizeof room), 5ull << 32, room, "one"));
        CHECK(is_message(linnetshelf_next(&queue, room, sizeof room), (5ull << 32) + 1, room, "two"));
        CHECK(linnetshelf_next(&queue, room, 4).status == STATUS(NO_ROOM));
        CHECK(is_message(linnetshelf_next(&queue, room, sizeof room), 7ull << 32, room, "three"));
        CHECK(linnetshelf_next(&queue, room, sizeof room).status == STATUS(FINISHED));
        CHECK(linnetshelf_next(&queue, room, 0).status == STATUS(FINISHED));
        CHECK(linnetshelf_cursor(&queue).index == (7ull << 32) + 1);
    }
    CHECK(is_message(linnetshelf_next(&other, room, sizeof room), (5ull << 32) + 1, room, "two"));
    CHECK(is_message(linnetshelf_next(&other, room, sizeof room), 7ull << 32, room, "three"));
    CHECK(linnetshelf_next(&other, room, sizeof room).status == STATUS(FINISHED));
    CHECK(linnetshelf_direction(&other, LINNETSHELF_BACKWARDS) == STATUS(DONE));
    CHECK(is_message(linnetshelf_next(&other, room, sizeof room), 7ull << 32, room, "three"));
    CHECK(linnetshelf_to_start(&other) == STATUS(DONE));
    CHECK(linnetshelf_next(&other, room, sizeof room).status == STATUS(BEFORE_START));

    CHECK(linnetshelf_read_at(&queue, 7ull << 32, room, sizeof room).length == 5);
    CHECK(linnetshelf_read_at(&queue, 7ull << 32, room, 1).status == STATUS(NO_ROOM));
    CHECK(linnetshelf_read_at(&queue, (7ull << 32) + 1, room, sizeof room).status == STATUS(FINISHED));
    CHECK(linnetshelf_read_at(&queue, UINT64_MAX, room, sizeof room).status == STATUS(FINISHED));
    CHECK(linnetshelf_read_at(&queue, (5ull << 32) + 2, room, sizeof room).status == STATUS(NEVER));
    CHECK(linnetshelf_move_to(&queue, (7ull << 32) + 1) == STATUS(NO_MESSAGE));

    CHECK(linnetshelf_take(&queue, "nobody", 6, room, sizeof room).status == STATUS(NO_SUCH_NAME));
    CHECK(linnetshelf_take(&queue, "reader", 6, room, 2).status == STATUS(NO_ROOM));
    CHECK(is_message(linnetshelf_take(&queue, "reader", 6, room, sizeof room), 5ull << 32, room, "one"));
    CHECK(is_message(linnetshelf_take(&other, "reader", 6, room, sizeof room), (5ull << 32) + 1, room, "two"));
    CHECK(is_message(linnetshelf_take(&queue, "reader", 6, room, sizeof room), 7ull << 32, room, "three"));
    CHECK(linnetshelf_take(&queue, "reader", 6, room, sizeof room).status == STATUS(FINISHED));
    CHECK(linnetshelf_take(&other, "reader", 6, room, 0).status == STATUS(FINISHED));
    CHECK(linnetshelf_to_end(&queue).index == (7ull << 32) + 1);
    CHECK(linnetshelf_seek(&queue, "other", 5, 0, (7ull << 32) + 1).status == STATUS(DONE));
    CHECK(linnetshelf_take(&queue, "other", 5, room, sizeof room).status == STATUS(FINISHED));
    CHECK(linnetshelf_seek(&queue, "other", 5, (7ull << 32) + 1, 0).status == STATUS(DONE));

    CHECK(linnetshelf_drop_before(&queue, 7).index == 7);
    CHECK(linnetshelf_read_at(&queue, 5ull << 32, room, sizeof room).status == STATUS(GONE));
    CHECK(is_message(linnetshelf_take(&queue, "other", 5, room, sizeof room), 7ull << 32, room, "three"));
    CHECK(linnetshelf_take(&queue, "other", 5, room, sizeof room).status == STATUS(FINISHED));
    linnetshelf_destroy(queue);
    linnetshelf_destroy(other);
}

/* While a message is begun the queue is not closed, and the message is appended or given up. */
static void a_message_that_is_begun_comes_before_the_close(void) {
    linnetshelf_handle one = queue_of("reader", 0), other = {0};
    char room[8];
    CHECK(linnetshelf_split(&one, &other) == STATUS(DONE));
    for (uint64_t index = 0; index < 2; index++) {
        CHECK(linnetshelf_begin(&one, 0, 8) == STATUS(DONE));
        CHECK(linnetshelf_close(&one) == STATUS(WRITING));
        CHECK(linnetshelf_close(&other) == STATUS(BUSY));
        CHECK(linnetshelf_append(&other, 0, "x", 1).status == STATUS(BUSY));
        CHECK(linnetshelf_next(&other, room, sizeof room).status == STATUS(NOT_YET));
        CHECK(linnetshelf_take(&other, "reader", 6, room, sizeof room).status == STATUS(NOT_YET));
        CHECK(linnetshelf_read_at(&other, index, room, sizeof room).status == STATUS(NOT_YET));
        CHECK(linnetshelf_put(&one, "begun", 5) == STATUS(DONE));
        CHECK(linnetshelf_complete(&one).index == index);
        CHECK(is_message(linnetshelf_next(&other, room, sizeof room), index, room, "begun"));
        CHECK(is_message(linnetshelf_take(&other, "reader", 6, room, sizeof room), index, room, "begun"));
    }
    CHECK(linnetshelf_begin(&one, 0, 8) == STATUS(DONE));
    CHECK(linnetshelf_close(&other) == STATUS(BUSY));
    CHECK(linnetshelf_roll_back(&one) == STATUS(DONE));
    CHECK(linnetshelf_close(&other) == STATUS(DONE));
    check_closed(&one, 0, 0);
    CHECK(linnetshelf_next(&other, room, sizeof room).status == STATUS(FINISHED));
    linnetshelf_destroy(other);
    CHECK(is_message(linnetshelf_next(&one, room, sizeof room), 0, room, "begun"));
    CHECK(is_message(linnetshelf_next(&one, room, sizeof room), 1, room, "begun"));
    CHECK(linnetshelf_next(&one, room, sizeof room).status == STATUS(FINISHED));
    linnetshelf_destroy(one);
}

/* A handle is destroyed while a message is begun, with some bytes or none. The others write on, and nobody reads that message. */
static void a_message_that_is_begun_ends_with_its_handle(void) {
    linnetshelf_handle one = queue_of("reader", 0);
    char room[8];
    for (uint64_t index = 0; index < 2; index++) {
        linnetshelf_handle other = {0};
        CHECK(linnetshelf_split(&one, &other) == STATUS(DONE));
        CHECK(linnetshelf_begin(&other, 0, 8) == STATUS(DONE));
        CHECK(linnetshelf_put(&other, "begun", 5 * index) == STATUS(DONE));
        CHECK(linnetshelf_append(&one, 0, "after", 5).status == STATUS(BUSY));
        linnetshelf_destroy(other);
        CHECK(linnetshelf_append(&one, 0, "after", 5).index == index);
        CHECK(is_message(linnetshelf_next(&one, room, sizeof room), index, room, "after"));
    }
    CHECK(linnetshelf_next(&one, room, sizeof room).status == STATUS(NOT_YET));
    CHECK(linnetshelf_close(&one) == STATUS(DONE));
    linnetshelf_destroy(one);
}

/* Queues of some cycles of which the first ones are full: not one byte fits any more. Of the last queue all are. */
static void a_full_queue_is_closed(void) {
    linnetshelf_settings tiny = SMALL;
    tiny.cells = 64;
    tiny.index_count = 8;
    for (uint32_t cycles = 1; cycles <= 3; cycles++)
        for (uint32_t full = 1; full <= cycles; full++) {
            linnetshelf_handle queue = {0}, other = {0};
            linnetshelf_answer answer;
            char room[1];
            uint32_t count = 0;
            tiny.cycles = cycles;
            CHECK(linnetshelf_create(&tiny, "reader", 6, 0, &queue) == STATUS(DONE));
            CHECK(linnetshelf_split(&queue, &other) == STATUS(DONE));
            for (uint32_t cycle = 0; cycle < full; cycle++) {
                while ((answer = linnetshelf_append(&queue, cycle * DAY, "x", 1)).status == STATUS(DONE))
                    count++;
                CHECK(answer.status == STATUS(CYCLE_FULL));
            }
            if (full == cycles)
                CHECK(linnetshelf_append(&other, cycles * DAY, "x", 1).status == STATUS(NO_CYCLE_LEFT));
            CHECK(linnetshelf_close(&queue) == STATUS(DONE));
            CHECK(linnetshelf_close(&queue) == STATUS(CLOSED));
            CHECK(linnetshelf_close(&other) == STATUS(CLOSED));
            for (uint32_t cycle = 0; cycle <= cycles; cycle++) {
                CHECK(linnetshelf_append(&queue, cycle * DAY, "x", 1).status == STATUS(CLOSED));
                CHECK(linnetshelf_begin(&other, cycle * DAY, 1) == STATUS(CLOSED));
            }
            for (uint32_t k = 0; k < count; k++) {
                CHECK(linnetshelf_next(&other, room, sizeof room).status == STATUS(DONE));
                CHECK(linnetshelf_take(&queue, "reader", 6, room, sizeof room).status == STATUS(DONE));
            }
            CHECK(linnetshelf_next(&other, room, sizeof room).status == STATUS(FINISHED));
            CHECK(linnetshelf_take(&queue, "reader", 6, room, sizeof room).status == STATUS(FINISHED));
            linnetshelf_destroy(queue);
            linnetshelf_destroy(other);
        }
}

/* A queue whose current cycle is full, and is the last one in time: it may have another cycle, which never begins. */
static void a_full_queue_is_not_closed_at_the_end_of_time(void) {
    static const uint64_t last_moment = 253402300799999;
    linnetshelf_settings tiny = SMALL;
    tiny.cells = 64;
    tiny.index_count = 8;
    linnetshelf_handle queue = {0};
    linnetshelf_answer answer;
    char room[4];
    CHECK(linnetshelf_create(&tiny, "", 0, last_moment, &queue) == STATUS(DONE));
    while ((answer = linnetshelf_append(&queue, last_moment, "1234", 4)).status == STATUS(DONE)) {
    }
    CHECK(answer.status == STATUS(CYCLE_FULL));
    while (linnetshelf_append(&queue, last_moment, "x", 1).status == STATUS(DONE)) {
    }
    CHECK(linnetshelf_close(&queue) == STATUS(CYCLE_FULL));
    CHECK(linnetshelf_append(&queue, last_moment, "x", 1).status == STATUS(CYCLE_FULL));
    while ((answer = linnetshelf_next(&queue, room, sizeof room)).status == STATUS(DONE)) {
    }
    CHECK(answer.status == STATUS(NOT_YET));
    linnetshelf_destroy(queue);
}

/* What is saved of a closed queue are its messages. The queue that is opened of it takes more. */
static void a_closed_queue_is_saved_and_opened(void) {
    linnetshelf_handle queue = queue_of_three(), again = {0};
    char room[8];
    CHECK(linnetshelf_take(&queue, "other", 5, room, sizeof room).status == STATUS(DONE));
    CHECK(linnetshelf_close(&queue) == STATUS(DONE));
    CHECK(linnetshelf_stop(&queue) == STATUS(DONE));
    CHECK(linnetshelf_close(&queue) == STATUS(WRONG_KIND));
    CHECK(linnetshelf_saved_count(&queue).index == 2);
    CHECK(linnetshelf_saved_ended(&queue, 0).index == 1 && linnetshelf_saved_ended(&queue, 1).index == 0);
    CHECK(linnetshelf_saved_position(&queue, 1).index == (5ull << 32) + 1);

    linnetshelf_handle copy = copy_of(&queue, "reader\nother", 2);
    CHECK(linnetshelf_open(&copy, &again) == STATUS(DONE));
    CHECK(is_message(linnetshelf_next(&again, room, sizeof room), 5ull << 32, room, "one"));
    CHECK(is_message(linnetshelf_next(&again, room, sizeof room), (5ull << 32) + 1, room, "two"));
    CHECK(is_message(linnetshelf_next(&again, room, sizeof room), 7ull << 32, room, "three"));
    CHECK(linnetshelf_next(&again, room, sizeof room).status == STATUS(NOT_YET));
    CHECK(linnetshelf_append(&again, 7 * DAY, "four", 4).index == (7ull << 32) + 1);
    CHECK(linnetshelf_append(&again, 8 * DAY, "five", 4).index == 8ull << 32);
    CHECK(is_message(linnetshelf_next(&again, room, sizeof room), (7ull << 32) + 1, room, "four"));
    CHECK(linnetshelf_close(&again) == STATUS(DONE));
    check_closed(&again, 8 * DAY, 8);
    CHECK(is_message(linnetshelf_next(&again, room, sizeof room), 8ull << 32, room, "five"));
    CHECK(linnetshelf_next(&again, room, sizeof room).status == STATUS(FINISHED));
    linnetshelf_destroy(again);
    linnetshelf_destroy(copy);
    linnetshelf_destroy(queue);
}

static void images_are_tested(void) {
    linnetshelf_handle queue = queue_of("", 0), saved = {0}, out = {0};
    static char image[16384];
    linnetshelf_append(&queue, 0, "hello", 5);
    CHECK(linnetshelf_stop(&queue) == STATUS(DONE));
    linnetshelf_answer answer = linnetshelf_saved_image(&queue, 0, image, sizeof image);
    CHECK(answer.status == STATUS(DONE) && answer.length > 4);
    CHECK(linnetshelf_saved_new(&SMALL, "", 0, &saved) == STATUS(DONE));
    CHECK(linnetshelf_open(&saved, &out) == STATUS(BAD_CONTENTS));
    CHECK(linnetshelf_saved_add(&saved, 0, image, answer.length - 1).status == STATUS(CUT));
    CHECK(linnetshelf_saved_add(&saved, 1, image, answer.length).status == STATUS(WRONG_STORE));
    image[answer.length - 1] = 1;
    linnetshelf_answer refused = linnetshelf_saved_add(&saved, 0, image, answer.length);
    CHECK(refused.status == STATUS(BAD_PADDING) && refused.index == answer.length - 1u);
    image[answer.length - 1] = 0;
    CHECK(linnetshelf_saved_count(&saved).index == 0);
    CHECK(linnetshelf_saved_add(&saved, 0, image, answer.length).status == STATUS(DONE));
    CHECK(linnetshelf_saved_count(&saved).index == 1);
    CHECK(linnetshelf_open(&saved, &out) == STATUS(DONE));
    linnetshelf_destroy(out);
    linnetshelf_destroy(saved);
    linnetshelf_destroy(queue);
}

static void statuses_have_texts(void) {
    char room[128], other[128];
    for (uint32_t status = 0; status <= STATUS(BAD_GAIN); status++) {
        size_t length = linnetshelf_text(status, room, sizeof room);
        CHECK(length > 0 && length < sizeof room && strlen(room) == length);
        for (uint32_t before = 0; before < status; before++) {
            linnetshelf_text(before, other, sizeof other);
            CHECK(strcmp(room, other) != 0);
        }
    }
    CHECK(linnetshelf_text(STATUS(BAD_GAIN) + 1, room, sizeof room) == strlen("no status has this number"));
    room[0] = '!';
    CHECK(linnetshelf_text(STATUS(DONE), room, linnetshelf_text(STATUS(DONE), other, sizeof other)) > 0 && room[0] == '!');
}

/* A buffer is filled up to the length of the answer and not past it. */
static int is_text(linnetshelf_answer answer, const char *room, size_t size, const char *text) {
    size_t length = strlen(text);
    if (answer.status != STATUS(DONE) || answer.index != 0 || answer.length != length || memcmp(room, text, length) != 0)
        return 0;
    for (size_t k = length; k < size; k++)
        if (room[k] != '#')
            return 0;
    return 1;
}

static int is_refused(linnetshelf_answer answer, uint32_t length, uint32_t status) {
    return answer.status == status && answer.index == 0 && answer.length == length;
}

static const linnetshelf_settings HOURS = {
    .epoch = 7, .cells = 512, .index_count = 8, .index_spacing = 2, .cycles = 3, .roll = LINNETSHELF_HOURLY};

static int are_hours(const linnetshelf_settings *it) {
    return it->epoch == 7 && it->cells == 512 && it->index_count == 8 && it->index_spacing == 2 && it->cycles == 3 &&
           it->roll == LINNETSHELF_HOURLY;
}

static void settings_and_names_are_returned(void) {
    linnetshelf_handle queue = {0}, saved = {0}, keeper = {0}, endpoint = {0};
    CHECK(linnetshelf_create(&HOURS, "worker\nreader", 13, DAY, &queue) == STATUS(DONE));
    CHECK(linnetshelf_saved_new(&HOURS, "worker\nreader", 13, &saved) == STATUS(DONE));
    linnetshelf_handle *handles[] = {&queue, &saved};
    for (int k = 0; k < 2; k++) {
        char room[32];
        linnetshelf_settings found = SMALL;
        linnetshelf_answer answer = linnetshelf_settings_of(handles[k], &found);
        CHECK(answer.status == STATUS(DONE) && answer.index == 2 && answer.length == 0 && are_hours(&found));
        memset(room, '#', sizeof room);
        CHECK(is_text(linnetshelf_names_of(handles[k], 0, room, sizeof room), room, sizeof room, "worker"));
        memset(room, '#', sizeof room);
        CHECK(is_text(linnetshelf_names_of(handles[k], 1, room, 6), room, sizeof room, "reader"));
        memset(room, '#', sizeof room);
        CHECK(is_refused(linnetshelf_names_of(handles[k], 1, room, 5), 6, STATUS(NO_ROOM)) && room[0] == '#');
        CHECK(is_refused(linnetshelf_names_of(handles[k], 2, room, sizeof room), 0, STATUS(NO_SUCH_PLACE)) && room[0] == '#');
        CHECK(is_refused(linnetshelf_names_of(handles[k], UINT32_MAX, room, 0), 0, STATUS(NO_SUCH_PLACE)));
    }
    linnetshelf_destroy(saved);
    CHECK(linnetshelf_stop(&queue) == STATUS(DONE));
    CHECK(linnetshelf_keep(&queue, &endpoint, &keeper) == STATUS(DONE));
    linnetshelf_settings found = HOURS;
    char room[8] = "#";
    CHECK(is_refused(linnetshelf_settings_of(&keeper, &found), 0, STATUS(WRONG_KIND)) && are_hours(&found));
    CHECK(is_refused(linnetshelf_names_of(&keeper, 0, room, sizeof room), 0, STATUS(WRONG_KIND)) && room[0] == '#');
    linnetshelf_destroy(keeper);
    linnetshelf_destroy(endpoint);
    linnetshelf_destroy(queue);
}

static void cycles_have_names(void) {
    static const struct {
        uint32_t roll, cycle;
        uint64_t epoch, moment;
        const char *name;
    } rows[] = {
        {LINNETSHELF_DAILY, 0, 0, 0, "19700101"},
        {LINNETSHELF_DAILY, 20000, 0, 1728000000000, "20241004"},
        {LINNETSHELF_HOURLY, 480007, 0, 1728028799999, "20241004-07"},
        {LINNETSHELF_MINUTELY, 134, 1728000000000, 1728008040000, "20241004-0214"},
    };
    char room[16];
    for (size_t k = 0; k < sizeof rows / sizeof *rows; k++) {
        linnetshelf_answer answer = linnetshelf_cycle_of(rows[k].roll, rows[k].epoch, rows[k].moment);
        CHECK(answer.status == STATUS(DONE) && answer.index == rows[k].cycle && answer.length == 0);
        uint32_t length = (uint32_t)strlen(rows[k].name);
        memset(room, '#', sizeof room);
        answer = linnetshelf_cycle_name(rows[k].roll, rows[k].epoch, rows[k].cycle, room, sizeof room);
        CHECK(is_text(answer, room, sizeof room, rows[k].name));
        memset(room, '#', sizeof room);
        answer = linnetshelf_cycle_name(rows[k].roll, rows[k].epoch, rows[k].cycle, room, length - 1);
        CHECK(is_refused(answer, length, STATUS(NO_ROOM)) && room[0] == '#');
        answer = linnetshelf_cycle_named(rows[k].roll, rows[k].epoch, rows[k].name, length);
        CHECK(answer.status == STATUS(DONE) && answer.index == rows[k].cycle && answer.length == 0);
        CHECK(is_refused(linnetshelf_cycle_named(rows[k].roll, rows[k].epoch, rows[k].name, length - 1), 0, STATUS(NO_SUCH_PLACE)));
    }
    CHECK(is_refused(linnetshelf_cycle_of(LINNETSHELF_DAILY, 5, 4), 0, STATUS(BAD_MOMENT)));
    CHECK(is_refused(linnetshelf_cycle_of(LINNETSHELF_DAILY, 0, UINT64_MAX), 0, STATUS(BAD_MOMENT)));
    CHECK(is_refused(linnetshelf_cycle_of(3, 0, 0), 0, STATUS(BAD_SETTINGS)));
    memset(room, '#', sizeof room);
    CHECK(is_refused(linnetshelf_cycle_name(LINNETSHELF_DAILY, 0, UINT32_MAX, room, sizeof room), 0, STATUS(NO_SUCH_PLACE)));
    CHECK(is_refused(linnetshelf_cycle_name(LINNETSHELF_DAILY, UINT64_MAX, 0, room, sizeof room), 0, STATUS(NO_SUCH_PLACE)));
    CHECK(is_refused(linnetshelf_cycle_name(3, 0, 0, room, sizeof room), 0, STATUS(BAD_SETTINGS)) && room[0] == '#');
    CHECK(is_refused(linnetshelf_cycle_named(LINNETSHELF_DAILY, 0, "20240231", 8), 0, STATUS(NO_SUCH_PLACE)));
    CHECK(is_refused(linnetshelf_cycle_named(LINNETSHELF_DAILY, 0, "\xff", 1), 0, STATUS(NO_SUCH_PLACE)));
    CHECK(is_refused(linnetshelf_cycle_named(LINNETSHELF_DAILY, 0, "", 0), 0, STATUS(NO_SUCH_PLACE)));
    CHECK(is_refused(linnetshelf_cycle_named(3, 0, "19700101", 8), 0, STATUS(BAD_SETTINGS)));
}

/* A queue is copied while another endpoint has begun a message, and goes on. */
static void a_queue_is_copied_while_it_goes_on(void) {
    linnetshelf_handle queue = queue_of("worker", 5 * DAY), other = {0}, copy = {0}, again = {0};
    char room[8];
    CHECK(linnetshelf_append(&queue, 5 * DAY, "one", 3).status == STATUS(DONE));
    CHECK(linnetshelf_append(&queue, 6 * DAY, "two", 3).status == STATUS(DONE));
    CHECK(linnetshelf_append(&queue, 6 * DAY, "three", 5).status == STATUS(DONE));
    CHECK(linnetshelf_take(&queue, "worker", 6, room, sizeof room).status == STATUS(DONE));
    CHECK(linnetshelf_to_end(&queue).status == STATUS(DONE) && linnetshelf_drop_before(&queue, 6).index == 6);
    CHECK(linnetshelf_split(&queue, &other) == STATUS(DONE));
    CHECK(linnetshelf_begin(&other, 6 * DAY, 8) == STATUS(DONE) && linnetshelf_put(&other, "begun", 5) == STATUS(DONE));
    uint64_t cursor = linnetshelf_cursor(&queue).index;
    CHECK(linnetshelf_snapshot(&queue, &copy) == STATUS(DONE));
    CHECK(linnetshelf_cursor(&queue).index == cursor);
    CHECK(linnetshelf_complete(&other).index == (6ull << 32) + 2);

    CHECK(linnetshelf_saved_count(&copy).index == 2);
    CHECK(linnetshelf_saved_cycle(&copy, 0).index == 5 && linnetshelf_saved_length(&copy, 0).index == 1);
    CHECK(linnetshelf_saved_cycle(&copy, 1).index == 6 && linnetshelf_saved_length(&copy, 1).index == 2);
    CHECK(is_refused(linnetshelf_saved_length(&copy, 2), 0, STATUS(NO_SUCH_PLACE)));
    CHECK(linnetshelf_saved_ended(&copy, 0).index == 1 && linnetshelf_saved_ended(&copy, 1).index == 0);
    CHECK(linnetshelf_saved_position(&copy, 0).index == 0 && linnetshelf_saved_floor(&copy).index == 0);
    CHECK(linnetshelf_open(&copy, &again) == STATUS(DONE));
    CHECK(is_message(linnetshelf_next(&again, room, sizeof room), 5ull << 32, room, "one"));
    CHECK(is_message(linnetshelf_next(&again, room, sizeof room), 6ull << 32, room, "two"));
    CHECK(is_message(linnetshelf_next(&again, room, sizeof room), (6ull << 32) + 1, room, "three"));
    CHECK(linnetshelf_next(&again, room, sizeof room).status == STATUS(NOT_YET));
    CHECK(linnetshelf_append(&again, 6 * DAY, "more", 4).index == (6ull << 32) + 2);
    CHECK(linnetshelf_snapshot(&copy, &again) == STATUS(WRONG_KIND));
    CHECK(is_refused(linnetshelf_saved_length(&queue, 0), 0, STATUS(WRONG_KIND)));
    linnetshelf_destroy(again);
    linnetshelf_destroy(copy);
    linnetshelf_destroy(other);
    linnetshelf_destroy(queue);
}

static void the_text_of_settings_is_read_and_written(void) {
    static const char text[] = "cq 2\nroll hourly\nepoch 7\ncells 512\ncount 8\nspacing 2\ncycles 3\nfloor 24\n"
                               "name worker 103079215104\nname reader 0\n";
    linnetshelf_handle saved = {0}, out = {0};
    linnetshelf_settings found = SMALL;
    char room[256];
    size_t length = sizeof text - 1;
    CHECK(is_refused(linnetshelf_config_read(text, length, &saved), 0, STATUS(DONE)));
    CHECK(linnetshelf_settings_of(&saved, &found).index == 2 && are_hours(&found));
    CHECK(linnetshelf_saved_count(&saved).index == 0 && linnetshelf_saved_floor(&saved).index == 24);
    CHECK(linnetshelf_saved_position(&saved, 0).index == 24ull << 32 && linnetshelf_saved_position(&saved, 1).index == 0);
    CHECK(is_refused(linnetshelf_saved_length(&saved, 0), 0, STATUS(NO_SUCH_PLACE)));
    memset(room, '#', sizeof room);
    CHECK(is_text(linnetshelf_config_write(&saved, room, sizeof room), room, sizeof room, text));
    memset(room, '#', sizeof room);
    CHECK(is_text(linnetshelf_config_write(&saved, room, length), room, sizeof room, text));
    memset(room, '#', sizeof room);
    CHECK(is_refused(linnetshelf_config_write(&saved, room, length - 1), (uint32_t)length, STATUS(NO_ROOM)) && room[0] == '#');
    CHECK(linnetshelf_saved_set_floor(&saved, UINT32_MAX) == STATUS(DONE));
    CHECK(is_refused(linnetshelf_config_write(&saved, room, sizeof room), 0, STATUS(BAD_CONTENTS)) && room[0] == '#');
    linnetshelf_destroy(saved);

    static const struct {
        const char *text;
        uint64_t line;
    } bad[] = {
        {"", 1},
        {"cq 3\n", 1},
        {"cq 2\nroll weekly\n", 2},
        {"cq 2\nroll daily\nepoch 0\ncells 64\ncount 8\nspacing 1\n", 7},
        {"cq 2\nroll daily\nepoch 0\ncells 64\ncount 8\nspacing 1\ncycles 4\nname a/b 0\n", 8},
        {"cq 2\nroll daily\nepoch 0\ncells 64\ncount 9\nspacing 1\ncycles 4\n", 0},
        {"cq 2\nroll daily\nepoch 0\ncells 64\ncount 8\nspacing 1\ncycles 65\n", 0},
        {"cq 2\nroll daily\nepoch 0\ncells 64\ncount 8\nspacing 1\ncycles 4\nname a 0\nname a 0\n", 0},
    };
    for (size_t k = 0; k < sizeof bad / sizeof *bad; k++) {
        linnetshelf_answer answer = linnetshelf_config_read(bad[k].text, strlen(bad[k].text), &out);
        CHECK(answer.status == STATUS(BAD_SETTINGS) && answer.index == bad[k].line && answer.length == 0);
        CHECK(out.at == NULL);
    }
    linnetshelf_handle queue = queue_of("", 0);
    CHECK(is_refused(linnetshelf_config_write(&queue, room, sizeof room), 0, STATUS(WRONG_KIND)) && room[0] == '#');
    linnetshelf_destroy(queue);
}

int main(void) {
    settings_are_tested();
    settings_and_names_are_returned();
    cycles_have_names();
    a_queue_is_copied_while_it_goes_on();
    the_text_of_settings_is_read_and_written();
    CHECK(linnetshelf_version() == LINNETSHELF_VERSION);
    messages_are_appended_and_read();
    next_message_is_peeked();
    zero_handles_are_destroyed();
    many_messages_are_appended();
    many_messages_fill_a_cycle();
    many_messages_are_read();
    the_end_is_looked_up();
    a_small_room_passes_over_what_was_dropped();
    a_cycle_gets_full();
    messages_are_put_in_parts();
    names_take();
    endpoints_end_in_each_order();
    endpoints_meet();
    a_queue_is_saved_and_opened();
    a_queue_is_closed();
    a_closed_queue_is_read_to_its_end();
    a_message_that_is_begun_comes_before_the_close();
    a_message_that_is_begun_ends_with_its_handle();
    a_full_queue_is_closed();
    a_full_queue_is_not_closed_at_the_end_of_time();
    a_closed_queue_is_saved_and_opened();
    images_are_tested();
    statuses_have_texts();
    return failures != 0;
}
