/*
 * Tests frame_check from C on lists of blocks with the answers typed in from document 02, on every count of numbers of some of them, on
 * long lists, and without numbers. Each list is lent read-only, at both ends of its room: right after an unreadable page and right before
 * one, so that a number read outside it ends the test.
 */
#define _DEFAULT_SOURCE
#include <stdio.h>

#include "sheet.h"
#include "test.h"

enum { MOST_NUMBERS = 24, SIZE = sizeof(uint32_t), ROOM_NUMBERS = ROOM / SIZE };

#define LARGEST UINT32_MAX
#define HALF UINT32_C(0x80000000)

/* The number of numbers, then the numbers. */
#define NUMBERS(...) sizeof((uint32_t[]){__VA_ARGS__}) / SIZE, {__VA_ARGS__}

struct list {
    const char *name;
    uint32_t frame, answer;
    size_t count;
    uint32_t numbers[MOST_NUMBERS];
};

static const struct list lists[] = {
    {"one block", 20000, 0, NUMBERS(0, 20000, 0)},
    {"the least length", 5000, 0, NUMBERS(0, 5000, 0)},
    {"three blocks", 30000, 0, NUMBERS(0, 5000, 0, 5000, 15000, 0, 20000, 10000, 0)},
    {"initialising first", 20000, 0, NUMBERS(0, 0, 1, 0, 5000, 0, 5000, 15000, 0)},
    {"initialising start and length not read", 20000, 0, NUMBERS(7, 4999, 1, 0, 5000, 0, 5000, 15000, 0)},
    {"initialising numbers all largest", 20000, 0, NUMBERS(LARGEST, LARGEST, LARGEST, 0, 20000, 0)},
    {"third number 2", 20000, 0, NUMBERS(0, 0, 2, 0, 20000, 0)},
    {"third number 256", 20000, 0, NUMBERS(0, 0, 256, 0, 20000, 0)},
    {"third number 2147483648", 20000, 0, NUMBERS(0, 0, HALF, 0, 20000, 0)},
    {"initialising alone", 0, 0, NUMBERS(0, 0, 1)},
    {"initialising alone with a length", 0, 0, NUMBERS(5000, 5000, 1)},
    {"a zero length alone", 0, 0, NUMBERS(0, 0, 0)},
    {"zero lengths first, between and last", 20000, 0, NUMBERS(0, 0, 0, 0, 20000, 0, 20000, 0, 0, 20000, 0, 0)},
    {"the largest frame", LARGEST, 0, NUMBERS(0, LARGEST, 0)},
    {"the largest frame in two blocks", LARGEST, 0, NUMBERS(0, HALF, 0, HALF, HALF - 1, 0)},

    {"initialising second", 20000, 35, NUMBERS(0, 5000, 0, 0, 0, 1, 5000, 15000, 0)},
    {"initialising last", 20000, 35, NUMBERS(0, 20000, 0, 0, 0, 1)},
    {"two initialising", 20000, 35, NUMBERS(0, 0, 1, 0, 0, 1, 0, 20000, 0)},
    {"initialising second, third number 256", 20000, 35, NUMBERS(0, 20000, 0, 20000, 0, 256)},
    {"initialising second, third number 2147483648", 20000, 35, NUMBERS(0, 20000, 0, 20000, 0, HALF)},
    {"initialising behind a bad length", 20000, 35, NUMBERS(0, 4999, 0, 4999, 15001, 0, 20000, 0, 1)},
    {"initialising behind a bad start", 20000, 35, NUMBERS(1, 20000, 0, 20000, 0, 1)},
    {"initialising second, a number left over", 20000, 35, NUMBERS(0, 20000, 0, 20000, 0, 1, 20000)},
    {"initialising second, another total", 19999, 35, NUMBERS(0, 20000, 0, 20000, 0, 1)},

    {"length 1", 20000, 36, NUMBERS(0, 1, 0, 1, 19999, 0)},
    {"length 4999", 20000, 36, NUMBERS(0, 4999, 0, 4999, 15001, 0)},
    {"length 4999 last", 9999, 36, NUMBERS(0, 5000, 0, 5000, 4999, 0)},
    {"first start 1", 20000, 36, NUMBERS(1, 20000, 0)},
    {"start one too large", 20000, 36, NUMBERS(0, 5000, 0, 5001, 15000, 0)},
    {"start one too small", 20000, 36, NUMBERS(0, 5000, 0, 4999, 15000, 0)},
    {"start counts the block itself", 20000, 36, NUMBERS(0, 5000, 0, 20000, 15000, 0)},
    {"start counts the initialising length", 20000, 36, NUMBERS(0, 7000, 1, 7000, 20000, 0)},
    {"start of a zero length", 20000, 36, NUMBERS(0, 20000, 0, 0, 0, 0)},
    {"start right only in 32 bits", 5000, 36, NUMBERS(0, HALF, 0, HALF, HALF, 0, 0, 5000, 0)},
    {"one number left over", 20000, 36, NUMBERS(0, 20000, 0, 20000)},
    {"two numbers left over", 20000, 36, NUMBERS(0, 20000, 0, 20000, 0)},
    {"two numbers left over, not 0", 20000, 36, NUMBERS(0, 20000, 0, 1, 1)},
    {"one number and no block", 0, 36, NUMBERS(0)},
    {"two numbers and no block", 0, 36, NUMBERS(0, 0)},
    {"bad start and another total", 20001, 36, NUMBERS(1, 20000, 0)},

    {"total one too large", 19999, 37, NUMBERS(0, 20000, 0)},
    {"total one too small", 20001, 37, NUMBERS(0, 20000, 0)},
    {"total of 4294967296", 0, 37, NUMBERS(0, HALF, 0, HALF, HALF, 0)},
    {"total right only in 32 bits", 19999, 37, NUMBERS(0, 20000, 0, 20000, LARGEST, 0)},
    {"a zero length in a frame of 4999", 4999, 37, NUMBERS(0, 0, 0)},
    {"initialising alone in a frame of 1", 1, 37, NUMBERS(0, 0, 1)},
    {"initialising alone in a frame of its length", 5000, 37, NUMBERS(0, 5000, 1)},
    {"frame counts the initialising length", 27000, 37, NUMBERS(0, 7000, 1, 0, 20000, 0)},
};

static uint8_t *room;
static int calls, wrong;

static void wrong_answer(const char *name, size_t count, uint32_t frame, uint32_t given, uint32_t answer) {
    printf("%s, %zu numbers, frame %u: %u instead of %u\n", name, count, frame, given, answer);
    wrong++;
}

/* Lends the numbers at both ends of their room, and compares the answers. */
static void check(const char *name, uint32_t frame, const uint32_t *numbers, size_t count, uint32_t answer) {
    uint8_t *places[] = {room, room + ROOM - SIZE * count};
    for (int i = 0; i < 2; i++) {
        if (!put_in_room(room, ROOM, places[i], (const uint8_t *)numbers, SIZE * count)) {
            printf("%s: no room\n", name);
            wrong++;
        }
        uint32_t given = frame_check(frame, (const uint32_t *)places[i], count);
        if (given != answer)
            wrong_answer(name, count, frame, given, answer);
        calls++;
    }
}

static void check_lists(void) {
    for (size_t i = 0; i < sizeof lists / sizeof *lists; i++)
        check(lists[i].name, lists[i].frame, lists[i].numbers, lists[i].count, lists[i].answer);
}

/* Every count of a list that has zero lengths, in each frame that some of its first blocks fill, and in two others. */
static void check_counts(void) {
    static const uint32_t numbers[] = {7, 4999, 1, 0, 5000, 0, 5000, 0, 0, 5000, 15000, 0, 20000, 0, 0};
    static const struct {
        uint32_t frame;
        size_t first, last; /* these counts are accepted, and those between of whole blocks; none if the first is above the last */
    } accepted[] = {{0, 3, 3}, {5000, 6, 9}, {20000, 12, 15}, {19999, 1, 0}, {9999, 1, 0}};
    for (size_t i = 0; i < sizeof accepted / sizeof *accepted; i++)
        for (size_t count = 0; count <= sizeof numbers / SIZE; count++) {
            int is_accepted = count >= accepted[i].first && count <= accepted[i].last;
            check("cut short", accepted[i].frame, numbers, count, count % 3 != 0 ? 36 : is_accepted ? 0 : 37);
        }
}

/* An initialising block counts as such from its third number on, which is the ninth. */
static void check_counts_misplaced(void) {
    static const uint32_t numbers[] = {0, 5000, 0, 5000, 15000, 0, 20000, 0, 1, 20000, 0, 0};
    for (size_t count = 0; count <= sizeof numbers / SIZE; count++) {
        uint32_t answer = count >= 9 ? 35 : count % 3 != 0 ? 36 : count == 6 ? 0 : 37;
        check("initialising third, cut short", 20000, numbers, count, answer);
    }
}

/* As many blocks as the room holds, none with a length: 5461 and a number left over. One marked as initialising has to be first. The last
 * block that is marked is the last one, 9 + 23 * 237. */
static void check_long(void) {
    static uint32_t numbers[ROOM_NUMBERS];
    size_t whole = ROOM_NUMBERS - ROOM_NUMBERS % 3;
    check("zeros", 0, numbers, whole, 0);
    check("zeros", 1, numbers, whole, 37);
    check("zeros and one more", 0, numbers, whole + 1, 36);
    for (size_t block = 0; block < whole / 3; block += block < 9 ? 1 : 237) {
        numbers[3 * block + 2] = 1;
        check("zeros, one block marked", 0, numbers, whole, block == 0 ? 0 : 35);
        numbers[3 * block + 2] = 0;
        numbers[3 * block] = 1;
        check("zeros, one start of 1", 0, numbers, whole, 36);
        numbers[3 * block] = 0;
    }
}

static void check_no_numbers(void) {
    static const uint32_t frames[] = {0, 1, 4999, 5000, 20000, HALF, LARGEST};
    for (size_t i = 0; i < sizeof frames / sizeof *frames; i++) {
        uint32_t given = frame_check(frames[i], NULL, 0);
        if (given != 37)
            wrong_answer("NULL", 0, frames[i], given, 37);
        calls++;
        check("no numbers", frames[i], NULL, 0, 37);
    }
}

int main(void) {
    room = new_room();
    if (room == NULL) {
        printf("no memory for the test\n");
        return 1;
    }
    check_lists();
    check_counts();
    check_counts_misplaced();
    check_long();
    check_no_numbers();
    printf("C test of frame_check: %d calls, %d wrong\n", calls, wrong);
    return wrong != 0;
}
