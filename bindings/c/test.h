/*
 * What the tests in C share: sheet A as document 01 has it, its language, and room between unreadable pages.
 */
#ifndef TEST_H
#define TEST_H

#include <stddef.h>
#include <stdint.h>
#include <string.h>
#include <sys/mman.h>
#include <unistd.h>

enum { WORDS = 52, LENGTH = 2 * WORDS, ROOM = 65536, LANGS_ROOM = 4 * ROOM, ENG = 5575 };

static const uint16_t sheet_a[WORDS] = {
    1, 1, 1, 16, 1, 24, 1, 29, 1, 45, 1, 48, 2, 50, 0, 52,                            /* header */
    5575, 0, 1, 0, 0, 0, 0, 1,                                                        /* programme */
    5575, 0, 0, 0, 1,                                                                 /* content */
    0, 1, 1, 0, 0, 0, 0, 0, 32767, 32767, 32767, 32767, 32767, 32767, 0, 0,           /* object */
    1, 1, 0,                                                                          /* pack */
    0, 0,                                                                             /* track */
    0, 0                                                                              /* references */
};

static inline void set_word(uint8_t *sheet, int word, uint16_t value) {
    sheet[2 * word] = (uint8_t)(value >> 8);
    sheet[2 * word + 1] = (uint8_t)value;
}

static inline void write_sheet_a(uint8_t *sheet) {
    for (int word = 0; word < WORDS; word++)
        set_word(sheet, word, sheet_a[word]);
}

/* The list of the only language of A. */
static const uint8_t langs_a[2] = {ENG >> 8, ENG & 255};

/* So many bytes between two unreadable pages, unreadable themselves until they are protected otherwise; NULL if the system refuses. */
static inline uint8_t *new_room_of(size_t bytes) {
    size_t page = (size_t)sysconf(_SC_PAGESIZE);
    uint8_t *all = mmap(NULL, bytes + 2 * page, PROT_NONE, MAP_PRIVATE | MAP_ANONYMOUS, -1, 0);
    return all == MAP_FAILED || bytes % page != 0 ? NULL : all + page;
}

static inline uint8_t *new_room(void) {
    return new_room_of(ROOM);
}

/* Puts bytes at a place of a room of so many bytes, which then can only be read; 0 if the system refuses. */
static inline int put_in_room(uint8_t *room, size_t room_len, uint8_t *place, const uint8_t *bytes, size_t length) {
    if (mprotect(room, room_len, PROT_READ | PROT_WRITE) != 0)
        return 0;
    if (length > 0)
        memcpy(place, bytes, length);
    return mprotect(room, room_len, PROT_READ) == 0;
}

#endif
