/*
 * Tests sheet_start_listing from C on sheet A and examples/play.sheet, which examples/README.md describes. The tracks are worked out
 * from document 01 by hand. Sheet, list and buffer are each lent right after an unreadable page and right before one, so that a byte
 * touched outside ends the test; sheet and list are read-only, and every byte near the buffer is looked at after the call.
 */
#define _DEFAULT_SOURCE
#include <stdio.h>
#include <string.h>

#include "sheet.h"
#include "test.h"

enum { UNTOUCHED = 0xa5, MOST_TRACKS = 28, LEVEL = 1, ORDINAL = 49 };

struct sheet {
    uint8_t bytes[ROOM];
    size_t length;
};

/* A programme's start: its tracks by rising object. */
struct start {
    const char *name;
    const struct sheet *sheet;
    uint32_t programme;
    int tracks;
    uint8_t track[MOST_TRACKS];
};

static struct sheet a, play;

static const struct start starts[] = {
    {"A", &a, 0, 1, {0}},
    {"play, all: bed left and right, English (leads the narrators), rain, door", &play, 0, 5, {0, 1, 2, 5, 6}},
    {"play, German: bed left and right, German, rain", &play, 1, 4, {0, 1, 3, 5}},
};

/* deu, eng, fra and zxx, the languages of the play. */
static const uint8_t languages[] = {16, 181, 21, 199, 26, 65, 107, 24};

/* The list that the sheets are lent. */
static const uint8_t *langs = languages;
static size_t langs_len = sizeof languages;

static uint8_t *sheet_room, *langs_room, *buffer_room;
static int calls, wrong;

static void wrong_answer(const char *name, uint32_t programme, size_t buffer_len, const char *what) {
    printf("%s, list of %zu bytes, programme %u, buffer of %zu bytes: %s\n", name, langs_len, programme, buffer_len, what);
    wrong++;
}

/* Whether the buffer room has the tracks at the place of the buffer, and nothing else has changed. */
static int room_is_right(const uint8_t *buffer, int tracks, const uint8_t *track) {
    static uint8_t right[ROOM];
    memset(right, UNTOUCHED, ROOM);
    for (int i = 0; i < tracks; i++)
        set_word(right + (buffer - buffer_room), i, track[i]);
    return memcmp(buffer_room, right, ROOM) == 0;
}

/* Makes the call with sheet, list and buffer at these places, and compares number and buffer with the start. */
static void list_at(const uint8_t *sheet, size_t sheet_len, const uint8_t *list, uint8_t *buffer, size_t buffer_len,
                    const struct start *start, int32_t answer) {
    memset(buffer_room, UNTOUCHED, ROOM);
    int32_t given = sheet_start_listing(sheet, sheet_len, list, langs_len, start->programme, buffer, buffer_len);
    if (given != answer)
        wrong_answer(start->name, start->programme, buffer_len, "another number");
    if (!room_is_right(buffer, answer < 0 ? 0 : answer, start->track))
        wrong_answer(start->name, start->programme, buffer_len, "other bytes");
    calls++;
}

/* Lends sheet_len bytes of the start's sheet and the list at places of their rooms, and a buffer at both ends of its own. */
static void list_from(uint8_t *place, size_t sheet_len, uint8_t *list, size_t buffer_len, const struct start *start, int32_t answer) {
    if (!put_in_room(sheet_room, ROOM, place, start->sheet->bytes, sheet_len) || !put_in_room(langs_room, ROOM, list, langs, langs_len))
        wrong_answer(start->name, start->programme, buffer_len, "no room");
    list_at(place, sheet_len, list, buffer_room, buffer_len, start, answer);
    list_at(place, sheet_len, list, buffer_room + ROOM - buffer_len, buffer_len, start, answer);
}

static void list(size_t sheet_len, size_t buffer_len, const struct start *start, int32_t answer) {
    uint8_t *places[] = {sheet_room, sheet_room + ROOM - sheet_len}, *lists[] = {langs_room, langs_room + ROOM - langs_len};
    for (int i = 0; i < 4; i++)
        list_from(places[i / 2], sheet_len, lists[i % 2], buffer_len, start, answer);
}

/* Every length of buffer from none to two bytes more than enough, and the longest. */
static void check_starts(void) {
    for (size_t i = 0; i < sizeof starts / sizeof *starts; i++) {
        const struct start *start = &starts[i];
        size_t enough = 2 * (size_t)start->tracks;
        for (size_t buffer_len = 0; buffer_len <= enough + 2; buffer_len++)
            list(start->sheet->length, buffer_len, start, buffer_len < enough ? -32 : start->tracks);
        list(start->sheet->length, ROOM, start, start->tracks);
    }
}

/* A has programme 0, the play 0 and 1. Numbers above 65535 are refused too, whatever their low bits. */
static void check_programmes(void) {
    static const uint32_t lacking[] = {2, 3, 65535, 65536, 65537, 0x80000000, UINT32_MAX};
    struct start a_last = {"A", &a, 1, 0, {0}};
    for (size_t buffer_len = 0; buffer_len <= 3; buffer_len++) {
        list(a.length, buffer_len, &a_last, -27);
        for (size_t i = 0; i < sizeof lacking / sizeof *lacking; i++) {
            struct start in_a = {"A", &a, lacking[i], 0, {0}}, in_play = {"play", &play, lacking[i], 0, {0}};
            list(a.length, buffer_len, &in_a, -27);
            list(play.length, buffer_len, &in_play, -27);
        }
    }
}

/* A sheet that is not accepted is 25, whatever the number and the buffer. */
static void check_refused_sheet(const char *name, const struct sheet *sheet, size_t sheet_len) {
    static const uint32_t programmes[] = {0, 1, 65535, 65536, UINT32_MAX};
    for (size_t i = 0; i < sizeof programmes / sizeof *programmes; i++) {
        struct start start = {name, sheet, programmes[i], 0, {0}};
        for (size_t buffer_len = 0; buffer_len <= 3; buffer_len++)
            list(sheet_len, buffer_len, &start, -25);
    }
}

static void check_refused_sheets(void) {
    static struct sheet changed;
    changed = a;
    set_word(changed.bytes, LEVEL, 0);
    check_refused_sheet("A at level 0", &changed, changed.length);
    changed = a;
    set_word(changed.bytes, ORDINAL, 1);
    check_refused_sheet("A with ordinal 1", &changed, changed.length);
    for (size_t length = 0; length < a.length; length++)
        check_refused_sheet("A cut short", &a, length);
    check_refused_sheet("A with zeros up to the longest", &a, ROOM);
}

/* Every start beside another list: listed, or 25 whatever the buffer. A needs eng only, and the play all four. */
static void check_beside(const uint8_t *bytes, size_t length, int a_is_listed, int play_is_listed) {
    langs = bytes;
    langs_len = length;
    for (size_t i = 0; i < sizeof starts / sizeof *starts; i++) {
        const struct start *start = &starts[i];
        int listed = start->sheet == &a ? a_is_listed : play_is_listed;
        size_t enough = 2 * (size_t)start->tracks;
        for (size_t buffer_len = 0; buffer_len <= enough + 1; buffer_len++)
            list(start->sheet->length, buffer_len, start, !listed ? -25 : buffer_len < enough ? -32 : start->tracks);
    }
    struct start lacking = {"A", &a, 9, 0, {0}};
    list(a.length, 0, &lacking, a_is_listed ? -27 : -25);
    langs = languages;
    langs_len = sizeof languages;
}

/* Every cut of the list, lists that lack a language, that don't rise, and the good one again. */
static void check_lists(void) {
    static const uint8_t with_a_byte[] = {16, 181, 21, 199, 26, 65, 107, 24, 0};
    static const uint8_t longer[] = {0, 0, 16, 181, 21, 199, 26, 65, 107, 24, 255, 255, 1};
    static const uint8_t without_zxx[] = {16, 181, 21, 199, 26, 65, 107, 25};
    static const uint8_t without_eng[] = {16, 181, 21, 200, 26, 65, 107, 24};
    static const uint8_t falling[] = {16, 181, 21, 199, 107, 24, 26, 65};
    static const uint8_t twice[] = {16, 181, 21, 199, 26, 65, 107, 24, 107, 24};
    for (size_t length = 0; length <= sizeof languages; length++)
        check_beside(languages, length, length >= 4, length == sizeof languages);
    check_beside(with_a_byte, sizeof with_a_byte, 1, 1);
    check_beside(longer, sizeof longer, 1, 1);
    check_beside(without_zxx, sizeof without_zxx, 1, 0);
    check_beside(without_eng, sizeof without_eng, 0, 0);
    check_beside(falling, sizeof falling, 0, 0);
    check_beside(twice, sizeof twice, 0, 0);
    check_beside(languages, sizeof languages, 1, 1);
}

static void check_null_at(const char *name, const struct sheet *sheet, int with_list, uint32_t programme, int32_t answer) {
    const uint8_t *bytes = sheet == NULL ? NULL : sheet->bytes;
    size_t sheet_len = sheet == NULL ? 0 : sheet->length, list_len = with_list ? sizeof languages : 0;
    if (sheet_start_listing(bytes, sheet_len, with_list ? languages : NULL, list_len, programme, NULL, 0) != answer)
        wrong_answer(name, programme, 0, "another number");
    calls++;
}

static void check_null(void) {
    struct start start = {"NULL as the sheet", &a, 0, 0, {0}};
    list_at(NULL, 0, languages, buffer_room, 2, &start, -25);
    check_null_at("NULL as sheet, list and buffer", NULL, 0, 0, -25);
    check_null_at("NULL as list and buffer", &a, 0, 0, -25);
    check_null_at("NULL as sheet and buffer", NULL, 1, 0, -25);
    check_null_at("NULL as the buffer", &a, 1, 0, -32);
    check_null_at("NULL as the buffer", &a, 1, 1, -27);
}

/* Lays out the rooms and reads the sheets; 0 if something is missing. */
static int make_ready(void) {
    sheet_room = new_room();
    langs_room = new_room();
    buffer_room = new_room();
    if (sheet_room == NULL || langs_room == NULL || buffer_room == NULL || mprotect(buffer_room, ROOM, PROT_READ | PROT_WRITE) != 0)
        return 0;
    write_sheet_a(a.bytes);
    a.length = LENGTH;
    FILE *file = fopen("examples/play.sheet", "rb");
    if (file == NULL)
        return 0;
    play.length = fread(play.bytes, 1, ROOM, file);
    return fclose(file) == 0 && play.length > LENGTH;
}

int main(void) {
    if (!make_ready()) {
        printf("no memory for the test, or no examples/play.sheet\n");
        return 1;
    }
    check_starts();
    check_programmes();
    check_refused_sheets();
    check_lists();
    check_null();
    printf("C test of sheet_start_listing: %d calls, %d wrong\n", calls, wrong);
    return wrong != 0;
}
