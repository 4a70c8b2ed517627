/*
 * Tests sheet_check from C on sheet A and document 01's cases (a) to (m), with the answers typed in from there, and on lists of language
 * words. Each sheet and each list is lent read-only, at both ends of its room: right after an unreadable page and right before one, so
 * that a byte read outside it ends the test.
 */
#define _DEFAULT_SOURCE
#include <stdio.h>
#include <string.h>

#include "sheet.h"
#include "test.h"

/* Where the words that the cases change stand in A. */
enum {
    LEVEL = 1, LANGUAGE = 24, LOUDNESS = 28, INTERACT = 36, GAIN = 37, GAIN_MINIMUM = 38, GAIN_MAXIMUM = 39, OFFSET = 40, KIND = 45,
    FRONT = 47, ORDINAL = 49
};

struct change {
    int word; /* 0: no more changes */
    int16_t value;
};

struct sheet_case {
    const char *name;
    size_t length;
    uint32_t answer;
    struct change changes[4];
};

#define SILENCE (-32768)

static const struct sheet_case cases[] = {
    {"(a) A", LENGTH, 0, {{0, 0}}},
    {"(b) ordinal 1", LENGTH, 14300000, {{ORDINAL, 1}}},
    {"(c) no bytes", 0, 1000000, {{0, 0}}},
    {"(d) 103 bytes", LENGTH - 1, 1000000, {{0, 0}}},
    {"(e) without the last word", LENGTH - 2, 3700000, {{0, 0}}},
    {"(f) level 3", LENGTH, 2000000, {{LEVEL, 3}}},
    {"(g) content loudness 0", LENGTH, 6200000, {{LOUDNESS, 0}}},
    {"(h) pack 3 1 1, offset -300", LENGTH, 0, {{KIND, 3}, {FRONT, 1}, {OFFSET, -300}}},
    {"(i) offset -301", LENGTH, 6300000, {{KIND, 3}, {FRONT, 1}, {OFFSET, -301}}},
    {"(j) offset 0 in A", LENGTH, 17300000, {{OFFSET, 0}}},
    {"(k) gain 60 in -60 to 60", LENGTH, 0, {{INTERACT, 1}, {GAIN_MINIMUM, -60}, {GAIN_MAXIMUM, 60}, {GAIN, 60}}},
    {"(l) gain 61", LENGTH, 18300000, {{INTERACT, 1}, {GAIN_MINIMUM, -60}, {GAIN_MAXIMUM, 60}, {GAIN, 61}}},
    {"(m) gain silence", LENGTH, 18300000, {{INTERACT, 1}, {GAIN_MINIMUM, -60}, {GAIN_MAXIMUM, 60}, {GAIN, SILENCE}}},
};

static uint8_t *room, *langs_room;
static int calls, wrong;

/* The list that the sheets are lent. */
static const uint8_t *langs;
static size_t langs_len;

/* Lends sheet and list at places of their rooms, and compares the answer. */
static void check_at(uint8_t *place, uint8_t *langs_place, const char *name, const uint8_t *sheet, size_t length, uint32_t answer) {
    if (!put_in_room(room, ROOM, place, sheet, length) || !put_in_room(langs_room, LANGS_ROOM, langs_place, langs, langs_len))
        wrong++;
    uint32_t given = sheet_check(place, length, langs_place, langs_len);
    if (given != answer) {
        printf("%s, %zu bytes, list of %zu: %u instead of %u\n", name, length, langs_len, given, answer);
        wrong++;
    }
    calls++;
}

static void check(const char *name, const uint8_t *sheet, size_t length, uint32_t answer) {
    uint8_t *places[] = {room, room + ROOM - length}, *langs_places[] = {langs_room, langs_room + LANGS_ROOM - langs_len};
    for (int i = 0; i < 4; i++)
        check_at(places[i / 2], langs_places[i % 2], name, sheet, length, answer);
}

static void check_cases(void) {
    for (size_t i = 0; i < sizeof cases / sizeof *cases; i++) {
        const struct sheet_case *c = &cases[i];
        uint8_t sheet[LENGTH];
        write_sheet_a(sheet);
        for (int k = 0; k < 4 && c->changes[k].word != 0; k++)
            set_word(sheet, c->changes[k].word, (uint16_t)c->changes[k].value);
        check(c->name, sheet, c->length, c->answer);
    }
}

/* Odd or under 32 bytes is rule 1; else section 7 ends with the sheet only if nothing is cut off. */
static void check_cuts(void) {
    uint8_t sheet[LENGTH];
    write_sheet_a(sheet);
    for (size_t length = 0; length <= LENGTH; length++)
        check("A cut short", sheet, length, length % 2 == 1 || length < 32 ? 1000000 : length < LENGTH ? 3700000 : 0);
}

/* Zeros of the greatest length are of edition 0; longer ones break rule 1. */
static void check_long(void) {
    static const uint8_t zeros[ROOM];
    check("zeros", zeros, ROOM - 2, 2000000);
    check("zeros", zeros, ROOM - 1, 1000000);
    check("zeros", zeros, ROOM, 1000000);
}

/* Words 5572 to 5576 in two bytes each; eng, 5575, is the fourth. */
static const uint8_t five_words[10] = {21, 196, 21, 197, 21, 198, 21, 199, 21, 200};

/* A beside a list of these bytes: accepted, rule 6 at the programme or rule 33. */
static void check_a_beside(const char *name, const uint8_t *bytes, size_t length, uint32_t answer) {
    uint8_t sheet[LENGTH];
    write_sheet_a(sheet);
    langs = bytes;
    langs_len = length;
    check(name, sheet, LENGTH, answer);
    /* a list that doesn't rise comes before rule 1 */
    check(name, sheet, LENGTH - 1, answer == 33000000 ? 33000000 : 1000000);
    check(name, sheet, 0, answer == 33000000 ? 33000000 : 1000000);
}

/* Eng is there once the list has 8 bytes. The words rise at every cut, and in a list that starts later. */
static void check_list_cuts(void) {
    for (size_t length = 0; length <= sizeof five_words; length++)
        check_a_beside("cut list", five_words, length, length < 8 ? 6100000 : 0);
    for (size_t first = 0; first <= 10; first += 2)
        check_a_beside("list cut in front", five_words + first, 10 - first, first <= 6 ? 0 : 6100000);
    /* from an odd byte on the words are others: 50197, 50453, 50709 and 50965 */
    for (size_t first = 1; first < 10; first += 2)
        check_a_beside("list from an odd byte", five_words + first, 10 - first, 6100000);
}

static void check_lists_that_fall(void) {
    static const struct {
        const char *name;
        uint8_t bytes[7];
        size_t length;
        uint32_t answer;
    } lists[] = {
        {"eng twice", {21, 199, 21, 199}, 4, 33000000},
        {"eng, then a byte", {21, 199, 21}, 3, 0},
        {"eng, then a byte 0", {21, 199, 0}, 3, 0},
        {"eng, then a lower word", {21, 199, 21, 198}, 4, 33000000},
        {"eng, then a lower high byte", {21, 199, 20, 200}, 4, 33000000},
        {"eng, then 65535", {21, 199, 255, 255}, 4, 0},
        {"eng, 65535 and 0", {21, 199, 255, 255, 0, 0}, 6, 33000000},
        {"0, eng, 65535 and a byte", {0, 0, 21, 199, 255, 255, 0}, 7, 0},
        {"0 twice", {0, 0, 0, 0, 21, 199}, 6, 33000000},
        {"32767, 32768", {127, 255, 128, 0}, 4, 6100000},
        {"32768, 32767", {128, 0, 127, 255}, 4, 33000000},
    };
    for (size_t i = 0; i < sizeof lists / sizeof *lists; i++)
        check_a_beside(lists[i].name, lists[i].bytes, lists[i].length, lists[i].answer);
}

/* All 65,536 words rise, with an odd byte too; one more doesn't, whatever it is. */
static void check_long_lists(void) {
    static uint8_t words[LANGS_ROOM];
    for (int word = 0; word < ROOM; word++)
        set_word(words, word, (uint16_t)word);
    check_a_beside("all words", words, 2 * ROOM, 0);
    check_a_beside("all words and a byte", words, 2 * ROOM + 1, 0);
    check_a_beside("all words but the last byte", words, 2 * ROOM - 1, 0);
    check_a_beside("all words and 0", words, 2 * ROOM + 2, 33000000);
    set_word(words, ROOM, 65535);
    check_a_beside("all words and 65535", words, 2 * ROOM + 2, 33000000);
    check_a_beside("all words, 65535 and a byte", words, 2 * ROOM + 3, 33000000);
    check_a_beside("all words, then zeros", words, LANGS_ROOM, 33000000);
}

/* The content's language is changed: xqx listed or not, codes of the range that needs no list, and words of no letters. */
static void check_languages(void) {
    static const struct {
        const char *name;
        uint16_t language;
        uint8_t bytes[4];
        size_t length;
        uint32_t answer;
    } lists[] = {
        {"xqx", 25144, {21, 199}, 2, 6200000},
        {"xqx listed", 25144, {21, 199, 98, 56}, 4, 0},
        {"qaa", 17441, {21, 199}, 2, 0},
        {"qtz", 18074, {21, 199}, 2, 0},
        {"qa and no letter, listed", 17440, {21, 199, 68, 32}, 4, 6200000},
        {"qt and no letter, listed", 18075, {21, 199, 70, 155}, 4, 6200000},
        {"qua", 18081, {21, 199}, 2, 6200000},
        {"qua listed", 18081, {21, 199, 70, 161}, 4, 0},
        {"pzz", 17242, {21, 199}, 2, 6200000},
        {"raa", 18465, {21, 199}, 2, 6200000},
        {"0 listed", 0, {0, 0, 21, 199}, 4, 6200000},
        {"eng above 15 bits, listed", ENG + 32768, {21, 199, 149, 199}, 4, 6200000},
    };
    for (size_t i = 0; i < sizeof lists / sizeof *lists; i++) {
        uint8_t sheet[LENGTH];
        write_sheet_a(sheet);
        set_word(sheet, LANGUAGE, lists[i].language);
        langs = lists[i].bytes;
        langs_len = lists[i].length;
        check(lists[i].name, sheet, LENGTH, lists[i].answer);
    }
}

static void check_at_once(const char *name, const uint8_t *sheet, size_t length, const uint8_t *list, size_t list_len, uint32_t answer) {
    uint32_t given = sheet_check(sheet, length, list, list_len);
    if (given != answer) {
        printf("%s: %u instead of %u\n", name, given, answer);
        wrong++;
    }
    calls++;
}

static void check_null(void) {
    static const uint8_t eng_twice[] = {21, 199, 21, 199};
    uint8_t sheet[LENGTH];
    write_sheet_a(sheet);
    check_at_once("NULL as sheet and list", NULL, 0, NULL, 0, 1000000);
    check_at_once("NULL as the sheet", NULL, 0, langs_a, sizeof langs_a, 1000000);
    check_at_once("NULL as the sheet beside eng twice", NULL, 0, eng_twice, sizeof eng_twice, 33000000);
    check_at_once("NULL as the list", sheet, LENGTH, NULL, 0, 6100000);
}

/* The sheet lends its own bytes: all of them, or its content's language. */
static void check_overlap(void) {
    uint8_t sheet[LENGTH];
    write_sheet_a(sheet);
    check_at_once("A beside itself", sheet, LENGTH, sheet, LENGTH, 33000000);
    check_at_once("A beside its own language", sheet, LENGTH, sheet + 2 * LANGUAGE, 2, 0);
}

int main(void) {
    room = new_room();
    langs_room = new_room_of(LANGS_ROOM);
    if (room == NULL || langs_room == NULL) {
        printf("no memory for the test\n");
        return 1;
    }
    langs = langs_a;
    langs_len = sizeof langs_a;
    check_cases();
    check_cuts();
    check_long();
    check_list_cuts();
    check_lists_that_fall();
    check_long_lists();
    check_languages();
    check_null();
    check_overlap();
    printf("C test of sheet_check: %d calls, %d wrong\n", calls, wrong);
    return wrong != 0;
}
