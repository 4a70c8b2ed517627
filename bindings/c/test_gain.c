/*
 * Tests gain_of_factor from C: document 02's examples, each power of ten and some other entries of the table with the factors beside
 * them, every factor up to the largest, and factors that are refused.
 */
#include <stdio.h>

#include "sheet.h"

#define SILENCE (-32768)
#define REFUSED 34000000

enum { LEAST_TENTH = -600, MOST_TENTH = 210, LARGEST = 11220184 };

static int calls, wrong;

static void check(uint32_t factor, int32_t answer) {
    int32_t given = gain_of_factor(factor);
    if (given != answer) {
        printf("factor %u: %d instead of %d\n", factor, given, answer);
        wrong++;
    }
    calls++;
}

static void check_examples(void) {
    static const struct {
        uint32_t factor;
        int32_t answer;
    } examples[] = {
        {0, SILENCE}, {1, -600}, {2, -600}, {999, -600}, {1000, -600}, {1001, -599}, {1000000, 0}, {1000001, 1}, {LARGEST, 210},
    };
    for (size_t i = 0; i < sizeof examples / sizeof *examples; i++)
        check(examples[i].factor, examples[i].answer);
}

/* The largest factors that are not above so many tenths: 1,000,000 times 10 to the power tenths / 200, rounded down. */
static void check_boundaries(void) {
    static const struct {
        int32_t tenths;
        uint32_t entry;
    } boundaries[] = {
        {-600, 1000}, {-599, 1011}, {-400, 10000}, {-200, 100000}, {-140, 199526}, {-100, 316227}, {-60, 501187}, {-30, 707945},
        {-10, 891250}, {-1, 988553}, {0, 1000000}, {1, 1011579}, {10, 1122018}, {30, 1412537}, {60, 1995262}, {100, 3162277},
        {140, 5011872}, {200, 10000000}, {209, 11091748}, {210, LARGEST},
    };
    for (size_t i = 0; i < sizeof boundaries / sizeof *boundaries; i++) {
        int32_t tenths = boundaries[i].tenths;
        check(boundaries[i].entry - 1, tenths);
        check(boundaries[i].entry, tenths);
        check(boundaries[i].entry + 1, tenths == MOST_TENTH ? REFUSED : tenths + 1);
    }
}

/* From a factor to the next the answer stays or is the next tenth, so that every tenth is met, the last one at the largest factor. */
static void check_every_factor(void) {
    int32_t tenths = LEAST_TENTH;
    for (uint32_t factor = 1; factor <= LARGEST; factor++) {
        int32_t given = gain_of_factor(factor);
        if (given == tenths + 1 && factor > 1)
            tenths++;
        check(factor, tenths);
    }
    if (tenths != MOST_TENTH) {
        printf("the largest factor has %d tenths\n", tenths);
        wrong++;
    }
}

static void check_refused(void) {
    for (uint32_t above = 1; above <= 100000; above++)
        check(LARGEST + above, REFUSED);
    for (int bit = 24; bit < 32; bit++) {
        check((UINT32_C(1) << bit) - 1, REFUSED);
        check(UINT32_C(1) << bit, REFUSED);
        check((UINT32_C(1) << bit) + 1000, REFUSED);
    }
    check(UINT32_MAX - 1, REFUSED);
    check(UINT32_MAX, REFUSED);
}

int main(void) {
    check_examples();
    check_boundaries();
    check_every_factor();
    check_refused();
    printf("C test of gain_of_factor: %d calls, %d wrong\n", calls, wrong);
    return wrong != 0;
}
