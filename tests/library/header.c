/* What the header says by itself: its version is the archive's, every question has words of its own, and the last tick is
 * where it says. */
#include "nultiway.h"
#include <stdio.h>
#include <stdlib.h>
#include <string.h>

#define LENT(buffer) buffer, sizeof(buffer) / sizeof((buffer)[0])

static void expect(int holds, const char *what) {
    if (!holds) {
        printf("header: not so: %s\n", what);
        exit(1);
    }
}

static int says(uint64_t number, const char *text) { return strcmp(nultiway_question_text(number), text) == 0; }

int main(void) {
    static uint64_t keys[NULTIWAY_KEYS_SIZE(1)], hot[NULTIWAY_HOT_SIZE(1)], shadows[NULTIWAY_SHADOWS_SIZE(1)];
    uint64_t limiter[NULTIWAY_LIMITER_WORDS];
    const char *none = "there is no such question";
    expect(nultiway_version() == NULTIWAY_VERSION, "the archive has the header's version");
    for (uint64_t n = NULTIWAY_ANSWERED; n <= NULTIWAY_SHORT_OUTPUT; n++) {
        expect(!says(n, none), "every question has words");
        for (uint64_t m = 0; m < n; m++) expect(!says(n, nultiway_question_text(m)), "no two questions have the same");
    }
    expect(says(NULTIWAY_ANSWERED, "the call is answered"), "the words of 0");
    expect(says(NULTIWAY_TABLE_FULL, "the key is not tracked and the table is full"), "the words of 8");
    expect(says(NULTIWAY_SHORT_OUTPUT, "the output does not fit"), "the words of 16");
    expect(says(NULTIWAY_SHORT_OUTPUT + 1, none) && says(UINT64_MAX, none), "other numbers have none");

    expect(nultiway_limiter_new(LENT(limiter), LENT(keys), LENT(hot), LENT(shadows), 1.0, 1, 1.0, 0.5, 0, 1, 1, 1, 1) == 0,
           "a limiter is made");
    expect(limiter[NULTIWAY_LAST_TICK] == 0, "a new limiter has no last tick");
    expect(nultiway_tick(LENT(limiter), LENT(keys), LENT(hot), LENT(shadows), 77, 1) == 0, "it ticks");
    expect(limiter[NULTIWAY_LAST_TICK] == 77, "the last tick's time stands in its words");
    printf("header: version, questions' words and the last tick's place are as they should be\n");
    return 0;
}
