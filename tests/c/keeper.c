/* The keeper's functions through the C face: the fresh library, the directory and a card of the shown library, both sides of each space. The last line counts. */
#include "expect.h"
#include "galdwist.h"
#include "shown.h"
#include <string.h>

static const uint64_t shown[] = SHOWN;

/* a card's name, in a space of `room` bytes */
static void card(uint64_t owner, uint64_t seq, size_t room, uint64_t number, const char *text, const char *what) {
    uint8_t out[64];
    uint64_t value = 99;
    size_t n = strlen(text);
    memset(out, '?', sizeof out);
    int right = galdwist_card(shown, 15, owner, seq, out, room, &value) == number && value == n && memcmp(out, text, n) == 0;
    for (size_t i = n; i < sizeof out; i++)
        right = right && out[i] == '?';
    expect(right, what);
}

int main(void) {
    uint64_t space[4] = {7, 7, 7, 7}, value = 99;
    uint8_t rows[23];
    expect(galdwist_fresh(space, 2, &value) == 32 && value == 0 && space[0] == 7, "no room for the fresh library");
    expect(galdwist_fresh(space, 4, &value) == 0 && value == 3 && space[0] == HEADER && space[1] == 1 && space[2] == YANKS && space[3] == 7, "the fresh library");
    expect(galdwist_directory(space, 3, rows, 0, &value) == 0 && value == 0, "its directory");
    memset(rows, '?', sizeof rows);
    expect(galdwist_directory(shown, 15, rows, 21, &value) == 53 && value == 0 && rows[0] == '?', "no room for the directory");
    expect(galdwist_directory(shown, 14, rows, 23, &value) == 5 && value == 13 && rows[0] == '?', "no library");
    expect(galdwist_directory(shown, 15, rows, 23, &value) == 0 && value == 2 && memcmp(rows, "PUMP     D ONE      S ?", 23) == 0, "the directory");
    card(1, 3, 6, 0, "PUMP.3", "a card");
    card(1, 3, 5, 53, "", "no room for a card");
    card(2, 262143, 64, 0, "ONE.262143", "six digits");
    card(2, UINT64_MAX, 64, 0, "ONE.18446744073709551615", "twenty digits");
    card(0, 0, 64, 0, ".0", "no owner");
    card(3, 3, 64, 0, ".3", "an owner past the directory");
    card(UINT64_MAX, 3, 64, 0, ".3", "the last number");
    expect(galdwist_card(shown, 2, 1, 3, rows, 23, &value) == 1 && value == 2 && rows[0] == 'P', "a card of no library");
    return counted();
}
