/* The library check through the C face: the fresh library, the shown library, and the smallest images of some rows. The last line counts. */
#include "expect.h"
#include "galdwist.h"
#include "shown.h"

/* the check's number and place */
static void answers(const uint64_t *image, size_t n, uint64_t number, uint64_t where, const char *what) {
    uint64_t place = 99;
    expect(galdwist_check(image, n, &place) == number && place == where, what);
}

int main(void) {
    static const uint64_t fresh[] = {HEADER, 1, YANKS}, other[] = {HEADER + 1, 1, YANKS}, no_deck[] = {HEADER, 0, YANKS};
    static const uint64_t named[] = {HEADER, 1, YANKS + 1}, large[] = {HEADER, 1, YANKS, UINT64_C(1) << 60};
    uint64_t shown[] = SHOWN;
    answers(fresh, 3, 0, 0, "the fresh library");
    answers(NULL, 0, 1, 0, "nothing");
    answers(fresh, 2, 1, 2, "two words");
    answers(large, 4, 1, 3, "a word of 2^60");
    answers(other, 3, 2, 0, "another header");
    answers(no_deck, 3, 3, 1, "no deck");
    answers(named, 3, 4, 2, "a name with its low six bits");
    answers(shown, 15, 0, 0, "the shown library");
    answers(shown, 14, 5, 13, "a card past the end");
    shown[8] += UINT64_C(1) << 58;
    answers(shown, 15, 9, 8, "a stored activity bit");
    shown[8] -= UINT64_C(1) << 58;
    shown[10] += 1;
    answers(shown, 15, 6, 8, "text after its end");
    shown[10] -= 1;
    shown[9] += UINT64_C(1) << 36;
    answers(shown, 15, 5, 8, "a number of another library's");
    return counted();
}
