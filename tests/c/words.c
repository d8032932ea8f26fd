/* Packing and unpacking through the C face: good, odd, spoiled and too short input. The last line counts. */
#include "expect.h"
#include "galdwist.h"
#include <string.h>

/* words as eight bytes each, lowest first */
static size_t put_words(const uint64_t *words, size_t n, uint8_t *out) {
    for (size_t i = 0; i < n; i++)
        for (int j = 0; j < 8; j++)
            out[8 * i + j] = (uint8_t)(words[i] >> (8 * j));
    return 8 * n;
}

static int untouched(const uint8_t *space, size_t from, size_t to) {
    for (size_t i = from; i < to; i++)
        if (space[i] != 0x5A)
            return 0;
    return 1;
}

enum { SPACE = 256 };
static uint8_t space[SPACE], source[SPACE], back[SPACE];
static uint64_t written;

static uint64_t pack(const uint8_t *words, size_t n, size_t room) {
    memset(space, 0x5A, SPACE);
    written = 99;
    return galdwist_pack(words, n, space, room, &written);
}

static uint64_t unpack(const uint8_t *bytes, size_t n, size_t room) {
    memset(space, 0x5A, SPACE);
    written = 99;
    return galdwist_unpack(bytes, n, space, room, &written);
}

static void refused(uint64_t got, uint64_t number, const char *what) {
    expect(got == number && written == 0 && untouched(space, 0, SPACE), what);
}

/* Words there and back, for every count up to 30: the length is 15 halves, rounded up, and nothing beyond it is written. */
static void round_trips(void) {
    uint64_t words[30], x = 1;
    for (size_t n = 0; n <= 30; n++) {
        for (size_t i = 0; i < n; i++) {
            x = x * 6364136223846793005u + 1442695040888963407u;
            words[i] = x >> 4;
        }
        size_t length = put_words(words, n, source), bytes = (15 * n + 1) / 2;
        uint64_t number = pack(source, length, SPACE);
        expect(number == 0 && written == bytes && untouched(space, bytes, SPACE), "pack: any count of words");
        memcpy(back, space, bytes);
        number = unpack(back, bytes, 248);
        expect(number == 0 && written == length && memcmp(space, source, length) == 0 && untouched(space, length, SPACE),
               "unpack: the words come back, and nothing beyond them is written");
        number = pack(source, length, bytes);
        expect(number == 0 && written == bytes, "pack: room for exactly the bytes");
        if (bytes > 0)
            refused(pack(source, length, bytes - 1), 53, "pack: one byte too little room");
        number = unpack(back, bytes, length);
        expect(number == 0 && written == length, "unpack: room for exactly the words");
        if (length > 0)
            refused(unpack(back, bytes, length - 8), 53, "unpack: one word too little room");
    }
}

/* The fresh library (RULES, "Packing"): 3 words, 23 bytes, the highest bit of each word ahead. */
static void fresh_library(void) {
    static const uint64_t words[3] = {03100503130004003147, 1, 031011613535353000000};
    size_t length = put_words(words, 3, source);
    expect(pack(source, length, SPACE) == 0 && written == 23, "pack: 3 words make 23 bytes");
    /* the first word's top 56 bits, taken from the number itself */
    for (int i = 0; i < 7; i++)
        expect(space[i] == (uint8_t)(words[0] >> (52 - 8 * i)), "pack: most significant bit first");
    expect(space[7] == (uint8_t)(((words[0] & 15) << 4) | (words[1] >> 56)), "pack: two words share a byte");
    expect((space[22] & 15) == 0, "pack: the odd word's last 4 bits are zero");
}

static void spoiled(void) {
    static const uint64_t large[2] = {1, UINT64_C(1) << 60}, small[1] = {5};
    size_t length = put_words(large, 2, source);
    refused(pack(source, length, SPACE), 53, "pack: a word of 2^60");
    refused(pack(source, 15, SPACE), 50, "pack: a length that is no multiple of 8");
    refused(pack(source, 15, 0), 50, "pack: 50 comes ahead of 53");
    length = put_words(small, 1, source);
    expect(pack(source, length, SPACE) == 0 && written == 8, "pack: an odd last word makes 8 bytes");
    memcpy(back, space, 8);
    back[7] |= 1;
    refused(unpack(back, 8, 64), 51, "unpack: the last 4 bits");
    refused(unpack(back, 8, 0), 53, "unpack: 53 comes ahead of 51");
    refused(unpack(back, 8, 63), 50, "unpack: a space that is no multiple of 8");
    for (size_t n = 0; n < 60; n++)
        if (n % 15 != 0 && n % 15 != 8)
            refused(unpack(back, n, 248), 50, "unpack: a length that packed words never have");
}

static void nothing(void) {
    written = 99;
    expect(galdwist_pack(NULL, 0, NULL, 0, &written) == 0 && written == 0, "pack: nothing at all");
    written = 99;
    expect(galdwist_unpack(NULL, 0, NULL, 0, &written) == 0 && written == 0, "unpack: nothing at all");
}

int main(void) {
    round_trips();
    fresh_library();
    spoiled();
    nothing();
    return counted();
}
