/* The merge through the C face: small pairs and their words, each row of either library, common names, the limits and the space, and the compile file of
 * both. The last line counts. */
#include "expect.h"
#include "galdwist.h"
#include "shown.h"
#include <string.h>

struct image {
    const uint64_t *words;
    size_t n;
};

#define IMAGE(array) ((struct image){array, sizeof array / sizeof array[0]})
#define LENT UINT64_C(0x5A5A5A5A5A5A5A5A)

/* ---- small libraries */

#define PURGED 020
#define TWO 024271700000000000000
#define VALVE 026011426050000000000
#define HULL 010251414000000000000
#define SETS 023052400000000000000, 002010313000000000000, 001070111160000000000
#define RIG 022110700000000000000
#define M1_TO_M5 015340000000000000000, 015350000000000000000, 015360000000000000000, 015370000000000000000, 015400000000000000000

/* The cards of three libraries, first those of YANK$$$ and then those of the decks, behind k entries of another: k is in every history byte, at its place
 * in the word, and nowhere else.
 *   PUMP: the shown library, and the set TWO that yanks ONE
 *   HULL: `*COMDECK VALVE`, ` C=4`, `*DECK HULL`, ` D=5`, `*CALL VALVE`, `*IDENT SET`, `*DELETE HULL.2`, ` D=6`, `*IDENT BACK`, `*YANK SET`,
 *         `*IDENT AGAIN`, `*YANK BACK`
 *   RIG:  `*DECK RIG`, ` E=7`, then M1 to M4, which delete and restore RIG.2 by turns, and M5, `*YANK M3` */
#define PUMP_YANKS(k) 060000001000001200003 + k, 047310116135517160500
#define PUMP_CARDS(k)                                                                                                     \
    060000001000001200001 + k, 047040503135520251520,                                                                     \
    020000001000002200001 + k, 040400002000000000000 + k * 01000000000000, 055015434000000000000,                        \
    040000001000001600002 + k, 055015436000000000000, 060000001000003200001 + k, 055025435000000000000
#define HULL_YANKS(k) 040000001000001600004 + k, 047310116135523052400, 060000001000001200005 + k, 047310116135502010313
#define HULL_CARDS(k)                                                                                                     \
    060000002000001200001 + k, 047031715040503135526, 001142605000000000000,                                             \
    060000001000002200001 + k, 055035437000000000000, 060000001000001200002 + k, 047040503135510251414,                  \
    000000001000002200002 + k, 040000003000000000000 + k * 01000000000000, 055045440000000000000,                        \
    060000001000001200003 + k, 055045441000000000000, 060000002000003200002 + k, 047030114145526011426, 005000000000000000000
#define RIG_YANKS(k) 060000001000001200006 + k, 047310116135515360000
#define RIG_CARDS(k)                                                                                                      \
    060000001000001200001 + k, 047040503135522110700,                                                                     \
    020000001000002200001 + k, 000000002200003400004 + k * 01000001000001, 040200005000000000000 + k * 01000000000000,   \
    055055442000000000000

static const uint64_t fresh[] = {HEADER, 1, YANKS};
static const uint64_t pump[] = {HEADER, 03000002, PUMP, ONE, TWO, YANKS, PUMP, PUMP_YANKS(0), PUMP_CARDS(0)};
static const uint64_t hull[] = {HEADER, 05000003, VALVE, HULL, SETS, YANKS, VALVE, HULL, HULL_YANKS(0), HULL_CARDS(0)};
static const uint64_t rig[] = {HEADER, 06000002, RIG, M1_TO_M5, YANKS, RIG, RIG_YANKS(0), RIG_CARDS(0)};

/* ---- the call */

static uint64_t space[GALDWIST_WORDS], before[2][GALDWIST_WORDS];

static int same(const uint64_t *a, const uint64_t *b, size_t n) {
    return n == 0 || memcmp(a, b, n * sizeof *a) == 0;
}

/* Merges in a space of so much room, and answers whether the number, the value and the library are these, the words are written and nothing beyond them, and
 * both images are as they were. */
static int answers(struct image first, struct image second, size_t room, const uint64_t wanted[3], struct image words) {
    const struct image given[2] = {first, second};
    uint64_t value = 99, which = 99;
    for (size_t i = 0; i < GALDWIST_WORDS; i++)
        space[i] = LENT;
    for (int side = 0; side < 2; side++)
        for (size_t i = 0; i < given[side].n; i++)
            before[side][i] = given[side].words[i];
    int right = galdwist_merge(first.words, first.n, second.words, second.n, space, room, &value, &which) == wanted[0];
    right = right && value == wanted[1] && which == wanted[2] && same(space, words.words, words.n);
    for (size_t i = words.n; i < GALDWIST_WORDS; i++)
        right = right && space[i] == LENT;
    return right && same(before[0], first.words, first.n) && same(before[1], second.words, second.n);
}

static void refused(struct image first, struct image second, size_t room, uint64_t number, uint64_t place, uint64_t which, const char *what) {
    const uint64_t wanted[] = {number, place, which};
    expect(answers(first, second, room, wanted, (struct image){NULL, 0}), what);
}

/* The words are a sound library, and are written in room for them exactly and in more; a word less, or none, is too little. */
static void merged(struct image first, struct image second, struct image words, const char *what) {
    const uint64_t wanted[] = {0, words.n, 0};
    const size_t rooms[] = {words.n, words.n + 1, GALDWIST_WORDS};
    uint64_t place = 99;
    expect(galdwist_check(words.words, words.n, &place) == 0, what);
    for (int i = 0; i < 3; i++)
        if (rooms[i] <= GALDWIST_WORDS)
            expect(answers(first, second, rooms[i], wanted, words), what);
    refused(first, second, words.n - 1, 32, 0, 0, what);
    refused(first, second, 0, 32, 0, 0, what);
}

/* ---- the words */

static void small_pairs(void) {
    static const uint64_t pump_hull[] = {HEADER, 010000004, PUMP, ONE, TWO, VALVE, HULL, SETS, YANKS, PUMP, VALVE, HULL,
                                         PUMP_YANKS(0), HULL_YANKS(3), PUMP_CARDS(0), HULL_CARDS(3)};
    static const uint64_t hull_pump[] = {HEADER, 010000004, VALVE, HULL, SETS, PUMP, ONE, TWO, YANKS, VALVE, HULL, PUMP,
                                         HULL_YANKS(0), PUMP_YANKS(5), HULL_CARDS(0), PUMP_CARDS(5)};
    static const uint64_t pump_rig[] = {HEADER, 011000003, PUMP, ONE, TWO, RIG, M1_TO_M5, YANKS, PUMP, RIG,
                                        PUMP_YANKS(0), RIG_YANKS(3), PUMP_CARDS(0), RIG_CARDS(3)};
    merged(IMAGE(pump), IMAGE(hull), IMAGE(pump_hull), "a yank and a yanked yank");
    merged(IMAGE(hull), IMAGE(pump), IMAGE(hull_pump), "the other way round");
    merged(IMAGE(pump), IMAGE(rig), IMAGE(pump_rig), "a history of five bytes");
    refused(IMAGE(pump), (struct image){NULL, 0}, 0, 1, 0, 2, "no second library");
    refused((struct image){NULL, 0}, IMAGE(pump), 0, 1, 0, 1, "no first library");
    const struct image first = IMAGE(pump), second = IMAGE(hull);
    uint64_t value = 99, which = 99;
    expect(galdwist_merge(first.words, first.n, second.words, second.n, NULL, 0, &value, &which) == 32 && value == 0 && which == 0, "no space at all");
}

static void fresh_beside(void) {
    static const uint64_t again[] = {HEADER, 1, YANKS};
    merged(IMAGE(fresh), IMAGE(pump), IMAGE(pump), "the fresh library first");
    merged(IMAGE(pump), IMAGE(fresh), IMAGE(pump), "the fresh library second");
    merged(IMAGE(fresh), IMAGE(again), IMAGE(fresh), "the fresh library twice");
}

/* Entries are counted with the purged ones, and these stay in place. */
static void purged_entries(void) {
    static const uint64_t first[] = {HEADER, 02000001, PURGED, RIG, YANKS};
    static const uint64_t second[] = {HEADER, 03000001, PURGED, PURGED, HULL, YANKS};
    static const uint64_t both[] = {HEADER, 05000001, PURGED, RIG, PURGED, PURGED, HULL, YANKS};
    static const uint64_t first_pump[] = {HEADER, 05000002, PURGED, RIG, PUMP, ONE, TWO, YANKS, PUMP, PUMP_YANKS(2), PUMP_CARDS(2)};
    static const uint64_t pump_second[] = {HEADER, 06000002, PUMP, ONE, TWO, PURGED, PURGED, HULL, YANKS, PUMP, PUMP_YANKS(0), PUMP_CARDS(0)};
    merged(IMAGE(first), IMAGE(second), IMAGE(both), "purged entries in both are no common name");
    merged(IMAGE(first), IMAGE(pump), IMAGE(first_pump), "purged entries in the first");
    merged(IMAGE(pump), IMAGE(second), IMAGE(pump_second), "purged entries in the second");
}

/* ---- refusals */

/* Each row of the check, from `pump`: its first n words, one of them another; where two rows are wrong the lower is told. */
static const struct {
    uint64_t number, place;
    size_t n, at;
    uint64_t word;
    const char *what;
} spoiled[] = {
    {1, 0, 0, 0, HEADER, "no words"},
    {1, 2, 2, 0, HEADER, "two words"},
    {1, 17, 18, 17, UINT64_C(1) << 60, "a word of 2^60"},
    {2, 0, 18, 0, HEADER + 1, "another header"},
    {3, 1, 18, 1, 03000000, "no deck"},
    {4, 4, 18, 4, ONE, "a name twice"},
    {5, 16, 17, 0, HEADER, "a card past the end"},
    {5, 11, 18, 12, 040400004000000000000, "a number past the directory, which another library might have"},
    {6, 11, 18, 13, 055015434000000000001, "text after its end"},
    {7, 9, 18, 10, 047040503135510251414, "a deck card of another deck"},
    {8, 7, 18, 8, 047310116135520251520, "a yank of a deck"},
    {8, 7, 18, 8, 047310116135523052400, "a yank of a set of another library"},
    {9, 11, 18, 11, 000000001000002200001, "a stored activity bit"},
    {10, 16, 18, 16, 060000001000002200001, "an identifier twice"},
};

enum { SPOILED = sizeof spoiled / sizeof spoiled[0], PUMP_WORDS = sizeof pump / sizeof pump[0] };

static struct image spoil(int i, uint64_t image[PUMP_WORDS]) {
    memcpy(image, pump, sizeof pump);
    image[spoiled[i].at] = spoiled[i].word;
    return (struct image){image, spoiled[i].n};
}

/* The first library's rows, whatever the second is; then the second's; both ahead of common names, and of the space. */
static void rows(void) {
    static uint64_t first[PUMP_WORDS], second[PUMP_WORDS];
    for (int i = 0; i < SPOILED; i++) {
        struct image image = spoil(i, first);
        for (size_t room = 0; room <= GALDWIST_WORDS; room += GALDWIST_WORDS) {
            refused(image, IMAGE(hull), room, spoiled[i].number, spoiled[i].place, 1, spoiled[i].what);
            refused(IMAGE(hull), image, room, spoiled[i].number, spoiled[i].place, 2, spoiled[i].what);
            refused(IMAGE(pump), image, room, spoiled[i].number, spoiled[i].place, 2, spoiled[i].what);
        }
        for (int k = 0; k < SPOILED; k++)
            refused(image, spoil(k, second), 0, spoiled[i].number, spoiled[i].place, 1, "the first's rows come ahead of the second's");
    }
}

/* The lowest word of the second directory whose name the first has, whatever it names there. */
static void common_names(void) {
    static const uint64_t some[] = {HEADER, 02000001, RIG, HULL, YANKS}, others[] = {HEADER, 03000001, VALVE, HULL, RIG, YANKS};
    static const uint64_t set[] = {HEADER, 02000001, HULL, PUMP, YANKS};
    static const uint64_t longer[] = {HEADER, 01000001, 017160534000000000000, YANKS};
    static const uint64_t pump_longer[] = {HEADER, 04000002, PUMP, ONE, TWO, 017160534000000000000, YANKS, PUMP, PUMP_YANKS(0), PUMP_CARDS(0)};
    static uint64_t again[PUMP_WORDS];
    memcpy(again, pump, sizeof pump);
    for (size_t room = 0; room <= GALDWIST_WORDS; room += GALDWIST_WORDS) {
        refused(IMAGE(some), IMAGE(others), room, 37, 3, 2, "two names, in another order");
        refused(IMAGE(pump), IMAGE(set), room, 37, 3, 2, "a set called as a deck of the first");
        refused(IMAGE(set), IMAGE(pump), room, 37, 2, 2, "a deck called as a set of the first");
        refused(IMAGE(pump), IMAGE(again), room, 37, 2, 2, "a library twice");
    }
    merged(IMAGE(pump), IMAGE(longer), IMAGE(pump_longer), "ONE and ONE1 are two names");
}

/* ---- limits */

static char stream[262144];
static size_t length;

static void put(const char *text, size_t times) {
    for (; times > 0; times--) {
        memcpy(stream + length, text, strlen(text));
        length += strlen(text);
    }
}

/* What the stream makes of a library, in one of three spaces. */
static struct image ran(struct image old, int which) {
    static uint64_t made[3][GALDWIST_WORDS];
    uint64_t value = 0;
    expect(galdwist_run(old.words, old.n, (const uint8_t *)stream, length, made[which], GALDWIST_WORDS, &value) == 0, "a stream is accepted");
    return (struct image){made[which], value};
}

/* A library of so many entries: a name or a purged entry, and then purged ones. */
static struct image entries(int which, size_t count, uint64_t name) {
    static uint64_t made[3][1026];
    made[which][0] = HEADER;
    made[which][1] = (uint64_t)count << 18 | 1;
    for (size_t i = 0; i < count; i++)
        made[which][2 + i] = i == 0 ? name : PURGED;
    made[which][2 + count] = YANKS;
    return (struct image){made[which], 3 + count};
}

static void too_many_entries(void) {
    merged(entries(0, 1000, PUMP), entries(1, 23, PURGED), entries(2, 1023, PUMP), "1,023 entries");
    merged(IMAGE(fresh), entries(1, 1023, PUMP), entries(2, 1023, PUMP), "1,023 entries in the second");
    for (size_t room = 0; room <= GALDWIST_WORDS; room += GALDWIST_WORDS) {
        refused(entries(0, 1000, PUMP), entries(1, 24, PURGED), room, 31, 0, 0, "1,024 entries");
        refused(entries(0, 1000, PUMP), entries(1, 24, PUMP), room, 37, 2, 2, "1,024 entries and a common name");
    }
}

/* Decks of one letter and a number, without lines. */
static void put_decks(char letter, int count) {
    char line[32];
    length = 0;
    for (int i = 0; i < count; i++) {
        snprintf(line, sizeof line, "*DECK %c%d\n", letter, i);
        put(line, 1);
    }
}

/* One deck with so many times a line, and then a line. */
static void put_deck(const char *deck, const char *line, size_t times, const char *last) {
    length = 0;
    put(deck, 1);
    put(line, times);
    put(last, 1);
}

/* The stream makes a library which, merged behind the first, is what the stream makes of the first. */
static void at_limit(struct image first, const char *what) {
    struct image second = ran(IMAGE(fresh), 1);
    merged(first, second, ran(first, 2), what);
}

static void past_limit(struct image first, const char *what) {
    struct image second = ran(IMAGE(fresh), 1);
    refused(first, second, GALDWIST_WORDS, 31, 0, 0, what);
    refused(first, second, 0, 31, 0, 0, what);
}

static void limits(void) {
    too_many_entries();
    put_decks('D', 127);
    struct image first = ran(IMAGE(fresh), 0);
    put_decks('E', 127);
    at_limit(first, "255 decks");
    put_decks('E', 128);
    past_limit(first, "256 decks");
    put_deck("*DECK P\n", "\n", 8190, "");
    first = ran(IMAGE(fresh), 0);
    put_deck("*DECK R\n", "\n", 8191, "");
    at_limit(first, "16,383 cards");
    put_deck("*DECK R\n", "\n", 8192, "");
    past_limit(first, "16,384 cards");
    /* a card of 80 colons has 17 words, one of 30 has 7, one of 31 has 8 */
    char colons[82] = {0}, some[33] = {0};
    memset(colons, ':', 80);
    colons[80] = '\n';
    memset(some, ':', 31);
    put_deck("*DECK P\n", colons, 1927, "");
    first = ran(IMAGE(fresh), 0);
    some[30] = '\n';
    put_deck("*DECK R\n", colons, 1927, some);
    at_limit(first, "65,536 words");
    some[30] = ':';
    put_deck("*DECK R\n", colons, 1927, some);
    past_limit(first, "65,537 words");
}

/* ---- the compile file */

static uint8_t file[3][4 * GALDWIST_LINE];

static struct image both(struct image first, struct image second) {
    uint64_t value = 99, which = 99;
    expect(galdwist_merge(first.words, first.n, second.words, second.n, space, GALDWIST_WORDS, &value, &which) == 0, "a pair to compile");
    return (struct image){space, value};
}

/* The compile answer in room for so many lines. */
static void compiles(struct image image, int which, size_t lines, uint64_t number, uint64_t first, uint64_t second, const char *what) {
    uint64_t got[2] = {99, 99};
    expect(galdwist_compile(image.words, image.n, file[which], lines * GALDWIST_LINE, &got[0], &got[1]) == number && got[0] == first && got[1] == second,
           what);
}

static void files(void) {
    compiles(IMAGE(pump), 0, 4, 0, 2, 0, "two lines of the first");
    compiles(IMAGE(hull), 1, 4, 0, 2, 1, "two lines of the second, and a call");
    compiles(both(IMAGE(pump), IMAGE(hull)), 2, 4, 0, 4, 1, "four lines of both, and a call");
    expect(memcmp(file[2], file[0], 2 * GALDWIST_LINE) == 0 && memcmp(file[2] + 2 * GALDWIST_LINE, file[1], 2 * GALDWIST_LINE) == 0,
           "the first's lines and then the second's");
    compiles(both(IMAGE(pump), IMAGE(hull)), 2, 3, 44, 4, 2, "44 at the fourth line, of the deck that was the second's first");
}

/* 4,096 calls are enough for both together. */
static void calls(void) {
    put_deck("*COMDECK C\n*DECK D\n", "*CALL C\n", 2048, "");
    struct image first = ran(IMAGE(fresh), 0);
    put_deck("*COMDECK E\n*DECK F\n", "*CALL E\n", 2048, "");
    compiles(both(first, ran(IMAGE(fresh), 1)), 2, 0, 0, 0, 4096, "4,096 calls");
    put_deck("*COMDECK E\n*DECK F\n", "*CALL E\n", 2049, "");
    struct image second = ran(IMAGE(fresh), 1);
    compiles(second, 2, 0, 0, 0, 2049, "2,049 calls");
    compiles(both(first, second), 2, 0, 43, 4, 2050, "4,097 calls");
}

/* Where the first does not compile by itself, the second may have the deck that it calls. */
static void call_of_the_other(void) {
    put_deck("*DECK P\n", "*CALL Q\n", 1, "");
    struct image first = ran(IMAGE(fresh), 0);
    put_deck("*COMDECK Q\n", "A LINE\n", 1, "");
    struct image second = ran(IMAGE(fresh), 1);
    compiles(first, 2, 4, 40, 1, 2, "a call of no deck");
    compiles(both(first, second), 2, 4, 0, 1, 1, "a call of a deck of the other");
}

int main(void) {
    small_pairs();
    fresh_beside();
    purged_entries();
    rows();
    common_names();
    limits();
    files();
    calls();
    call_of_the_other();
    return counted();
}
