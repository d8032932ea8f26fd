/* The C face in use: makes a library, corrects it, writes its compile file, takes the correction back and looks at the directory, all in
 * memory, on the shown example (RULES, "Shown example"). The last line counts. */
#include "expect.h"
#include "galdwist.h"
#include <string.h>

static uint64_t library[GALDWIST_WORDS], next[GALDWIST_WORDS];
static uint8_t file[100 * GALDWIST_LINE], rows[10 * GALDWIST_ROW];

/* A correction run over the library; a refusal leaves it as it was. */
static uint64_t run(size_t *words, const char *stream, uint64_t *value) {
    uint64_t number = galdwist_run(library, *words, (const uint8_t *)stream, strlen(stream), next, GALDWIST_WORDS, value);
    if (number == 0) {
        memcpy(library, next, *value * sizeof *next);
        *words = *value;
    }
    return number;
}

/* Whether the compile file is these lines: their text, owner and number, up to the blanks between. */
static int compiles_to(size_t words, const char *const *wanted, size_t lines) {
    uint64_t first, second;
    if (galdwist_compile(library, words, file, sizeof file, &first, &second) != 0 || first != lines || second != 0)
        return 0;
    fwrite(file, GALDWIST_LINE, lines, stdout);
    for (size_t i = 0; i < lines; i++)
        if (memcmp(file + i * GALDWIST_LINE, wanted[i], GALDWIST_LINE) != 0)
            return 0;
    return 1;
}

#define LINE(text, owner, number) text "                                                                    " " " owner number "\n"
#define PUMP "PUMP     "
#define ONE "ONE      "

int main(void) {
    static const char *const corrected[] = {LINE(" A=3", ONE, "       1"), LINE(" B=2", PUMP, "       3")};
    static const char *const before[] = {LINE(" A=1", PUMP, "       2"), LINE(" B=2", PUMP, "       3")};
    uint8_t card[GALDWIST_CARD];
    uint64_t value;
    size_t words;

    expect(galdwist_fresh(library, GALDWIST_WORDS, &value) == 0 && value == 3, "the fresh library");
    words = value;

    expect(run(&words, "*DECK PUMP\n A=1\n B=2\n*IDENT ONE\n*DELETE PUMP.2\n A=3\n", &value) == 0 && words == 15, "a deck and a set");
    expect(galdwist_check(library, words, &value) == 0, "the new library is sound");
    expect(compiles_to(words, corrected, 2), "the compile file");

    expect(run(&words, "*IDENT TWO\n*DELETE PUMP.9\n", &value) == 28 && value == 2 && words == 15, "a refusal: number 28 at line 2");

    expect(run(&words, "*IDENT TWO\n*YANK ONE\n", &value) == 0 && words == 18, "the set is taken back");
    expect(compiles_to(words, before, 2), "the compile file is the one from before");

    expect(galdwist_directory(library, words, rows, sizeof rows, &value) == 0 && value == 3, "the directory");
    expect(memcmp(rows, "PUMP     D ONE      SYTWO      S ", 3 * GALDWIST_ROW) == 0, "a deck, a yanked set, a set");
    expect(galdwist_card(library, words, 1, 3, card, sizeof card, &value) == 0 && value == 6 && memcmp(card, "PUMP.3", 6) == 0, "a card's name");

    return counted();
}
