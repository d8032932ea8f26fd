#include "images.h"
#include <stdio.h>
#include <stdlib.h>
#include <string.h>

#define HEADER UINT64_C(03100503130004003147)

enum { CODES = 10, STRIDE = 16384, CARDS_OF_A_SET = 16, NAMES_ON_A_CARD = 6, MOST_SETS = 1023 };

static unsigned code(char c) {
    static const char chart[] = ":ABCDEFGHIJKLMNOPQRSTUVWXYZ0123456789+-*/()$= ,.";
    return (unsigned)(strchr(chart, c) - chart);
}

static void put(struct library *l, uint64_t word) {
    if (l->n == WORDS) {
        fprintf(stderr, "images: a library over 65,536 words\n");
        exit(2);
    }
    l->words[l->n++] = word;
}

/* A line without colons and without two blanks together, in words of ten codes. */
static size_t put_text(struct library *l, const char *line) {
    size_t length = strlen(line), count = (length + CODES - 1) / CODES;
    for (size_t i = 0; i < count; i++) {
        uint64_t word = 0;
        for (size_t j = i * CODES; j < (i + 1) * CODES; j++)
            word = word << 6 | (j < length ? code(line[j]) : 0);
        put(l, word);
    }
    return count;
}

/* A card with one byte; it is active where its owner is not yanked. */
static void put_card(struct library *l, unsigned owner, size_t number, int yanked, const char *line) {
    size_t head = l->n;
    put(l, 0);
    uint64_t count = put_text(l, line);
    l->words[head] = UINT64_C(1) << 59 | (uint64_t)!yanked << 58 | count << 36 | (uint64_t)number << 18 | (uint64_t)yanked << 17 |
                     UINT64_C(1) << 16 | owner;
}

void set_name(unsigned number, char name[4]) {
    name[0] = (char)('A' + number / 676 % 26);
    name[1] = (char)('A' + number / 26 % 26);
    name[2] = (char)('A' + number % 26);
    name[3] = 0;
}

/* Header and tables: deck P where it is wanted, the first name, and then so many sets. */
static void put_tables(struct library *l, int deck, unsigned sets) {
    char name[4];
    l->n = 0;
    put(l, HEADER);
    put(l, (uint64_t)(sets + (unsigned)deck) << 18 | (uint64_t)(1 + deck));
    if (deck)
        put_text(l, "P");
    for (unsigned i = 0; i < sets; i++) {
        set_name(i, name);
        put_text(l, name);
    }
    put_text(l, "YANK$$$");
    if (deck)
        put_text(l, "P");
}

void fresh_library(struct library *l) {
    put_tables(l, 0, 0);
}

void plain_library(size_t cards, struct library *l) {
    put_tables(l, 1, 0);
    put_card(l, 1, 1, 0, "*DECK P");
    for (size_t i = 2; i <= cards; i++)
        put_card(l, 1, i, 0, "LINE OF A PLAIN DECK");
}

void falling_library(size_t cards, struct library *l) {
    put_tables(l, 1, 0);
    put_card(l, 1, 1, 0, "*DECK P");
    for (size_t i = cards; i >= 2; i--)
        put_card(l, 1, i, 0, "LINE OF A PLAIN DECK");
}

void striding_library(size_t cards, struct library *l) {
    unsigned sets = (unsigned)((cards + CARDS_OF_A_SET - 1) / CARDS_OF_A_SET);
    put_tables(l, 1, sets);
    put_card(l, 1, 1, 0, "*DECK P");
    for (size_t i = 0; i + 1 < cards; i++)
        put_card(l, 2 + (unsigned)(i % sets), 1 + STRIDE * (CARDS_OF_A_SET - 1 - i / sets), 0, "LINE OF A PLAIN DECK");
}

/* The owner of a card of YANK$$$, counted from set 0, which has none; and the sets that it names: lower ones, spread over all of them. */
static unsigned yanker(size_t card, unsigned sets) {
    return 1 + (unsigned)(card % (sets - 1));
}

static unsigned named(size_t card, unsigned sets, unsigned i) {
    return (unsigned)((card * 131 + i * 37) % yanker(card, sets));
}

/* Which sets are yanked, from the highest down: a set that is not yanks all that its cards name. */
static void settle(size_t cards, unsigned sets, char *yanked) {
    for (unsigned set = sets; set-- > 1;)
        for (size_t card = set - 1; card < cards && !yanked[set]; card += sets - 1)
            for (unsigned i = 0; i < NAMES_ON_A_CARD; i++)
                yanked[named(card, sets, i)] = 1;
}

void yanking_library(size_t cards, struct library *l) {
    unsigned sets = 1 + (unsigned)((cards + CARDS_OF_A_SET - 1) / CARDS_OF_A_SET);
    char yanked[MOST_SETS] = {0}, line[80], name[4];
    put_tables(l, 0, sets);
    settle(cards, sets, yanked);
    for (size_t card = 0; card < cards; card++) {
        strcpy(line, "*Y ");
        for (unsigned i = 0; i < NAMES_ON_A_CARD; i++) {
            set_name(named(card, sets, i), name);
            strcat(strcat(line, i > 0 ? "," : ""), name);
        }
        unsigned set = yanker(card, sets);
        put_card(l, set + 1, 1 + card / (sets - 1), yanked[set], line);
    }
}
