/* The corpus as streams, and what makes a second pair of libraries of its halves. For the benchmark, and for tests/c/promises.c, which is compiled alone. */
#ifndef CORPUS_H
#define CORPUS_H

#include "images.h"
#include <stdio.h>
#include <stdlib.h>
#include <string.h>

/* The longest stream; the decks of each half of the corpus, and the cards of each deck, its deck card with them. */
enum { STREAM = 262144, DECKS = 50, CARDS = 131 };

static void stop(const char *what, const char *which) {
    fprintf(stderr, "stopped: %s %s\n", what, which);
    exit(2);
}

/* ---- streams */

/* Compile files are read as streams too, and are longer. */
struct stream {
    uint8_t bytes[2 * STREAM];
    size_t n;
};

static void load(const char *path, struct stream *s) {
    FILE *in = fopen(path, "rb");
    if (in == NULL)
        stop("cannot read", path);
    s->n = fread(s->bytes, 1, sizeof s->bytes, in);
    fclose(in);
    if (s->n == sizeof s->bytes)
        stop("too long:", path);
}

static void add_bytes(struct stream *s, const void *bytes, size_t n) {
    if (n > sizeof s->bytes - s->n)
        stop("a stream is too long", "");
    memcpy(s->bytes + s->n, bytes, n);
    s->n += n;
}

static void add(struct stream *s, const char *text) {
    add_bytes(s, text, strlen(text));
}

/* The end of the line at a place, and the place of the next. */
static size_t line_end(const uint8_t *s, size_t n, size_t at) {
    while (at < n && s[at] != 10)
        at++;
    return at;
}

static size_t line_after(const uint8_t *s, size_t n, size_t at) {
    size_t end = line_end(s, n, at);
    return end < n ? end + 1 : n;
}

/* ---- the second pair */

/* Each library has so many sets. Of six the first four correct cards and the last two yank. */
enum { PAIR_SETS = 120, CYCLE = 6, CORRECTING = 4 };

/* A correcting set replaces cards, inserts lines and a CALL, and switches a range of one deck of the first ten off, or on again by turns: so the cards there
 * come to have many bytes. What it replaces lies beyond that range: no set changes a card twice. */
enum { REPLACED = 5, INSERTED = 10, SWITCHED_DECKS = 10, SWITCHED_FROM = 20, SWITCHED_TO = 39 };

/* What makes a library of the pair: a half of the corpus with two common decks, and sets. The letter begins all names that the half has not; `card_at` says
 * where the half's cards stand. */
struct making {
    struct stream creation, sets;
    char letter;
    size_t card_at[DECKS * CARDS];
};

static void find_cards(struct making *m) {
    size_t at = 0;
    for (size_t i = 0; i < DECKS * CARDS; i++, at = line_after(m->creation.bytes, m->creation.n, at))
        m->card_at[i] = at;
}

/* The line of a card, its end with it. */
static void add_line(struct stream *s, const struct making *m, size_t deck, size_t card) {
    size_t at = m->card_at[deck * CARDS + card - 1];
    add_bytes(s, m->creation.bytes + at, line_after(m->creation.bytes, m->creation.n, at) - at);
}

/* The name of a card, the deck's as its deck card has it, with what goes ahead of it and behind. */
static void add_card(struct making *m, const char *ahead, size_t deck, size_t card, const char *behind) {
    char number[32];
    size_t at = m->card_at[deck * CARDS] + strlen("*DECK ");
    add(&m->sets, ahead);
    add_bytes(&m->sets, m->creation.bytes + at, line_end(m->creation.bytes, m->creation.n, at) - at);
    snprintf(number, sizeof number, ".%zu%s", card, behind);
    add(&m->sets, number);
}

static void add_set(struct making *m, const char *ahead, size_t set, const char *behind) {
    char name[32];
    snprintf(name, sizeof name, "%s%c%03zu%s", ahead, m->letter, set, behind);
    add(&m->sets, name);
}

/* A line of a directive on one of the two common decks. */
static void add_common(struct stream *s, const struct making *m, const char *directive, const char *name) {
    char line[32];
    snprintf(line, sizeof line, "%s %c%s\n", directive, m->letter, name);
    add(s, line);
}

static void add_common_decks(struct making *m) {
    add_common(&m->creation, m, "*COMDECK", "OUTER");
    add_line(&m->creation, m, 0, 2);
    add_common(&m->creation, m, "*CALL", "INNER");
    add_common(&m->creation, m, "*COMDECK", "INNER");
    add_line(&m->creation, m, 1, 2);
    add_line(&m->creation, m, 1, 3);
}

/* Where the i-th correction of a set goes. */
static size_t deck_of(size_t set, size_t i) {
    return (7 * set + 11 * i) % DECKS;
}

static size_t card_of(size_t set, size_t i) {
    return SWITCHED_TO + 1 + (13 * set + 29 * i) % (CARDS - SWITCHED_TO);
}

static void add_corrections(struct making *m, size_t set) {
    size_t i = 0, turn = set / CYCLE * CORRECTING + set % CYCLE, switched = turn % SWITCHED_DECKS;
    for (; i < REPLACED; i++) {
        add_card(m, "*DELETE ", deck_of(set, i), card_of(set, i), "\n");
        add_line(&m->sets, m, deck_of(set, i + 1), card_of(set, i + 1));
    }
    add_card(m, "*INSERT ", deck_of(set, i), card_of(set, i), "\n");
    for (size_t k = 0; k < INSERTED; k++)
        add_line(&m->sets, m, deck_of(set, i), SWITCHED_FROM + k);
    i++;
    add_card(m, "*BEFORE ", deck_of(set, i), card_of(set, i), "\n");
    add_common(&m->sets, m, "*CALL", "OUTER");
    add_card(m, turn / SWITCHED_DECKS % 2 == 0 ? "*DELETE " : "*RESTORE ", switched, SWITCHED_FROM, "");
    add_card(m, ",", switched, SWITCHED_TO, "\n");
}

/* The first yanking set of six names correcting ones, of its own six and of six before. The second names by turns a correcting set, the yank of the six
 * before, the yank of that yank, and again the yank of the six before: so there are yanks in force, yanked ones, and yanked ones brought back. */
static void add_yanks(struct making *m, size_t set) {
    static const size_t back[] = {2, 7, 6, 7};
    if (set % CYCLE > CORRECTING) {
        add_set(m, "*YANK ", set - back[set / CYCLE % 4], "\n");
        return;
    }
    add_set(m, "*YANK ", set - 3, "\n");
    if (set > 14)
        add_set(m, "*YANK ", set - 14, "\n");
}

/* The streams of the first library, 0, or of the second, 1, of the pair. */
static void make_streams(int which, struct making *m) {
    static const char *const paths[] = {"tests/corpus/create-1.upd", "tests/corpus/create-2.upd"};
    m->letter = "AB"[which];
    load(paths[which], &m->creation);
    find_cards(m);
    add_common_decks(m);
    m->sets.n = 0;
    for (size_t set = 0; set < PAIR_SETS; set++) {
        add_set(m, "*IDENT ", set, "\n");
        if (set % CYCLE < CORRECTING)
            add_corrections(m, set);
        else
            add_yanks(m, set);
    }
}

#endif
