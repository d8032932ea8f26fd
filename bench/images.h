/* A library in memory, and libraries for the benchmark, written in the words of the layout (RULES, "Libraries"). */
#ifndef IMAGES_H
#define IMAGES_H

#include <stddef.h>
#include <stdint.h>

enum { WORDS = 65536 };

struct library {
    uint64_t words[WORDS];
    size_t n;
};

/* Three letters for a number from 0, the names of sets here. */
void set_name(unsigned number, char name[4]);

void fresh_library(struct library *l);

/* One deck, P, with so many cards, its deck card among them. */
void plain_library(size_t cards, struct library *l);

/* The same cards, all but the deck card in falling order. */
void falling_library(size_t cards, struct library *l);

/* Deck P with cards of many sets, sixteen of each, whose numbers lie 16,384 apart, no two of a set together. */
void striding_library(size_t cards, struct library *l);

/* YANK$$$ alone: sixteen YANK cards of each of many sets, six lower sets named on each, so that nearly all sets are yanked, by many others. */
void yanking_library(size_t cards, struct library *l);

#endif
