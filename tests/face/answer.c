/* Answers the cases on standard input through the C face, one line for each (tests/CASES.md), as the program `cases` does from within. Ops 1 to 5 and 9; its
 * spaces hold more than a whole library and all lines of one. */
#include "galdwist.h"
#include <inttypes.h>
#include <stdio.h>
#include <stdlib.h>
#include <string.h>

enum { HEAD = 13, WORDS = 66000, FILE_BYTES = 16384 * 91 };
enum { CHECK = 1, RUN = 2, COMPILE = 3, PACK = 4, UNPACK = 5, MERGE = 9 };
#define LENT UINT64_C(0x5A5A5A5A5A5A5A5A)

struct answer {
    uint64_t number, first, second, sum;
};

static uint8_t head[HEAD], first_blob[8 * WORDS], second_blob[8 * WORDS], file[FILE_BYTES];
static uint64_t words[WORDS], second_words[WORDS], library[WORDS];

static uint32_t little(const uint8_t *b) {
    return (uint32_t)b[0] | (uint32_t)b[1] << 8 | (uint32_t)b[2] << 16 | (uint32_t)b[3] << 24;
}

static uint64_t mixed(uint64_t sum, uint64_t x) {
    return (sum * 65599 + x) % 4294967291;
}

static uint64_t sum_of_bytes(size_t room) {
    uint64_t sum = 0;
    for (size_t i = 0; i < room; i++)
        sum = mixed(sum, file[i]);
    return sum;
}

static uint64_t sum_of_words(size_t room) {
    uint64_t sum = 0;
    for (size_t i = 0; i < room; i++)
        sum = mixed(mixed(sum, library[i] & UINT32_MAX), library[i] >> 32);
    return sum;
}

static struct answer check(size_t n) {
    struct answer a = {0, 99, 0, 0};
    a.number = galdwist_check(words, n, &a.first);
    return a;
}

static void clear_library(size_t room) {
    for (size_t i = 0; i < room; i++)
        library[i] = LENT;
}

static struct answer run(size_t n, size_t k, size_t room) {
    struct answer a = {0, 99, 0, 0};
    clear_library(room);
    a.number = galdwist_run(words, n, second_blob, k, library, room, &a.first);
    a.sum = sum_of_words(room);
    return a;
}

static struct answer merge(size_t n, size_t k, size_t room) {
    struct answer a = {0, 99, 99, 0};
    clear_library(room);
    a.number = galdwist_merge(words, n, second_words, k, library, room, &a.first, &a.second);
    a.sum = sum_of_words(room);
    return a;
}

static struct answer compile(size_t n, size_t room) {
    struct answer a = {0, 99, 99, 0};
    memset(file, 0x5A, room);
    a.number = galdwist_compile(words, n, file, room, &a.first, &a.second);
    a.sum = sum_of_bytes(room);
    return a;
}

static struct answer packing(int op, size_t n, size_t room) {
    struct answer a = {0, 99, 0, 0};
    memset(file, 0x5A, room);
    a.number = (op == PACK ? galdwist_pack : galdwist_unpack)(first_blob, n, file, room, &a.first);
    a.sum = sum_of_bytes(room);
    return a;
}

/* The words of a blob, eight bytes each, and their count. */
static size_t to_words(const uint8_t *blob, size_t n, uint64_t *to) {
    for (size_t i = 0; i < n / 8; i++)
        to[i] = (uint64_t)little(blob + 8 * i) | (uint64_t)little(blob + 8 * i + 4) << 32;
    return n / 8;
}

static struct answer answer(int op, size_t room, size_t n, size_t k) {
    if (op == PACK || op == UNPACK)
        return packing(op, n, room);
    n = to_words(first_blob, n, words);
    if (op == CHECK)
        return check(n);
    if (op == MERGE)
        return merge(n, to_words(second_blob, k, second_words), room);
    return op == RUN ? run(n, k, room) : compile(n, room);
}

int main(void) {
    while (fread(head, 1, HEAD, stdin) == HEAD) {
        int op = head[0];
        size_t room = little(head + 1), n = little(head + 5), k = little(head + 9);
        if (n > sizeof first_blob || k > sizeof second_blob || room > (op == RUN || op == MERGE ? WORDS : FILE_BYTES) ||
            fread(first_blob, 1, n, stdin) != n || fread(second_blob, 1, k, stdin) != k) {
            fprintf(stderr, "answer: a case is cut short or too large\n");
            return 2;
        }
        if ((op < CHECK || op > UNPACK) && op != MERGE) {
            printf("cases: op %d not carried\n", op);
            continue;
        }
        struct answer a = answer(op, room, n, k);
        printf("%" PRIu64 " %" PRIu64 " %" PRIu64 " %" PRIu64 "\n", a.number, a.first, a.second, a.sum);
    }
    return 0;
}
