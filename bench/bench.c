/* How long the engine takes, in yardsticks: a yardstick is a plain copy loop, in this program, over as many words. So the figures mean the same on
 * every machine, and under an emulator. bench/run builds and runs this in the folder above. */
#define _POSIX_C_SOURCE 199309L
#include "corpus.h"
#include "galdwist.h"
#include <time.h>

enum { LINE = 91, LINES = 16384, LEAST = 3, MOST = 200 };
static const double ENOUGH = 0.25, SHORTEST = 200e-6;

/* ---- what is timed */

enum op { COPY, PACK, UNPACK, CHECK, RUN, COMPILE, MERGE };

/* A call: of a library, for RUN with a stream of n bytes, for MERGE with a second library; COPY takes n words. */
struct job {
    enum op op;
    const struct library *library;
    const void *with;
    size_t n;
};

static uint64_t space[WORDS], copied[LINES * LINE / 8 + 1], source[LINES * LINE / 8 + 1];
static uint8_t bytes[8 * WORDS], packed[8 * WORDS], file[LINES * LINE];
static uint64_t first, second;

/* The yardstick. It is compiled so that it stays a loop that moves a word in each turn. */
__attribute__((noinline)) static void copy(const uint64_t *from, uint64_t *to, size_t n) {
    for (size_t i = 0; i < n; i++)
        to[i] = from[i];
    __asm__ volatile("" ::: "memory");
}

/* Does the call once and answers its number. A word in memory is its eight bytes, lowest first: the program is for x86-64. */
static uint64_t call(const struct job *j) {
    const struct library *l = j->library;
    switch (j->op) {
    case COPY:
        copy(source, copied, j->n);
        return 0;
    case PACK:
        return galdwist_pack((const uint8_t *)l->words, 8 * l->n, bytes, sizeof bytes, &first);
    case UNPACK:
        return galdwist_unpack(packed, (15 * l->n + 1) / 2, bytes, 8 * l->n, &first);
    case CHECK:
        return galdwist_check(l->words, l->n, &first);
    case RUN:
        return galdwist_run(l->words, l->n, j->with, j->n, space, WORDS, &first);
    case COMPILE:
        return galdwist_compile(l->words, l->n, file, sizeof file, &first, &second);
    case MERGE: {
        const struct library *behind = j->with;
        return galdwist_merge(l->words, l->n, behind->words, behind->n, space, WORDS, &first, &second);
    }
    }
    return 99;
}

/* Processor time, so that other work on the machine counts little. */
static double now(void) {
    struct timespec t;
    clock_gettime(CLOCK_PROCESS_CPUTIME_ID, &t);
    return (double)t.tv_sec + (double)t.tv_nsec * 1e-9;
}

/* Seconds for one call: the best of several measures, each of so many calls that the clock can tell. */
static double best(const struct job *j) {
    if (j->op == UNPACK && galdwist_pack((const uint8_t *)j->library->words, 8 * j->library->n, packed, sizeof packed, &first) != 0)
        stop("no packed form", "");
    if (call(j) != 0)
        stop("a call was refused", "");
    double began = now(), least = 1e9;
    size_t calls = 1;
    for (int i = 0; i < MOST && (i < LEAST || now() - began < ENOUGH); i++) {
        double start = now();
        for (size_t k = 0; k < calls; k++)
            call(j);
        double took = (now() - start) / (double)calls;
        if (took * (double)calls < SHORTEST)
            calls = 1 + (size_t)(SHORTEST / (took + 1e-9));
        else if (took < least)
            least = took;
    }
    return least;
}

static double yardstick(size_t words) {
    struct job j = {COPY, NULL, NULL, words};
    return best(&j);
}

struct measure {
    double took, ratio;
};

/* A call's time, and how many yardsticks of so many words it is: the better of one measured before and one after. */
static struct measure measured(const struct job *j, size_t words) {
    double before = yardstick(words), took = best(j), after = yardstick(words);
    return (struct measure){took, took / (before < after ? before : after)};
}

/* ---- the corpus */

static struct stream create_1, create_2, sets, made;
static struct library fresh, quarter, half, full, corrected, other;

/* The place of the unit with an index from 0; the stream's end where there is none. */
static size_t unit_at(const struct stream *s, const char *name, size_t index) {
    for (size_t at = 0; at < s->n; at++)
        if ((at == 0 || s->bytes[at - 1] == 10) && strncmp((const char *)s->bytes + at, name, strlen(name)) == 0 && index-- == 0)
            return at;
    return s->n;
}

static void run(const struct library *old, const struct stream *s, size_t n, struct library *new) {
    uint64_t value = 0;
    if (galdwist_run(old->words, old->n, s->bytes, n, new->words, WORDS, &value) != 0)
        stop("a run was refused", "");
    new->n = value;
}

static void load_corpus(void) {
    load("tests/corpus/create-1.upd", &create_1);
    load("tests/corpus/create-2.upd", &create_2);
    load("tests/corpus/sets.upd", &sets);
    fresh_library(&fresh);
    run(&fresh, &create_1, unit_at(&create_1, "*DECK ", DECKS / 2), &quarter);
    run(&fresh, &create_1, create_1.n, &half);
    run(&half, &create_2, create_2.n, &full);
    run(&full, &sets, sets.n, &corrected);
}

/* ---- the tables */

/* A row: the time in yardsticks of so many words, beside the bar where there is one. */
static void print_row(const char *name, struct measure m, size_t words, double bar) {
    printf("%-52s %7zu %11.1f %11.1f", name, words, m.took * 1e6, m.ratio);
    if (bar > 0)
        printf(" %9.0f  %s", bar, m.ratio <= bar ? "within" : "OVER");
    printf("\n");
    fflush(stdout);
}

static struct measure row(const char *name, struct job j, size_t words, double bar) {
    struct measure m = measured(&j, words);
    print_row(name, m, words, bar);
    return m;
}

static void head(const char *title) {
    printf("\n%-52s %7s %11s %11s %9s\n", title, "words", "us", "yardsticks", "bar");
}

/* One op on the corpus at three sizes: the yardsticks of each, and how much more a word of the whole costs than one of a quarter. */
static void growth_row(const char *name, const struct job jobs[3]) {
    double ratio[3];
    for (int i = 0; i < 3; i++)
        ratio[i] = measured(&jobs[i], jobs[i].library->n).ratio;
    printf("%-52s %11.1f %11.1f %11.1f %9.2f\n", name, ratio[0], ratio[1], ratio[2], ratio[2] / ratio[0]);
    fflush(stdout);
}

/* A set that every size of the corpus has the cards for. */
static const char small_set[] = "*IDENT SMALL\n*DELETE M003.10\n A=1\n*DELETE M010.40,M010.44\n*INSERT M020.7\n B=1\n B=2\n B=3\n*BEFORE M024.9\n C=1\n";

static void growth(void) {
    static const char *names[] = {"copy", "pack", "unpack", "check", "run, a set of 10 lines", "compile"};
    const struct library *sizes[3] = {&quarter, &half, &full};
    printf("%-52s %11s %11s %11s %9s\n", "yardsticks on the corpus without its sets", "a quarter", "half", "full", "growth");
    printf("%-52s %11zu %11zu %11zu %9.2f\n", "words", quarter.n, half.n, full.n, (double)full.n / (double)quarter.n);
    for (enum op op = PACK; op <= COMPILE; op++) {
        struct job jobs[3];
        for (int i = 0; i < 3; i++)
            jobs[i] = (struct job){op, sizes[i], small_set, sizeof small_set - 1};
        growth_row(names[op], jobs);
    }
}

static void corpus(void) {
    size_t n = corrected.n, last = unit_at(&sets, "*IDENT ", 199);
    head("the corpus with its sets");
    row("pack", (struct job){PACK, &corrected, NULL, 0}, n, 8);
    row("unpack", (struct job){UNPACK, &corrected, NULL, 0}, n, 8);
    row("check", (struct job){CHECK, &corrected, NULL, 0}, n, 60);
    row("run, create-2 on create-1", (struct job){RUN, &half, create_2.bytes, create_2.n}, full.n, 0);
    row("run, 200 sets in one stream", (struct job){RUN, &full, sets.bytes, sets.n}, n, 1500);
    run(&full, &sets, last, &other);
    row("run, the last set alone", (struct job){RUN, &other, sets.bytes + last, sets.n - last}, n, 0);
    struct job file_of_base = {COMPILE, &full, NULL, 0}, file_of_all = {COMPILE, &corrected, NULL, 0};
    row("compile without the sets, 13,000 lines", file_of_base, full.n, 60 + 15 * yardstick(13000 * LINE / 8) / yardstick(full.n));
    row("compile, 15,000 lines", file_of_all, n, 60 + 15 * yardstick(15000 * LINE / 8) / yardstick(n));
}

/* The second pair, made one. The bar is two checks and ten yardsticks of the words written, by the yardstick that the merge is measured by. */
static void merge(void) {
    static struct making making;
    static struct library pair[2];
    static const char *const names[] = {"check of the first", "check of the second"};
    double checks = 0;
    head("two libraries with sets of their own");
    for (int i = 0; i < 2; i++) {
        make_streams(i, &making);
        run(&fresh, &making.creation, making.creation.n, &other);
        run(&other, &making.sets, making.sets.n, &pair[i]);
        checks += row(names[i], (struct job){CHECK, &pair[i], NULL, 0}, pair[i].n, 0).took;
    }
    size_t n = pair[0].n + pair[1].n - fresh.n;
    struct measure m = measured(&(struct job){MERGE, &pair[0], &pair[1], 0}, n);
    double of_checks = checks * m.ratio / m.took;
    print_row("merge", m, n, 10 + of_checks);
    printf("      without the two checks: %.1f us, %.1f yardsticks\n", (m.took - checks) * 1e6, m.ratio - of_checks);
}

/* The check at 1,000, 4,000 and 16,000 cards: nanoseconds a card, and how much more a card costs, or a word in yardsticks, in the largest. */
static void check_rows(const char *name, void (*make)(size_t, struct library *)) {
    static const size_t cards[] = {1000, 4000, 16000};
    char line[80];
    struct measure m[3];
    for (int i = 0; i < 3; i++) {
        make(cards[i], &other);
        snprintf(line, sizeof line, "%5zu cards, %s", cards[i], name);
        m[i] = row(line, (struct job){CHECK, &other, NULL, 0}, other.n, 0);
        m[i].took *= 1e9 / (double)cards[i];
    }
    printf("      a card: %.0f, %.0f and %.0f ns, growth %.2f; in yardsticks %.2f\n", m[0].took, m[1].took, m[2].took, m[2].took / m[0].took,
           m[2].ratio / m[0].ratio);
}

static void checks(void) {
    head("the check by the count of cards");
    check_rows("one deck in order", plain_library);
    check_rows("identifiers falling", falling_library);
    check_rows("identifiers 16,384 apart", striding_library);
    check_rows("sets that yank each other", yanking_library);
}

/* Adds a line to the stream being made. */
static void line(const char *text) {
    add(&made, text);
    add(&made, "\n");
}

static void run_row(const char *name) {
    static struct library new;
    run(&other, &made, made.n, &new);
    row(name, (struct job){RUN, &other, made.bytes, made.n}, new.n, 0);
}

static void runs(void) {
    char name[4], text[80];
    head("single runs");
    plain_library(100, &other);
    made.n = 0;
    line("*IDENT LONG");
    line("*INSERT P.50");
    for (int i = 0; i < 16000; i++)
        line("A LINE INSERTED");
    run_row("run, 16,000 lines under one INSERT");
    plain_library(16001, &other);
    made.n = 0;
    line("*IDENT WIDE");
    line("*DELETE P.2,P.16001");
    run_row("run, a DELETE over 16,000 cards");
    plain_library(8000, &other);
    made.n = 0;
    line("*IDENT AAA");
    line("*DELETE P.2,P.7000");
    for (unsigned i = 1; i <= 1000; i++) {
        set_name(i, name);
        snprintf(text, sizeof text, "*IDENT %s", name);
        line(text);
        set_name(i - 1, name);
        snprintf(text, sizeof text, "*YANK %s", name);
        line(text);
    }
    run_row("run, 1,000 sets that each YANK the one before");
}

int main(void) {
    memset(space, 0x5A, sizeof space);
    memset(copied, 0x5A, sizeof copied);
    memset(source, 0x5A, sizeof source);
    memset(bytes, 0x5A, sizeof bytes);
    memset(file, 0x5A, sizeof file);
    load_corpus();
    printf("A yardstick: %zu words copied in %.1f us, %.2f ns a word. Processor time, the best of several calls; every buffer was written once\n"
           "before the first, so that no page is new, and not cleared between them.\n\n",
           corrected.n, yardstick(corrected.n) * 1e6, yardstick(corrected.n) / (double)corrected.n * 1e9);
    growth();
    corpus();
    merge();
    checks();
    runs();
    return 0;
}
