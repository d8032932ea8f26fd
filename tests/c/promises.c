/* What the customer was promised of the run, the compile file and the merge, on the running engine. The last line counts.
 *   promises          on tests/corpus: what its streams make, whole, set by set and cut ahead of every unit, and its sets taken back; its halves merged, and
 *                     the same halves with sets of their own (bench/corpus.h), each set of either taken back in the merged library
 *   promises CASES    on a file of cases (tests/CASES.md). Its runs: each cut ahead of units by chance, and the sets among them taken back. Its merges: what
 *                     the merged library shows, and a set of either taken back in it */
#include "../../bench/corpus.h"
#include "galdwist.h"

enum { LINE = GALDWIST_LINE, ROW = GALDWIST_ROW, COLUMNS = 72, LINES = 16384, NAME = 9, SETS = 1023, CORPUS_SETS = 200 };
#define LENT UINT64_C(0x5A5A5A5A5A5A5A5A)

static int passed, failed;

static int expect(int ok, const char *what, long which) {
    if (ok) {
        passed++;
    } else {
        failed++;
        printf("FAILED: %s (%ld)\n", what, which);
    }
    return ok;
}

/* A number below `end`, the same ones in every run of the program (splitmix64). */
static uint64_t below(uint64_t end) {
    static uint64_t state = 1;
    state += UINT64_C(0x9E3779B97F4A7C15);
    uint64_t x = state;
    x = (x ^ (x >> 30)) * UINT64_C(0xBF58476D1CE4E5B9);
    x = (x ^ (x >> 27)) * UINT64_C(0x94D049BB133111EB);
    return (x ^ (x >> 31)) % end;
}

/* ---- calls of the engine */

static const struct library fresh = {{03100503130004003147, 1, 031011613535353000000}, 3};

/* What a run or a merge answers: its number and value, and the new library where it is done. */
struct run {
    uint64_t number, value;
    struct library new;
};

static uint64_t space[WORDS];

static void clear_space(size_t n) {
    for (size_t i = 0; i < n; i++)
        space[i] = LENT;
}

/* Takes the new library out of the space. Each byte there was 5A before the call; what is not written must be so still. */
static void take_out(struct run *r) {
    size_t n = r->number == 0 && r->value <= WORDS ? (size_t)r->value : 0, touched = 0;
    for (size_t i = n; i < WORDS; i++)
        touched += space[i] != LENT;
    if (touched > 0)
        expect(0, "a call writes its words and nothing beyond, a refusal nothing", (long)touched);
    memcpy(r->new.words, space, n * sizeof space[0]);
    r->new.n = n;
    clear_space(touched > 0 ? WORDS : n);
}

/* Runs a stream with room for 65,536 words. */
static void run(const struct library *old, const uint8_t *stream, size_t k, struct run *r) {
    r->value = 99;
    r->number = galdwist_run(old->words, old->n, stream, k, space, WORDS, &r->value);
    take_out(r);
}

/* Merges two libraries with as much room. */
static void merge(const struct library *first, const struct library *second, struct run *r) {
    uint64_t which = 99;
    r->value = 99;
    r->number = galdwist_merge(first->words, first->n, second->words, second->n, space, WORDS, &r->value, &which);
    if (r->number == 0 && which != 0)
        expect(0, "a merge that is done names no library", (long)which);
    take_out(r);
}

/* Copies the words that are there, and not the room for more. */
static void copy(const struct library *from, struct library *to) {
    memcpy(to->words, from->words, from->n * sizeof from->words[0]);
    to->n = from->n;
}

static int same_library(const struct library *a, const struct library *b) {
    return a->n == b->n && memcmp(a->words, b->words, a->n * sizeof a->words[0]) == 0;
}

static int same_run(const struct run *a, const struct run *b) {
    return a->number == b->number && a->value == b->value && same_library(&a->new, &b->new);
}

static void sound(const struct library *library, const char *what) {
    uint64_t place = 99;
    expect(galdwist_check(library->words, library->n, &place) == 0 && place == 0, what, (long)library->n);
}

/* The full compile answer: the number, the two values, and the whole space after it. */
struct file {
    uint64_t number, first, second;
    size_t room;
    uint8_t bytes[LINES * LINE];
};

static void compile(const struct library *library, size_t room, struct file *f) {
    memset(f->bytes, 0x5A, room);
    f->room = room;
    f->first = f->second = 99;
    f->number = galdwist_compile(library->words, library->n, f->bytes, room, &f->first, &f->second);
    size_t from = f->number == 0 ? (size_t)f->first * LINE : 0, touched = 0;
    for (size_t i = from; i < room; i++)
        touched += f->bytes[i] != 0x5A;
    if (touched > 0)
        expect(0, "a compile writes its lines and nothing beyond, a refusal nothing", (long)touched);
}

static int same_file(const struct file *a, const struct file *b) {
    return a->number == b->number && a->first == b->first && a->second == b->second && a->room == b->room &&
           memcmp(a->bytes, b->bytes, a->room) == 0;
}

/* ---- streams */

/* The unit that a line starts, well formed or not: its name ends at a comma, a blank or the line's end. */
enum unit { NONE, DECK, SET };

static enum unit unit_at(const uint8_t *s, size_t n, size_t at) {
    static const struct {
        const char *name;
        enum unit unit;
    } names[] = {{"DECK", DECK}, {"DK", DECK}, {"COMDECK", DECK}, {"CD", DECK}, {"IDENT", SET}, {"ID", SET}};
    size_t end = line_end(s, n, at), to = at + 1;
    if (at == end || s[at] != '*')
        return NONE;
    while (to < end && s[to] != ',' && s[to] != ' ')
        to++;
    for (size_t i = 0; i < sizeof names / sizeof names[0]; i++)
        if (strlen(names[i].name) == to - at - 1 && memcmp(names[i].name, s + at + 1, to - at - 1) == 0)
            return names[i].unit;
    return NONE;
}

struct names {
    char name[SETS][NAME + 1];
    size_t n;
};

/* The sets of a stream that was accepted. Answers whether all its units are sets. */
static int sets_of(const uint8_t *s, size_t n, struct names *sets) {
    sets->n = 0;
    for (size_t at = 0; at < n; at = line_after(s, n, at)) {
        enum unit unit = unit_at(s, n, at);
        if (unit == DECK)
            return 0;
        if (unit == NONE)
            continue;
        size_t from = at, end = line_end(s, n, at), length = 0;
        while (s[from] != ' ' && s[from] != ',')
            from++;
        while (s[from] == ' ' || s[from] == ',')
            from++;
        char *name = sets->name[sets->n++];
        while (from < end && s[from] != ' ' && length < NAME)
            name[length++] = (char)s[from++];
        name[length] = 0;
    }
    return 1;
}

/* Runs a stream part after part, cut ahead of units, of each by a chance in percent, up to the first refusal, whose line is counted from the
 * whole's start. Answers the number of cuts that have something ahead of them. */
static size_t run_cut(const struct library *old, const uint8_t *s, size_t n, unsigned percent, struct run *r) {
    static struct library part;
    size_t from = 0, before = 0, line = 0, cuts = 0;
    copy(old, &r->new);
    r->number = 0;
    for (size_t at = 0; at < n && r->number == 0; at = line_after(s, n, at), line++) {
        if (unit_at(s, n, at) == NONE || below(100) >= percent)
            continue;
        copy(&r->new, &part);
        run(&part, s + from, at - from, r);
        cuts += from < at;
        if (r->number == 0)
            from = at, before = line;
    }
    if (r->number == 0) {
        copy(&r->new, &part);
        run(&part, s + from, n - from, r);
    }
    /* rows 1 to 10 name a word, 19 and 32 nothing */
    if (r->number >= 20 && r->number <= 31)
        r->value += before;
    return cuts;
}

/* ---- taking back */

static void comment(struct stream *s) {
    static const char *lines[] = {"*/ NOT A SET\n", "*/\n", "*END\n", "*END,X\n"};
    if (below(3) == 0)
        add(s, lines[below(4)]);
}

/* Puts one of the names up to a place, by chance, at that place. Those from there on are the ones taken. */
static size_t take(struct names *names, size_t place) {
    char taken[NAME + 1];
    size_t which = below(place + 1);
    memcpy(taken, names->name[which], sizeof taken);
    memcpy(names->name[which], names->name[place], sizeof taken);
    memcpy(names->name[place], taken, sizeof taken);
    return place;
}

/* One set that only yanks the names, in an order by chance, one to five on a line, some of them again and one on a line of its own, comments and END
 * lines among them. */
static void yanking(const char *set, struct names names, struct stream *s) {
    static const char *starts[] = {"*YANK ", "*Y ", "*YANK,", "*Y   "};
    s->n = 0;
    comment(s);
    add(s, "*IDENT ");
    add(s, set);
    add(s, "\n");
    for (size_t left = names.n; left > 0;) {
        comment(s);
        add(s, starts[below(4)]);
        for (size_t i = 0, most = 1 + below(5); i < most && left > 0; i++) {
            int repeated = left < names.n && below(5) == 0;
            add(s, i > 0 ? "," : "");
            add(s, names.name[repeated ? left + below(names.n - left) : take(&names, --left)]);
        }
        add(s, "\n");
    }
    comment(s);
    add(s, "*YANK ");
    add(s, names.name[below(names.n)]);
    add(s, "\n");
    comment(s);
}

static struct run back, again;
static struct file file_before, file_after, file_now;

/* Sets that made `after` of `before` are yanked by one set, and the compile answer from before is there; that set is yanked, and the corrected one is. */
static void take_back(const struct library *before, const struct library *after, const struct names *sets, size_t room, long which) {
    static struct stream s;
    compile(before, room, &file_before);
    compile(after, room, &file_after);
    yanking("TAKEBACK", *sets, &s);
    run(after, s.bytes, s.n, &back);
    compile(&back.new, room, &file_now);
    expect(back.number == 0 && same_file(&file_now, &file_before), "yanked sets leave the compile answer from before them", which);
    struct names one = {{"TAKEBACK"}, 1};
    yanking("TAKEAGAIN", one, &s);
    run(&back.new, s.bytes, s.n, &again);
    compile(&again.new, room, &file_now);
    expect(again.number == 0 && same_file(&file_now, &file_after), "the yanks yanked bring the corrected compile answer back", which);
}

/* ---- merging */

/* What is shown of a library: its full compile answer and its directory. */
struct view {
    struct file file;
    uint8_t rows[SETS * ROW];
    size_t entries;
};

static void show(const struct library *library, size_t room, struct view *v) {
    uint64_t entries = 0;
    compile(library, room, &v->file);
    v->entries = galdwist_directory(library->words, library->n, v->rows, sizeof v->rows, &entries) == 0 ? (size_t)entries : 0;
}

/* The sets of a directory. */
static void sets_shown(const struct view *v, struct names *sets) {
    sets->n = 0;
    for (const uint8_t *row = v->rows; row < v->rows + v->entries * ROW; row += ROW) {
        if (row[NAME] != 'S')
            continue;
        char *name = sets->name[sets->n++];
        size_t length = 0;
        for (; length < NAME && row[length] != ' '; length++)
            name[length] = (char)row[length];
        name[length] = 0;
    }
}

/* Two libraries, the merged one, and what they show; `alone` is a run on one of the two. */
static struct library pair[2];
static struct run merged, alone;
static struct view view_of[2], view_merged, view_taken, view_now;

static int both_compile(const struct view *a, const struct view *b) {
    return a->file.number == 0 && b->file.number == 0;
}

/* Whether a view has the rows of one and then those of another, as many as the pair has, and, where both compile, the lines of both and the calls of both. */
static int follows(const struct view *v, const struct view *a, const struct view *b) {
    size_t n = view_of[0].entries, k = view_of[1].entries;
    if (v->entries < n + k || memcmp(v->rows, a->rows, n * ROW) != 0 || memcmp(v->rows + n * ROW, b->rows, k * ROW) != 0)
        return 0;
    if (!both_compile(a, b))
        return 1;
    n = a->file.first, k = b->file.first;
    return v->file.number == 0 && v->file.first == n + k && v->file.second == a->file.second + b->file.second &&
           memcmp(v->file.bytes, a->file.bytes, n * LINE) == 0 && memcmp(v->file.bytes + n * LINE, b->file.bytes, k * LINE) == 0;
}

/* The room for the files of two libraries that have so much each. */
static size_t twice(size_t room) {
    return room < LINES * LINE / 2 ? 2 * room : LINES * LINE;
}

/* The merged file in room for the lines of both, and in a byte less. */
static void fits_exactly(long which) {
    size_t exact = view_merged.file.first * LINE;
    compile(&merged.new, exact, &file_now);
    expect(file_now.number == 0 && memcmp(file_now.bytes, view_merged.file.bytes, exact) == 0, "the merged file fits room for the lines of both", which);
    if (exact == 0)
        return;
    compile(&merged.new, exact - 1, &file_now);
    expect(file_now.number == 44, "the merged file does not fit a byte less", which);
}

/* Merges the pair, where each file has so much room. The merged library is sound and as long as both, and shows the first and then the second. Answers
 * whether it was merged. */
static int merge_pair(size_t room, long which) {
    merge(&pair[0], &pair[1], &merged);
    if (merged.number != 0)
        return 0;
    for (int side = 0; side < 2; side++)
        show(&pair[side], room, &view_of[side]);
    show(&merged.new, twice(room), &view_merged);
    sound(&merged.new, "the check accepts the merged library");
    expect(merged.new.n == pair[0].n + pair[1].n - fresh.n && view_merged.entries == view_of[0].entries + view_of[1].entries,
           "the merged library has the words and the entries of both", which);
    int right = expect(follows(&view_merged, &view_of[0], &view_of[1]), "the merged library shows the first and then the second", which);
    if (right && both_compile(&view_of[0], &view_of[1]))
        fits_exactly(which);
    return 1;
}

/* A set of one of the pair is yanked in the merged library: that one is shown as with the set yanked in it alone, and the other as it was. Then the yank is
 * yanked, and the merged library shows what it did. Answers whether the limits let this be done. */
static int yank_in(int side, const char *set, size_t room, long which) {
    enum { LIMIT = 31 };
    static struct stream s;
    static struct names one;
    one.n = 1;
    strcpy(one.name[0], set);
    yanking("TAKEBACK", one, &s);
    run(&pair[side], s.bytes, s.n, &alone);
    run(&merged.new, s.bytes, s.n, &back);
    strcpy(one.name[0], "TAKEBACK");
    yanking("TAKEAGAIN", one, &s);
    run(&back.new, s.bytes, s.n, &again);
    if (alone.number == LIMIT || back.number == LIMIT || again.number == LIMIT)
        return 0;
    show(&alone.new, room, &view_taken);
    show(&back.new, twice(room), &view_now);
    expect(alone.number == 0 && back.number == 0 &&
               follows(&view_now, side == 0 ? &view_taken : &view_of[0], side == 0 ? &view_of[1] : &view_taken),
           "a set yanked in the merged library is taken back there and nothing else is", which);
    show(&again.new, twice(room), &view_now);
    expect(again.number == 0 && same_file(&view_now.file, &view_merged.file) && follows(&view_now, &view_of[0], &view_of[1]),
           "that yank yanked, the merged library shows what it did", which);
    return 1;
}

/* ---- the corpus */

static struct stream create_1, create_2, sets, text;
static struct run first, base, corrected, other;

/* Whether a file has the text's lines in columns 1 to 72, trailing blanks dropped. */
static int shows(const struct file *f, const struct stream *t) {
    size_t at = 0, line = 0;
    for (; at < t->n; at = line_after(t->bytes, t->n, at), line++) {
        size_t length = line_end(t->bytes, t->n, at) - at;
        const uint8_t *shown = f->bytes + line * LINE;
        if (line >= f->first || length > COLUMNS || memcmp(shown, t->bytes + at, length) != 0 || shown[LINE - 1] != 10)
            return 0;
        for (; length < COLUMNS; length++)
            if (shown[length] != ' ')
                return 0;
    }
    return f->number == 0 && f->first == line && f->second == 0;
}

static void cut_everywhere(const struct library *old, const struct stream *s, const struct run *whole, const char *what) {
    size_t cuts = run_cut(old, s->bytes, s->n, 100, &other);
    expect(cuts > 0 && same_run(&other, whole), what, (long)cuts);
}

/* The place of each of the 200 sets in their stream, and the stream's end. */
static size_t set_at[CORPUS_SETS + 1];

static void find_sets(void) {
    size_t n = 0;
    for (size_t at = 0; at < sets.n; at = line_after(sets.bytes, sets.n, at))
        if (unit_at(sets.bytes, sets.n, at) == SET && n < CORPUS_SETS)
            set_at[n++] = at;
    set_at[n] = sets.n;
    expect(n == CORPUS_SETS, "the corpus has 200 sets", (long)n);
}

static void corpus_is_made(void) {
    load("tests/corpus/create-1.upd", &create_1);
    load("tests/corpus/create-2.upd", &create_2);
    load("tests/corpus/sets.upd", &sets);
    run(&fresh, create_1.bytes, create_1.n, &first);
    expect(first.number == 0, "create-1 is accepted", (long)first.number);
    run(&first.new, create_2.bytes, create_2.n, &base);
    expect(base.number == 0, "create-2 is accepted", (long)base.number);
    run(&base.new, sets.bytes, sets.n, &corrected);
    expect(corrected.number == 0, "the sets are accepted", (long)corrected.number);
    sound(&base.new, "the check accepts the library");
    sound(&corrected.new, "the check accepts the corrected library");
    expect(corrected.new.n == 53494, "the corrected library has 53,494 words", (long)corrected.new.n);
    load("tests/corpus/base.txt", &text);
    compile(&base.new, LINES * LINE, &file_now);
    expect(shows(&file_now, &text), "the compile file is base.txt", (long)file_now.first);
    load("tests/corpus/final.txt", &text);
    compile(&corrected.new, LINES * LINE, &file_now);
    expect(shows(&file_now, &text), "the corrected compile file is final.txt", (long)file_now.first);
}

static void corpus_is_cut(void) {
    static struct library now;
    copy(&base.new, &now);
    for (size_t i = 0; i < CORPUS_SETS; i++) {
        run(&now, sets.bytes + set_at[i], set_at[i + 1] - set_at[i], &other);
        expect(other.number == 0 && other.new.n > now.n, "a set alone is accepted", (long)i + 1);
        copy(&other.new, &now);
    }
    expect(same_library(&now, &corrected.new), "the sets one by one make the library of all in one stream", CORPUS_SETS);
    cut_everywhere(&fresh, &create_1, &first, "create-1 cut ahead of every deck");
    cut_everywhere(&first.new, &create_2, &base, "create-2 cut ahead of every deck");
    cut_everywhere(&base.new, &sets, &corrected, "the sets cut ahead of every set");
}

/* The sets from one to another are run on what those ahead of them made of a library, and taken back. */
static void corpus_is_taken_back(const struct library *old, size_t from, size_t to) {
    static struct names names;
    static struct library before, after;
    run(old, sets.bytes, set_at[from], &other);
    copy(&other.new, &before);
    run(&before, sets.bytes + set_at[from], set_at[to] - set_at[from], &other);
    expect(other.number == 0 && sets_of(sets.bytes + set_at[from], set_at[to] - set_at[from], &names) && names.n == to - from,
           "sets to be taken back are accepted", (long)(to - from));
    copy(&other.new, &after);
    take_back(&before, &after, &names, LINES * LINE, (long)(to - from));
}

static void halves_are_merged(void) {
    run(&fresh, create_2.bytes, create_2.n, &other);
    expect(other.number == 0, "create-2 is accepted on the fresh library", (long)other.number);
    merge(&first.new, &other.new, &merged);
    expect(merged.number == 0 && same_library(&merged.new, &base.new), "the halves merged are create-2 run on create-1", (long)merged.number);
}

/* The cards with four history bytes and more: the first of their further history words is full. */
static long long_histories(const struct library *l) {
    enum { FIELD = 0777777 };
    long count = 0;
    for (size_t at = 2 + (l->words[1] >> 18) + (l->words[1] & FIELD), next; at < l->n; at = next) {
        count += l->words[at] >> 59 == 0 && (l->words[at + 1] & FIELD) != 0;
        for (next = at; l->words[next] >> 59 == 0; next++)
            continue;
        next += 1 + (l->words[at] >> 36 & FIELD);
    }
    return count;
}

/* The yanked sets of a library of the pair, from a place among the six of a cycle on; they are the last of its directory. */
static long yanked_from(const struct view *v, size_t place) {
    long count = 0;
    for (size_t set = 0; set < PAIR_SETS && v->entries > PAIR_SETS; set++)
        count += set % CYCLE >= place && v->rows[(v->entries - PAIR_SETS + set) * ROW + NAME + 1] == 'Y';
    return count;
}

/* The second pair: both have yanked sets, yanked yanks, long histories and calls. */
static void pair_is_made(void) {
    static struct making making;
    for (int side = 0; side < 2; side++) {
        make_streams(side, &making);
        run(&fresh, making.creation.bytes, making.creation.n, &other);
        expect(other.number == 0, "a half with common decks is accepted", side + 1);
        copy(&other.new, &pair[side]);
        run(&pair[side], making.sets.bytes, making.sets.n, &other);
        expect(other.number == 0, "a half's own sets are accepted", side + 1);
        copy(&other.new, &pair[side]);
        show(&pair[side], LINES * LINE, &view_of[side]);
        expect(view_of[side].file.number == 0 && view_of[side].file.second > 0, "a half with its sets compiles, and has calls", side + 1);
        long yanked = yanked_from(&view_of[side], 0), yanks = yanked_from(&view_of[side], CORRECTING), histories = long_histories(&pair[side]);
        expect(yanks > 0 && yanked > yanks, "a half has yanked sets and yanked yanks", side + 1);
        expect(histories > 0, "a half has cards with four history bytes and more", side + 1);
        printf("library %d: %zu words, %ld of %d sets yanked, %ld of these yanks; %ld cards with four history bytes and more\n", side + 1, pair[side].n,
               yanked, PAIR_SETS, yanks, histories);
    }
}

/* Each set of either library is yanked in the merged one; most of them change what their own library shows. */
static void pair_is_merged(void) {
    static struct names names;
    expect(merge_pair(LINES * LINE, 0), "the pair is merged", (long)merged.number);
    for (int side = 0; side < 2; side++) {
        long done = 0, changing = 0;
        sets_shown(&view_of[side], &names);
        for (size_t i = 0; i < names.n; i++) {
            done += yank_in(side, names.name[i], LINES * LINE, (long)i);
            changing += !same_file(&view_taken.file, &view_of[side].file);
        }
        expect(done == PAIR_SETS, "every set of a library is yanked in the merged one", done);
        expect(changing > PAIR_SETS / 2, "most sets change what their library shows when they are yanked", changing);
    }
    corpus_is_taken_back(&merged.new, 0, 10);
}

static void corpus(void) {
    corpus_is_made();
    find_sets();
    corpus_is_cut();
    static const size_t taken[][2] = {{0, 1}, {199, 200}, {0, 10}, {95, 105}, {0, 40}, {160, 200}, {0, 200}};
    for (size_t i = 0; i < sizeof taken / sizeof taken[0]; i++)
        corpus_is_taken_back(&base.new, taken[i][0], taken[i][1]);
    halves_are_merged();
    pair_is_made();
    pair_is_merged();
}

/* ---- cases */

static struct run whole, parts;

struct counts {
    long cases, accepted, cut, taken_back, pairs, merged, compiled, yanked;
};

static void one_case(const struct library *old, const uint8_t *stream, size_t n, struct counts *counts) {
    static struct names names;
    long which = ++counts->cases;
    run(old, stream, n, &whole);
    size_t cuts = run_cut(old, stream, n, 75, &parts);
    expect(same_run(&whole, &parts), "a stream cut ahead of units gives what the whole gives", which);
    counts->cut += cuts > 0;
    counts->accepted += whole.number == 0;
    if (whole.number != 0 || !sets_of(stream, n, &names) || names.n == 0)
        return;
    counts->taken_back++;
    static const size_t rooms[] = {720, 720, 10, 1};
    take_back(old, &whole.new, &names, rooms[which % 4] * LINE - (size_t)(which % 3 == 0), which);
}

/* The pair is merged, and of each library a set by chance is yanked. */
static void one_pair(struct counts *counts) {
    static struct names names;
    const size_t room = 720 * LINE;
    long which = ++counts->pairs;
    if (!merge_pair(room, which))
        return;
    counts->merged++;
    counts->compiled += both_compile(&view_of[0], &view_of[1]);
    for (int side = 0; side < 2; side++) {
        sets_shown(&view_of[side], &names);
        if (names.n > 0)
            counts->yanked += yank_in(side, names.name[below(names.n)], room, which);
    }
}

static uint32_t little(const uint8_t *b) {
    return (uint32_t)b[0] | (uint32_t)b[1] << 8 | (uint32_t)b[2] << 16 | (uint32_t)b[3] << 24;
}

static void read_image(const uint8_t *blob, size_t n, struct library *l) {
    l->n = n / 8;
    for (size_t i = 0; i < l->n; i++)
        l->words[i] = (uint64_t)little(blob + 8 * i) | (uint64_t)little(blob + 8 * i + 4) << 32;
}

static void cases(const char *path) {
    enum { HEAD = 13, RUN = 2, MERGE = 9 };
    static struct library old;
    static uint8_t image[8 * (WORDS + 1)], second[8 * (WORDS + 1)];
    uint8_t head[HEAD];
    struct counts counts = {0};
    FILE *in = fopen(path, "rb");
    if (in == NULL)
        stop("cannot read", path);
    while (fread(head, 1, HEAD, in) == HEAD) {
        size_t n = little(head + 5), k = little(head + 9);
        if (n > sizeof image || k > sizeof second || fread(image, 1, n, in) != n || fread(second, 1, k, in) != k)
            stop("a case that is cut short or too large:", path);
        if (n / 8 > WORDS)
            continue;
        /* the promise speaks of streams of at most 262,144 bytes */
        if (head[0] == RUN && k <= STREAM) {
            read_image(image, n, &old);
            one_case(&old, second, k, &counts);
        } else if (head[0] == MERGE && k / 8 <= WORDS) {
            read_image(image, n, &pair[0]);
            read_image(second, k, &pair[1]);
            one_pair(&counts);
        }
    }
    fclose(in);
    printf("%ld streams, %ld accepted, %ld cut, %ld of sets only and taken back\n", counts.cases, counts.accepted, counts.cut,
           counts.taken_back);
    printf("%ld pairs, %ld merged, %ld of which both compile, %ld sets yanked in them\n", counts.pairs, counts.merged, counts.compiled,
           counts.yanked);
}

int main(int argc, char **argv) {
    clear_space(WORDS);
    if (argc > 1)
        cases(argv[1]);
    else
        corpus();
    printf("%d passed, %d failed\n", passed, failed);
    return failed != 0;
}
