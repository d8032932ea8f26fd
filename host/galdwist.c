/* galdwist: the keeper's tool, files around the C face (include/galdwist.h).
 *
 * It reads whole files, lends them to the face, and writes what the face makes of them. What a word, a card or a directive means is the
 * face's affair: nothing here takes one apart. Status: 0 done, 1 refused, 2 wrong use or a file that cannot be read or written. */
#define _XOPEN_SOURCE 700
#include "galdwist.h"
#include <errno.h>
#include <fcntl.h>
#include <inttypes.h>
#include <signal.h>
#include <stdbool.h>
#include <stdio.h>
#include <stdlib.h>
#include <string.h>
#include <sys/stat.h>
#include <unistd.h>

enum { DONE, REFUSED, FAILED };
enum { LAST_OF_LIBRARY = 10, NO_ROOM = 44 };        /* rows of the table: up to the one the library is at fault; at the other a compile wants more room */
enum { FIRST_ENTRY = 2, NAME = 9 };                 /* the word of an image where its directory starts; the columns of a name in a row of it */
enum { FIRST_ROOM = 1 << 20 };                      /* bytes lent to a compile at first */
enum { FIRST_READ = 1 << 16, MOST_READ = 1 << 28 }; /* bytes read of a file: an endless one has to end somewhere */
enum { DIGITS = 20, MOST_SHOWN = 160 };             /* octal digits of a word; bytes shown of a line */

typedef struct {
    uint8_t *at;
    size_t n;
} Bytes;

typedef struct {
    uint64_t *at;
    size_t n;
} Words;

/* ---- what is said */

static bool is_standard(const char *file) { return strcmp(file, "-") == 0; }

static const char *read_name(const char *file) { return is_standard(file) ? "standard input" : file; }

static const char *written_name(const char *file) { return is_standard(file) ? "standard output" : file; }

static int not_read(const char *file, const char *why) {
    fprintf(stderr, "galdwist: cannot read %s: %s\n", read_name(file), why);
    return FAILED;
}

static int not_written(const char *file, const char *why) {
    fprintf(stderr, "galdwist: cannot write %s: %s\n", written_name(file), why);
    return FAILED;
}

static int no_memory(void) {
    fprintf(stderr, "galdwist: not enough memory\n");
    return FAILED;
}

static const char *plural(uint64_t n) { return n == 1 ? "" : "s"; }

/* Whether a word may be said of what was written: a pipe or a device that has it may be the one that would hear the word. */
static bool is_quiet(const char *file) {
    struct stat now;
    return is_standard(file) || stat(file, &now) != 0 || !S_ISREG(now.st_mode);
}

static void say_words(const char *file, size_t n) {
    if (!is_quiet(file))
        printf("%s: %zu word%s\n", file, n, plural(n));
}

static void say_lines(const char *file, uint64_t lines, uint64_t calls) {
    if (!is_quiet(file))
        printf("%s: %" PRIu64 " line%s, %" PRIu64 " call%s\n", file, lines, plural(lines), calls, plural(calls));
}

/* A line as it can be shown: what is no plain character as two hexadecimal digits in brackets. */
static void show(const uint8_t *line, size_t n) {
    fputs("    ", stderr);
    for (size_t i = 0; i < n && i < MOST_SHOWN; i++)
        fprintf(stderr, line[i] >= ' ' && line[i] <= '~' ? "%c" : "<%02X>", line[i]);
    fputs(n > MOST_SHOWN ? " ...\n" : "\n", stderr);
}

/* Where the line ends that starts at a place of a text. */
static size_t line_end(Bytes text, size_t from) {
    const uint8_t *end = from < text.n ? memchr(text.at + from, '\n', text.n - from) : NULL;
    return end != NULL ? (size_t)(end - text.at) : text.n;
}

static const struct {
    uint64_t number;
    const char *means;
} meanings[] = {
    {1, "The file is no library: it has under 3 words, or over 65,536, or a word of over 60 bits."},
    {2, "The first word is not that of a library."},
    {3, "The second word is wrong: over 1,023 directory entries, no deck or over 255, or more than the file holds."},
    {4, "A name in the directory or the deck list is malformed, unknown, reserved, or there twice."},
    {5, "A card's form is wrong: its history, a directory number in it, or its length. Or there are too many cards."},
    {6, "A card's text is not written in the one way that is accepted."},
    {7, "The deck cards and the deck list do not agree, or a DECK or COMDECK line is malformed."},
    {8, "A card of YANK$$$ is no YANK, or names something else than earlier sets."},
    {9, "A stored activity or yank bit does not agree with the histories."},
    {10, "Two cards have the same name and number. This is the second."},
    {19, "The stream is over 262,144 bytes. Cut it ahead of a DECK, COMDECK or IDENT line and run the parts one after another."},
    {20, "The line has a character outside the set of 64. Small letters, tabs and carriage returns are outside it."},
    {21, "The line is over 80 columns, blanks at its end counted."},
    {22, "The directive is malformed: a parameter is missing, empty, one too many, or no name or card."},
    {23, "The directive, or its second parameter, is none of those carried here."},
    {24, "The text has nowhere to go, or the correction stands outside a set. A set begins with IDENT."},
    {25, "The new name is in the directory already, or is reserved."},
    {26, "YANK names a set that is not in the directory."},
    {27, "YANK takes back earlier sets only: no deck, not YANK$$$, and not the set that it stands in."},
    {28, "There is no such card. Check the directory, and the names and numbers in the compile file."},
    {29, "The range is backwards: its second card stands ahead of its first."},
    {30, "A deck card cannot be deleted, restored or have text ahead of it, and YANK$$$ takes no text."},
    {31, "The new library would pass a limit: 65,536 words, 1,023 directory entries, 255 decks with YANK$$$, 16,383 cards, 64 bytes in a history."},
    {32, "The new library is longer than the space for it."},
    {37, "They cannot be merged: make one anew with another name, or leave them apart."},
    {40, "The CALL is malformed, or names no deck."},
    {41, "The CALL names a deck that is not a common deck."},
    {42, "Calls are nested deeper than 8. It may be that a common deck calls itself."},
    {43, "There are more than 4,096 calls."},
    {44, "The line does not fit the space."},
    {50, "The file's length is not that of packed words: something was cut off or added."},
    {51, "The last 4 bits of the file are not zero."},
    {53, "The words do not fit the space, or one has over 60 bits."},
};

static const char *meaning(uint64_t number) {
    for (size_t i = 0; i < sizeof meanings / sizeof *meanings; i++)
        if (meanings[i].number == number)
            return meanings[i].means;
    return "The rules have the table of numbers.";
}

static int explained(uint64_t number) {
    fprintf(stderr, "%" PRIu64 ": %s\n", number, meaning(number));
    return REFUSED;
}

static int refused_whole(uint64_t number, const char *name) {
    fprintf(stderr, "galdwist: refused with %" PRIu64 ", %s as a whole\n", number, name);
    return explained(number);
}

static int refused_together(uint64_t number, const char *first, const char *second) {
    fprintf(stderr, "galdwist: refused with %" PRIu64 ", %s and %s together\n", number, read_name(first), read_name(second));
    return explained(number);
}

static void say_word(uint64_t number, const char *file, Words image, uint64_t place) {
    fprintf(stderr, "galdwist: refused with %" PRIu64 " at word %" PRIu64 " of %s, counted from 0", number, place, read_name(file));
    if (place < image.n)
        fprintf(stderr, ":\n    %0*" PRIo64 "\n", DIGITS, image.at[place]);
    else
        fprintf(stderr, ", where it ends\n");
}

static int refused_word(uint64_t number, const char *file, Words image, uint64_t place) {
    say_word(number, file, image, place);
    return explained(number);
}

static int refused_line(uint64_t number, const char *file, Bytes stream, uint64_t line) {
    size_t from = 0;
    if (line == 0)
        return refused_whole(number, read_name(file));
    for (uint64_t i = 1; i < line && from < stream.n; i++)
        from = line_end(stream, from) + 1;
    fprintf(stderr, "galdwist: refused with %" PRIu64 " at line %" PRIu64 " of %s:\n", number, line, read_name(file));
    if (from < stream.n)
        show(stream.at + from, line_end(stream, from) - from);
    return explained(number);
}

static int refused_card(uint64_t number, const char *file, Words image, uint64_t owner, uint64_t sequence) {
    uint8_t card[GALDWIST_CARD];
    uint64_t length;
    fprintf(stderr, "galdwist: refused with %" PRIu64 " at card ", number);
    if (galdwist_card(image.at, image.n, owner, sequence, card, sizeof card, &length) == 0)
        fprintf(stderr, "%.*s of %s\n", (int)length, (const char *)card, read_name(file));
    else
        fprintf(stderr, "%" PRIu64 " of directory number %" PRIu64 " of %s\n", sequence, owner, read_name(file));
    return explained(number);
}

/* ---- reading */

static bool make_room(Bytes *into, size_t room) {
    uint8_t *at = realloc(into->at, room);
    if (at != NULL)
        into->at = at;
    return at != NULL;
}

static int read_from(int from, const char *file, Bytes *into) {
    for (size_t room = 0;;) {
        if (into->n == MOST_READ)
            return not_read(file, "It is too long for this program");
        if (into->n == room) {
            room = room == 0 ? FIRST_READ : 2 * room;
            if (!make_room(into, room))
                return no_memory();
        }
        ssize_t got = read(from, into->at + into->n, room - into->n);
        if (got == 0)
            return DONE;
        if (got > 0)
            into->n += (size_t)got;
        else if (errno != EINTR)
            return not_read(file, strerror(errno));
    }
}

static int read_file(const char *file, Bytes *into) {
    if (is_standard(file))
        return read_from(STDIN_FILENO, file, into);
    int from = open(file, O_RDONLY | O_CLOEXEC);
    if (from < 0)
        return not_read(file, strerror(errno));
    int status = read_from(from, file, into);
    close(from);
    return status;
}

/* The words of packed bytes: eight bytes each from the face, lowest first. Unpacked, no bytes are twice as long. */
static int unpack_words(const char *file, Bytes packed, Words *into) {
    uint64_t written;
    size_t room = (packed.n / 4 + 1) * 8;
    uint8_t *eights = malloc(room);
    into->at = calloc(room / 8, sizeof *into->at);
    if (eights == NULL || into->at == NULL) {
        free(eights);
        return no_memory();
    }
    uint64_t number = galdwist_unpack(packed.at, packed.n, eights, room, &written);
    into->n = number == 0 ? written / 8 : 0;
    for (size_t i = 0; i < 8 * into->n; i++)
        into->at[i / 8] |= (uint64_t)eights[i] << 8 * (i % 8);
    free(eights);
    return number == 0 ? DONE : refused_whole(number, read_name(file));
}

static int read_words(const char *file, Words *into) {
    Bytes packed = {NULL, 0};
    int status = read_file(file, &packed);
    if (status == DONE)
        status = unpack_words(file, packed, into);
    free(packed.at);
    return status;
}

/* ---- writing */

static bool write_all(int to, Bytes whole) {
    for (size_t done = 0; done < whole.n;) {
        ssize_t put = write(to, whole.at + done, whole.n - done);
        if (put > 0)
            done += (size_t)put;
        else if (put == 0 || errno != EINTR)
            return false;
    }
    return true;
}

/* Closes a file. False where that or what came ahead of it went wrong; errno has the first fault. */
static bool close_after(bool good, int file) {
    int why = errno;
    bool closed = close(file) == 0;
    if (!good)
        errno = why;
    return good && closed;
}

/* A device or a pipe takes the bytes as they come. */
static bool put_straight(const char *file, Bytes whole) {
    int to = open(file, O_WRONLY | O_CLOEXEC);
    return to >= 0 && close_after(write_all(to, whole), to);
}

/* Whether a file is on the disk; some file systems cannot be asked. */
static bool is_flushed(int file) { return fsync(file) == 0 || errno == EINVAL; }

/* Writes beside the name, and takes the name when all of it is on the disk. A fault leaves nothing behind. */
static bool put_beside(int folder, const char *name, const mode_t *mode, Bytes whole) {
    char beside[64];
    int to = -1;
    errno = EEXIST;
    for (unsigned i = 0; to < 0 && errno == EEXIST && i < 100; i++) {
        snprintf(beside, sizeof beside, "galdwist-unfinished.%ld.%u", (long)getpid(), i);
        to = openat(folder, beside, O_WRONLY | O_CREAT | O_EXCL | O_CLOEXEC, 0666);
    }
    if (to < 0)
        return false;
    bool good = (mode == NULL || fchmod(to, *mode) == 0) && write_all(to, whole) && is_flushed(to);
    good = close_after(good, to) && renameat(folder, beside, folder, name) == 0;
    if (!good) {
        int why = errno;
        unlinkat(folder, beside, 0);
        errno = why;
    }
    return good;
}

/* The same, and the folder is on the disk too. A stop from the keyboard or the system waits until it is done or undone. */
static bool put_in_folder(int folder, const char *name, const mode_t *mode, Bytes whole) {
    sigset_t stops, before;
    sigemptyset(&stops);
    sigaddset(&stops, SIGINT);
    sigaddset(&stops, SIGTERM);
    sigaddset(&stops, SIGHUP);
    sigprocmask(SIG_BLOCK, &stops, &before);
    bool good = put_beside(folder, name, mode, whole) && is_flushed(folder);
    sigprocmask(SIG_SETMASK, &before, NULL);
    return good;
}

/* Parts a path, which it changes, into folder and name. */
static bool put_at_path(char *path, const mode_t *mode, Bytes whole) {
    char *slash = strrchr(path, '/');
    const char *name = slash == NULL ? path : slash + 1;
    if (*name == '\0') {
        errno = slash == NULL ? ENOENT : EISDIR;
        return false;
    }
    if (slash != NULL)
        *slash = '\0';
    int folder = open(slash == NULL ? "." : slash == path ? "/" : path, O_RDONLY | O_DIRECTORY | O_CLOEXEC);
    return folder >= 0 && close_after(put_in_folder(folder, name, mode, whole), folder);
}

/* A file that is there keeps its permissions, and a link to it stays a link. A file that may not be written is not replaced. */
static bool put_whole(const char *file, Bytes whole) {
    struct stat now;
    bool there = stat(file, &now) == 0;
    if (!there && (errno != ENOENT || lstat(file, &now) == 0))
        return false;
    if (there && S_ISDIR(now.st_mode)) {
        errno = EISDIR;
        return false;
    }
    if (there && !S_ISREG(now.st_mode))
        return put_straight(file, whole);
    if (there && access(file, W_OK) != 0)
        return false;
    mode_t mode = there ? now.st_mode & 0777 : 0;
    char *path = there ? realpath(file, NULL) : strdup(file);
    bool good = path != NULL && put_at_path(path, there ? &mode : NULL, whole);
    int why = errno;
    free(path);
    errno = why;
    return good;
}

static int write_file(const char *file, Bytes whole) {
    bool good = is_standard(file) ? write_all(STDOUT_FILENO, whole) : put_whole(file, whole);
    return good ? DONE : not_written(file, strerror(errno));
}

/* Words packed, given to the face as eight bytes each, lowest first. Packed, no words are longer. */
static int write_words(const char *file, Words words) {
    uint64_t written = 0;
    size_t room = 8 * words.n;
    uint8_t *eights = malloc(room + 1), *packed = malloc(room + 1);
    int status = eights != NULL && packed != NULL ? DONE : no_memory();
    for (size_t i = 0; status == DONE && i < room; i++)
        eights[i] = (uint8_t)(words.at[i / 8] >> 8 * (i % 8));
    uint64_t number = status == DONE ? galdwist_pack(eights, room, packed, room, &written) : 0;
    if (number != 0)
        status = refused_whole(number, written_name(file));
    if (status == DONE)
        status = write_file(file, (Bytes){packed, written});
    free(packed);
    free(eights);
    if (status == DONE)
        say_words(file, words.n);
    return status;
}

/* A slip of the pen is not to put what is made in the place of what it is made from. */
static int kept_apart(const char *in, const char *out) {
    struct stat a, b;
    if (is_standard(out) || stat(out, &b) != 0 || !S_ISREG(b.st_mode))
        return DONE;
    if ((is_standard(in) ? fstat(STDIN_FILENO, &a) : stat(in, &a)) != 0 || a.st_dev != b.st_dev || a.st_ino != b.st_ino)
        return DONE;
    return not_written(out, "It is the file that is read");
}

/* ---- octal words, one to a line */

static bool octal(const uint8_t *digits, size_t n, uint64_t *word) {
    *word = 0;
    for (size_t i = 0; i < n; i++) {
        if (digits[i] < '0' || digits[i] > '7')
            return false;
        *word = *word << 3 | (uint64_t)(digits[i] - '0');
    }
    return n == DIGITS;
}

static int parse_octal(const char *file, Bytes text, Words *into) {
    into->at = malloc((text.n / DIGITS + 1) * sizeof *into->at);
    if (into->at == NULL)
        return no_memory();
    for (size_t from = 0; from < text.n;) {
        size_t end = line_end(text, from);
        if (!octal(text.at + from, end - from, into->at + into->n)) {
            fprintf(stderr, "galdwist: line %zu of %s is not %d octal digits:\n", into->n + 1, read_name(file), DIGITS);
            show(text.at + from, end - from);
            return FAILED;
        }
        into->n++;
        from = end + 1;
    }
    return DONE;
}

static int write_octal(const char *file, Words words) {
    size_t line = DIGITS + 1;
    char *text = malloc(words.n * line + 1);
    if (text == NULL)
        return no_memory();
    for (size_t i = 0; i < words.n; i++)
        snprintf(text + i * line, line + 1, "%0*" PRIo64 "\n", DIGITS, words.at[i]);
    int status = write_file(file, (Bytes){(uint8_t *)text, words.n * line});
    free(text);
    if (status == DONE)
        say_words(file, words.n);
    return status;
}

/* ---- the commands */

static int fresh(char **files) {
    uint64_t space[8], value;
    struct stat now;
    if (!is_standard(files[0]) && stat(files[0], &now) == 0 && S_ISREG(now.st_mode))
        return not_written(files[0], "It is there already, and fresh replaces no file");
    uint64_t number = galdwist_fresh(space, sizeof space / sizeof *space, &value);
    return number == 0 ? write_words(files[0], (Words){space, value}) : refused_whole(number, written_name(files[0]));
}

static const char *kind(uint8_t letter) {
    switch (letter) {
    case 'D':
        return "deck";
    case 'C':
        return "common deck";
    case 'S':
        return "set";
    default:
        return "purged";
    }
}

static int print_directory(const uint8_t *rows, uint64_t entries) {
    char *text = NULL;
    size_t length = 0;
    FILE *page = open_memstream(&text, &length);
    if (page == NULL)
        return no_memory();
    fprintf(page, "number  name       what\n");
    for (uint64_t i = 0; i < entries; i++, rows += GALDWIST_ROW)
        fprintf(page, "%6" PRIu64 "  %.9s  %s%s\n", i + 1, (const char *)rows, kind(rows[9]), rows[10] == 'Y' ? ", yanked" : "");
    bool good = ferror(page) == 0;
    good = fclose(page) == 0 && good;
    int status = good ? write_file("-", (Bytes){(uint8_t *)text, length}) : no_memory();
    free(text);
    return status;
}

static int list_directory(const char *file, Words image, uint8_t **rows, uint64_t *entries) {
    size_t room = image.n * GALDWIST_ROW; /* an entry is a word of the library */
    *rows = malloc(room + 1);
    if (*rows == NULL)
        return no_memory();
    uint64_t number = galdwist_directory(image.at, image.n, *rows, room, entries);
    return number == 0 ? DONE : refused_word(number, file, image, *entries);
}

static int directory(char **files) {
    Words image = {NULL, 0};
    uint8_t *rows = NULL;
    uint64_t entries = 0;
    int status = read_words(files[0], &image);
    if (status == DONE)
        status = list_directory(files[0], image, &rows, &entries);
    if (status == DONE)
        status = print_directory(rows, entries);
    free(rows);
    free(image.at);
    return status;
}

static int check(char **files) {
    Words image = {NULL, 0};
    uint64_t place = 0;
    int status = read_words(files[0], &image);
    uint64_t number = status == DONE ? galdwist_check(image.at, image.n, &place) : 0;
    if (number != 0)
        status = refused_word(number, files[0], image, place);
    if (status == DONE)
        printf("%s: sound, %zu words\n", read_name(files[0]), image.n);
    free(image.at);
    return status;
}

static int run_words(char **files, Words old, Bytes stream) {
    uint64_t value, *space = malloc(GALDWIST_WORDS * sizeof *space);
    if (space == NULL)
        return no_memory();
    uint64_t number = galdwist_run(old.at, old.n, stream.at, stream.n, space, GALDWIST_WORDS, &value);
    int status;
    if (number == 0)
        status = write_words(files[2], (Words){space, value});
    else if (number <= LAST_OF_LIBRARY)
        status = refused_word(number, files[0], old, value);
    else
        status = refused_line(number, files[1], stream, value);
    free(space);
    return status;
}

static int run(char **files) {
    Words old = {NULL, 0};
    Bytes stream = {NULL, 0};
    if (is_standard(files[0]) && is_standard(files[1]))
        return not_read("-", "It cannot be both OLD and STREAM");
    int status = kept_apart(files[1], files[2]);
    if (status == DONE)
        status = read_words(files[0], &old);
    if (status == DONE)
        status = read_file(files[1], &stream);
    if (status == DONE)
        status = run_words(files, old, stream);
    free(stream.at);
    free(old.at);
    return status;
}

/* The word at fault is a name, and is told as the directory shows it. */
static int refused_name(uint64_t number, const char *file, Words image, uint64_t place) {
    uint8_t *rows = NULL;
    uint64_t entries = 0;
    int status = list_directory(file, image, &rows, &entries);
    if (status == DONE) {
        const char *name = (const char *)rows + (place - FIRST_ENTRY) * GALDWIST_ROW;
        const char *blank = memchr(name, ' ', NAME);
        int length = blank != NULL ? (int)(blank - name) : NAME;
        say_word(number, file, image, place);
        fprintf(stderr, "%" PRIu64 ": Both libraries have the name %.*s. %s\n", number, length, name, meaning(number));
        status = REFUSED;
    }
    free(rows);
    return status;
}

static int merge_words(char **files, const Words *both) {
    uint64_t value, which, *space = malloc(GALDWIST_WORDS * sizeof *space);
    if (space == NULL)
        return no_memory();
    uint64_t number = galdwist_merge(both[0].at, both[0].n, both[1].at, both[1].n, space, GALDWIST_WORDS, &value, &which);
    int status;
    if (number == 0)
        status = write_words(files[2], (Words){space, value});
    else if (which == 0)
        status = refused_together(number, files[0], files[1]);
    else if (number <= LAST_OF_LIBRARY)
        status = refused_word(number, files[which - 1], both[which - 1], value);
    else
        status = refused_name(number, files[which - 1], both[which - 1], value);
    free(space);
    return status;
}

static int merge(char **files) {
    Words both[2] = {{NULL, 0}, {NULL, 0}};
    if (is_standard(files[0]) && is_standard(files[1]))
        return not_read("-", "It cannot be both FIRST and SECOND");
    int status = DONE;
    for (int i = 0; status == DONE && i < 2; i++)
        status = kept_apart(files[i], files[2]);
    for (int i = 0; status == DONE && i < 2; i++)
        status = read_words(files[i], &both[i]);
    if (status == DONE)
        status = merge_words(files, both);
    free(both[1].at);
    free(both[0].at);
    return status;
}

/* The room doubles until the compile file fits. */
static int compile_words(char **files, Words image) {
    uint64_t first = 0, second = 0, number = NO_ROOM;
    uint8_t *out = NULL;
    for (size_t room = FIRST_ROOM; number == NO_ROOM; room *= 2) {
        free(out);
        out = malloc(room);
        if (out == NULL)
            return no_memory();
        number = galdwist_compile(image.at, image.n, out, room, &first, &second);
    }
    int status;
    if (number == 0)
        status = write_file(files[1], (Bytes){out, first * GALDWIST_LINE});
    else if (number <= LAST_OF_LIBRARY)
        status = refused_word(number, files[0], image, first);
    else
        status = refused_card(number, files[0], image, first, second);
    free(out);
    if (status == DONE)
        say_lines(files[1], first, second);
    return status;
}

static int compile(char **files) {
    Words image = {NULL, 0};
    int status = kept_apart(files[0], files[1]);
    if (status == DONE)
        status = read_words(files[0], &image);
    if (status == DONE)
        status = compile_words(files, image);
    free(image.at);
    return status;
}

static int pack(char **files) {
    Bytes text = {NULL, 0};
    Words words = {NULL, 0};
    int status = kept_apart(files[0], files[1]);
    if (status == DONE)
        status = read_file(files[0], &text);
    if (status == DONE)
        status = parse_octal(files[0], text, &words);
    if (status == DONE)
        status = write_words(files[1], words);
    free(words.at);
    free(text.at);
    return status;
}

static int unpack(char **files) {
    Words words = {NULL, 0};
    int status = kept_apart(files[0], files[1]);
    if (status == DONE)
        status = read_words(files[0], &words);
    if (status == DONE)
        status = write_octal(files[1], words);
    free(words.at);
    return status;
}

static int help(char **files);

static const struct {
    const char *name, *files, *does;
    int count;
    int (*command)(char **files);
} commands[] = {
    {"fresh", "NEW", "makes a library with nothing in it", 1, fresh},
    {"directory", "LIB", "lists the directory: number, name, what it is, yanked or not", 1, directory},
    {"check", "LIB", "says whether LIB is a sound library", 1, check},
    {"run", "OLD STREAM NEW", "applies a stream of directives to OLD and writes NEW", 3, run},
    {"merge", "FIRST SECOND NEW", "makes one library of FIRST and SECOND and writes NEW", 3, merge},
    {"compile", "LIB FILE", "writes the compile file", 2, compile},
    {"pack", "WORDS PACKED", "packs words, 20 octal digits to a line", 2, pack},
    {"unpack", "PACKED WORDS", "unpacks words, 20 octal digits to a line", 2, unpack},
    {"help", "", "says this", 0, help},
};
enum { COMMANDS = sizeof commands / sizeof *commands };

static int help(char **files) {
    (void)files;
    printf("galdwist keeps program libraries. Check the directory before you trust the number.\n\n");
    for (int i = 0; i < COMMANDS; i++)
        printf("  galdwist %-9s %-16s  %s\n", commands[i].name, commands[i].files, commands[i].does);
    printf("\n- stands for standard input or standard output. OLD and NEW may be one file. A file is written whole or not at all.\n"
           "Status: 0 done, 1 refused, 2 wrong use or a file that cannot be read or written.\n");
    return DONE;
}

static int obey(const char *name, int count, char **files) {
    for (int i = 0; i < COMMANDS; i++) {
        if (strcmp(commands[i].name, name) != 0)
            continue;
        if (commands[i].count == count)
            return commands[i].command(files);
        fprintf(stderr, "usage: galdwist %s %s\n", name, commands[i].files);
        return FAILED;
    }
    fprintf(stderr, "galdwist: there is no command %s; galdwist help lists them\n", name);
    return FAILED;
}

int main(int n, char **words) {
    signal(SIGPIPE, SIG_IGN); /* a write that is turned away is to be an error, not the end */
    signal(SIGXFSZ, SIG_IGN);
    if (n < 2) {
        fprintf(stderr, "usage: galdwist COMMAND FILES; galdwist help lists the commands\n");
        return FAILED;
    }
    bool asked = strcmp(words[1], "--help") == 0 || strcmp(words[1], "-h") == 0;
    int status = obey(asked ? "help" : words[1], n - 2, words + 2);
    if (fclose(stdout) != 0 && status == DONE)
        status = not_written("-", strerror(errno));
    return status;
}
