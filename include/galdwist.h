/* Galdwist for C: what the archive of crates/face_c exports (tools/archive writes target/staticlib/libface.a, for x86-64).
 *
 * A slice is a pointer and a count of elements. Slices of one call do not overlap, and a pointer is null only where its count is 0.
 * A function returns the number of the table (docs/RULES.md, "Numbers of the answers"), 0 where it is done. A refusal leaves every slice as it was;
 * what is done writes the length that it reports and nothing beyond. No function keeps a pointer, allocates, or fails in another way.
 * A library is an image: one 60-bit word to an element. Words are counted from 0, lines from 1.
 * Each comment names the definition that the function is proved to compute, in crates/NAME/specs.
 *
 * What a function works on beside its slices lies on the caller's stack. It needs, at most (the figures are in docs/MEASURES.md):
 *     galdwist_run                                                                         about 2 MiB
 *     galdwist_merge, galdwist_compile, galdwist_check, galdwist_directory, galdwist_card  about 1 MiB
 *     galdwist_pack, galdwist_unpack, galdwist_fresh                                       about 16 KiB
 * The first thread of a program has 8 MiB on Linux; a thread or a task of an emulator may have less.
 *
 * tests/c/example.c makes a library, corrects it and writes its compile file, in memory. */
#ifndef GALDWIST_H
#define GALDWIST_H

#include <stddef.h>
#include <stdint.h>

#define GALDWIST_WORDS 65536 /* no library has more words */
#define GALDWIST_LINE 91     /* bytes of a line of the compile file */
#define GALDWIST_ROW 11      /* bytes of a row of the directory */
#define GALDWIST_CARD 16     /* no card's name as NAME.NUMBER has more bytes */

/* Packs words of 60 bits, each given as eight bytes, the lowest ahead: the bits in a row, the highest of each word ahead, 15 bytes for two words
 * and 8 for a last one alone. 50 where n is no multiple of 8; 53 where a number has more than 60 bits or the bytes do not fit. `written`: bytes written, or 0.
 * words_packing/specs/Pack.antt: packing_eights, pack_eights_into. */
uint64_t galdwist_pack(const uint8_t *words, size_t n, uint8_t *out, size_t room, uint64_t *written);

/* Unpacks bytes to words, each written as eight bytes, the lowest ahead. 50 where n is no length of packed words or room no multiple
 * of 8; 53 where the words do not fit; 51 where the last 4 bits of an odd last word are not zero. `written`: bytes written, or 0.
 * words_packing/specs/Pack.antt: unpacking_eights, unpack_eights_into. */
uint64_t galdwist_unpack(const uint8_t *bytes, size_t n, uint8_t *out, size_t room, uint64_t *written);

/* The library check of an image. Answers the row of the first fault, 1 to 10, or 0; `place`: the word at fault, or 0.
 * library/specs/Check.antt: check, checked_number, checked_place. */
uint64_t galdwist_check(const uint64_t *image, size_t n, uint64_t *place);

/* The correction run: a stream of k bytes on the old library, the new one written to `space`. 1 to 10 where the old one is no library;
 * 19 to 32 where the stream is refused. `value`: words written; the word at fault for 1 to 10; the line for 20 to 31; 0 for 19 and 32.
 * run_meaning/specs/Run.antt: running, ran_number, ran_value, run_into. */
uint64_t galdwist_run(const uint64_t *old, size_t n, const uint8_t *stream, size_t k, uint64_t *space, size_t room, uint64_t *value);

/* The merge: the second library after the first, its numbers in histories raised by the count of the first's directory, written to `space`.
 * 1 to 10 where one is no library, the first ahead of the second; 37 where both have a name; 31 where the two together pass a limit; 32 where
 * the space is too small. `value`: words written; the word at fault for 1 to 10; the word of the second's directory for 37; 0 for 31 and 32.
 * `which`: the library that the word is of, 1 or 2; else 0.
 * merge_meaning/specs/Merge.antt: merging, merged_number, merged_value, merged_which, merge_into. */
uint64_t galdwist_merge(const uint64_t *first, size_t n, const uint64_t *second, size_t k, uint64_t *space, size_t room, uint64_t *value,
                        uint64_t *which);

/* The full compile file of a library, GALDWIST_LINE bytes to a line. 1 to 10 where the image is no library; 40 to 43 at a CALL; 44 at a line
 * that does not fit. `first` and `second`: how many lines and calls; the word at fault and 0 for 1 to 10; the card's owner, as its
 * number in the directory, and its sequence number for 40 to 44. compile/specs/Compile.antt: compiling, compiled_number, compiled_first,
 * compiled_second, compile_into. */
uint64_t galdwist_compile(const uint64_t *image, size_t n, uint8_t *out, size_t room, uint64_t *first, uint64_t *second);

/* The fresh library, on which the first run of a library is done. 32 where the space is too small. `value`: words written, or 0.
 * library_fresh/specs/Fresh.antt: freshing, fresh_into, begun_number, begun_value. */
uint64_t galdwist_fresh(uint64_t *space, size_t room, uint64_t *value);

/* The directory, a row of GALDWIST_ROW bytes to an entry, from number 1: the name in 9 columns, blanks after it; what it is (D a deck, C a
 * common deck, S a set, P purged, its name blank); Y where it is yanked, else a blank. 1 to 10 where the image is no library; 53 where the
 * rows do not fit. `value`: the count of entries; the word at fault for 1 to 10; 0 for 53. keeper_directory/specs/Keeper.antt: listing;
 * keeper_card/specs/Naming.antt: show_into, told_number, told_value. */
uint64_t galdwist_directory(const uint64_t *image, size_t n, uint8_t *rows, size_t room, uint64_t *value);

/* A card's name, as NAME.NUMBER, from its owner's number in the directory and its sequence number. 1 to 10 where the image is no library;
 * 53 where it does not fit. `value`: bytes written; the word at fault for 1 to 10; 0 for 53. For an owner that the directory lacks, or a purged
 * one, the name is empty. keeper_card/specs/Naming.antt: naming, show_into, told_number, told_value. */
uint64_t galdwist_card(const uint64_t *image, size_t n, uint64_t owner, uint64_t seq, uint8_t *out, size_t room, uint64_t *value);

#endif
