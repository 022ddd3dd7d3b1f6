/*
 * tone_builder.h: the driving tone's level builder, for C99 and C++. It is what a
 * studio needs to prepare a recording, and knows no player.
 *
 * A filter book is tested, and the octave levels of a recorded 16-bit hum are
 * built into a store, which a unit plays (tone.h). Where no recording is at hand
 * there is a test hum. The calls are in libtone_builder.a, for x86-64; link with
 * -ltone_builder. The archive needs the C library and nothing else. It shares no
 * symbol with libtone.a: a program may link both.
 *
 *   const int32_t book[] = { .. };                  a filter book
 *   tone_check(book, book_words);
 *   size_t words = tone_store_words(sample_count, top);
 *   int32_t *store = malloc(words * sizeof *store);
 *   tone_build(book, book_words, samples, sample_count, top, store, words);
 *
 * tone_numbers.h has the promise that every call keeps, the rules on pointers,
 * the numbers and the limits. On x86-64 a call takes less than 5 KB of stack
 * (measured, not proved).
 */

#ifndef TONE_BUILDER_H
#define TONE_BUILDER_H

#include "tone_numbers.h"

#ifdef __cplusplus
extern "C" {
#endif

/*
 * Tests a filter book.
 *
 * Numbers: 1 2 3 4 5 6 7.
 * Writes:  nothing.
 *
 * The number is book_number of the book's words (crates/book/specs/Check.antt).
 */
uint32_t tone_check(const int32_t *book, size_t book_words);

/*
 * The words of a store for `sample_count` samples and the levels 0..`top`: 3 + T
 * of its header, then S and its halves, each rounded up. 0 where S is outside
 * 1..TONE_MOST_SAMPLES or T above TONE_MOST_TOP.
 *
 * The answer is store_words of both (crates/tone_builder/specs/Store.antt).
 */
size_t tone_store_words(size_t sample_count, uint32_t top);

/*
 * Builds the store of a recording: S, which is `sample_count`, then T, which is
 * `top`, then the T+1 lengths of the levels 0..T, then these octave levels, one
 * after another. So a store says all that a unit must know to play it.
 *
 * Numbers: 1 2 3 4 5 6 7, then 8 of S and T, then 9.
 * Writes:  the first tone_store_words(sample_count, top) words of the store. The
 *          words after them are left.
 *
 * Number and store are those of build_answer (crates/levels/specs/Build.antt).
 * Words of level j lie within -2^(23+j)..2^(23+j).
 */
uint32_t tone_build(const int32_t *book, size_t book_words,
                    const int16_t *samples, size_t sample_count, uint32_t top,
                    int32_t *store, size_t store_words);

/*
 * The test hum: a recording that anyone can make again. Its state is 32 bits, and
 * the next one is 1664525 x state + 1013904223, modulo 2^32; a sample is the new
 * state divided by 65536, rounded down, minus 32768. From state 0 it begins with
 * -17298.
 *
 * Numbers: none; every state and every count is taken.
 * Writes:  all `sample_count` samples.
 * Returns: the last state, from which another call goes on; with no samples it is
 *          the one that was given.
 *
 * State and samples are those of draw_answer (crates/test_hum/specs/Hum.antt).
 */
uint32_t tone_test_hum(uint32_t state, int16_t *samples, size_t sample_count);

#ifdef __cplusplus
}
#endif

#endif
