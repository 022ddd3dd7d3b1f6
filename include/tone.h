/*
 * tone.h: the driving-tone player, for C99 and C++.
 *
 * A recorded 16-bit hum is played faster or slower, from the store of octave levels
 * that a studio built of it once (tone_builder.h). A store names its levels: with
 * the book it is all that a unit is sent. The calls are in libtone.a, for x86-64;
 * link with -ltone. The archive needs the C library and nothing else. It shares no
 * symbol with libtone_builder.a: a program may link both.
 *
 *   const int32_t book[] = { .. };                  a filter book
 *   const int32_t store[] = { .. };                 a studio's store
 *   int32_t voice[TONE_VOICE_WORDS];
 *   tone_check_store(store, store_words);           0: the store names its T
 *   tone_open(1.0f, store[TONE_STORE_WORD_TOP], voice, TONE_VOICE_WORDS);
 *   tone_glide(voice, TONE_VOICE_WORDS, 2.0f, 48000);
 *   tone_play(voice, .., book, .., store, .., out, out_count, &multiplies);
 *
 * tone_numbers.h has the promise that every call keeps, the rules on pointers,
 * the numbers and the limits of book and store. On x86-64 tone_play takes some
 * 20 KB of stack, every other call less than 2 KB (measured, not proved).
 *
 *
 * A VOICE
 *
 * A voice is TONE_VOICE_WORDS words and has no other state. It may be copied,
 * stored, sent and compared as words; a copy plays on as its original would. A
 * field of 32 bits is one word, a field of 64 bits two, the low one first. All
 * fields are unsigned, the bits of a word being read as such, but for the points
 * of history, which are signed.
 *
 *   words    field
 *   0        T, the top level
 *   1        the old level of a fade; the current level where no fade runs
 *   2        the new level of a fade; the current level where no fade runs
 *   3        i, the points that the fade has made; 0 where no fade runs
 *   4, 5     R, the rate times 2^27
 *   6, 7     R0, the R at which the glide was ordered; 0 where no glide runs
 *   8, 9     R1, the R that the glide leads to; 0 where no glide runs
 *   10       c, the glide's count of outputs; 0 where no glide runs
 *   11       j, the outputs that the glide has made; 0 where no glide runs
 *   12, 13   P, the position, in 2^-28 of a sample of level 0
 *   14..94   the 81 newest points, newest first
 *
 * Every pattern of words is some voice: each call that is lent one accepts it
 * or refuses it by number.
 */

#ifndef TONE_H
#define TONE_H

#include "tone_numbers.h"

#ifdef __cplusplus
extern "C" {
#endif

#define TONE_VOICE_WORDS 95            /* words of a voice */
#define TONE_MOST_OUTPUTS 1048576      /* the most outputs of one play */
#define TONE_MOST_GLIDE 65536          /* the most outputs of one glide, c */
#define TONE_MOST_POSITION ((uint64_t)1 << 60)  /* the highest position, P */
#define TONE_POSITION_BITS 28          /* sample n of level 0 lies at position n << TONE_POSITION_BITS */

/*
 * Where the fields of a voice begin.
 */
enum tone_voice_word {
    TONE_WORD_TOP = 0,
    TONE_WORD_OLD_LEVEL = 1,
    TONE_WORD_NEW_LEVEL = 2,
    TONE_WORD_FADE_STEP = 3,
    TONE_WORD_RATE = 4,
    TONE_WORD_GLIDE_START = 6,
    TONE_WORD_GLIDE_TARGET = 8,
    TONE_WORD_GLIDE_COUNT = 10,
    TONE_WORD_GLIDE_DONE = 11,
    TONE_WORD_POSITION = 12,
    TONE_WORD_HISTORY = 14
};

/*
 * Tests a store, as play does: for a unit that is sent one and opens a voice for
 * it. After 0, word TONE_STORE_WORD_TOP is T. The words of the levels may be
 * anything, and those after them are not looked at.
 *
 * Numbers: 9 where there are fewer than two words, then 8 of S and T, which are
 *          read as signed, then 9 of the length that they call for, then 18.
 * Writes:  nothing.
 *
 * The number is store_number of the store's words (crates/store/specs/Check.antt).
 */
uint32_t tone_check_store(const int32_t *store, size_t store_words);

/*
 * Opens a voice at a rate, for stores of top level `top`: at position 0, on the
 * level of the rate's octave (level l has the rates from 2^l up to below 2^(l+1),
 * level 0 those below 1 too), with no glide, no fade and a silent history. A rate
 * of 1 is the recorded speed. R is rate x 2^27, with nothing lost.
 *
 * Numbers: 28, then 8 of T, then 10.
 * Writes:  the voice: the fresh one, or after 8 and 10 the zero record, 95 words
 *          of 0. Every later call refuses the zero record.
 *
 * Number and voice are those of open_crossing (crates/marshal/specs/Calls.antt),
 * over open_answer (crates/player/specs/Calls.antt).
 */
uint32_t tone_open(float rate, uint32_t top, int32_t *voice, size_t voice_words);

/*
 * Orders a jump to a rate: sets R, and ends a glide that runs.
 *
 * Numbers: 28, then 13 15 16 17 of the voice, then 10.
 * Writes:  the voice. Words other than 4 to 11 keep their values.
 *
 * Number and voice are those of crossing (crates/marshal/specs/Calls.antt), over
 * order_answer (crates/player/specs/Calls.antt).
 */
uint32_t tone_jump(int32_t *voice, size_t voice_words, float rate);

/*
 * Orders a glide over `count` outputs from the present R to a rate. Output j of
 * it has R0 + floor((R1 - R0) x j / c); the last one has R1. R stays until the
 * next output.
 *
 * Numbers: 28, then 13 15 16 17 of the voice, then 10, then 11.
 * Writes:  the voice. Words other than 6 to 11 keep their values.
 *
 * Number and voice are those of crossing (crates/marshal/specs/Calls.antt), over
 * order_answer (crates/player/specs/Calls.antt).
 */
uint32_t tone_glide(int32_t *voice, size_t voice_words, float rate, uint32_t count);

/*
 * Sets the position, in 2^-28 of a sample of level 0, and nothing else.
 *
 * Numbers: 28, then 13 15 16 17 of the voice, then 12.
 * Writes:  the voice. Words other than 12 and 13 keep their values.
 *
 * Number and voice are those of crossing (crates/marshal/specs/Calls.antt), over
 * seek_answer (crates/player/specs/Calls.antt).
 */
uint32_t tone_seek(int32_t *voice, size_t voice_words, uint64_t position);

/*
 * Fills the whole output with the voice's next samples, and counts the multiplies
 * that this takes. S and T are those of the store's header. A count of 0 outputs
 * is accepted and leaves the voice as it is. The levels may hold anything: a word
 * of level j beyond -2^(23+j)..2^(23+j) is read as that limit.
 *
 * Where no fade runs and the rate asks for another level than the current one, a
 * fade to that level begins. Upwards a rate asks for the level of its octave. The
 * current level l stays, downwards, until 16 x R < 15 x 2^(27+l), which is 15/16
 * of where its octave begins; then the level of the rate's octave is asked for,
 * which may lie several below. So a rate that trembles across an octave takes no
 * fade each time.
 *
 * The multiply count is 2N for each level value made and 2B + 1 for each output. A
 * point makes one level value, and in a fade two, to the fade's last point. So it
 * is out_count x (4N + 2B + 1) for a block without fades, and never more than
 * out_count x (8N + 2B + 1), which is below 2^29. The counts of plays add up: that
 * of a play that is cut in two is the sum of the parts (theorems bounded, steady
 * and multiplies-+, crates/multiplies/proofs/Multiplies.antt).
 *
 * Numbers: 28, then 1 2 3 4 5 6 7 of the book, then 9 8 9 18 of the store, as
 *          tone_check_store gives them, then 13 of the voice, then 19, then
 *          14 15 16 17 of the voice, then 11.
 * Writes:  every output word, the voice, and the multiply count; a refused call
 *          writes a multiply count of 0 and nothing else.
 *
 * Number, voice, multiply count and output are those of play_crossing
 * (crates/marshal/specs/Calls.antt), over play_answer
 * (crates/player/specs/Calls.antt).
 *
 * THE PROMISE OF A WHOLE DRIVE (theorem demand3, crates/drive/proofs/Theorem.antt).
 *
 * Take one accepted book, one recording and the store that tone_build made of
 * both for top level T, and let nobody write to book and store meanwhile. Take
 * any list of tone_jump, tone_glide, tone_seek and tone_play calls, refused ones
 * among them, that starts from the voice of an accepted tone_open for this T and
 * gives each call the voice that the last one left, every play being lent this
 * book and store.
 *  - Each sample that any play of the list wrote lies within
 *    (126 + 4 x 2^T) / 256 of one 16-bit step of the exact sum, limited to 16
 *    bits: 130, 134, 142, 158 or 190 of 256 for T = 0, 1, 2, 3 or 4. The exact
 *    sum has unrounded levels, coefficients, fades and decimation, at the
 *    positions and rates that the opening and the calls' arguments fix.
 *  - Two lists from the same opening write the same samples in the same order,
 *    and end with the same voice, whenever they have the same accepted calls
 *    other than play, in the same order, with as many samples before each of
 *    these and as many in all. So it does not matter how a drive is cut into
 *    plays.
 */
uint32_t tone_play(int32_t *voice, size_t voice_words,
                   const int32_t *book, size_t book_words,
                   const int32_t *store, size_t store_words,
                   int16_t *out, size_t out_count,
                   uint64_t *multiplies);

#ifdef __cplusplus
}
#endif

#endif
