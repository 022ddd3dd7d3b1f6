/*
 * tone_numbers.h: what tone_builder.h and tone.h share. Include the one that is
 * needed, or both in any order; each brings this header.
 *
 *
 * THE PROMISE OF EVERY CALL
 *
 * For every input that keeps the rules on pointers below, a call ends, and its
 * number and every word that it leaves are fixed by its arguments alone. Words,
 * counts, positions and rates may be anything, NaN among the rates. This is
 * proved: each call equals its definition, which is named beside it. The letters
 * N, M, A, B, F, S, T, R, P, i, c and j are those of the player's rules (document
 * 01).
 *
 * A call that has numbers returns TONE_ACCEPTED, which is 0, or the number of a
 * refusal. It lists its numbers in their order, and returns the first whose
 * condition holds.
 *
 * A refused call writes nothing: voice, store and output are as they came. The
 * exceptions are tone_open, which says what it writes then, and the multiply
 * count of tone_play, which is then 0.
 *
 * No call allocates, prints, waits, keeps a pointer or has a state of its own.
 * Calls may run at the same time where none writes what another reads or
 * writes: many voices can play from one book and one store.
 *
 *
 * POINTERS
 *
 * An array is given as a pointer to its first element and its count of elements.
 *  - The pointer is not null and is aligned for its type, and the array is valid
 *    for the whole count. This holds for a count of 0 as well: pass a pointer to
 *    some element.
 *  - An array that is not const overlaps no other array of the call.
 * A pointer without a count is to one element, under the same rules.
 *
 *
 * A BOOK AND A STORE
 *
 * A filter book is its sizes N, M, A, B, F; M x N impulses and M x N differences,
 * phase q tap k at q x N + k; A+1 level taps h and B+1 decimation taps g, centre
 * first.
 *
 * A store holds the octave levels 0..T of a recording of S samples and begins
 * with a header that names them. All its words are signed.
 *
 *   words      what
 *   0          S, the count of samples
 *   1          T, the top level
 *   2..2+T     the lengths of the levels 0..T: S, then each the half of the one
 *              before it, rounded up
 *   3+T..      level 0, level 1 and so on to level T, one after another
 *
 * Words after the levels are neither written nor looked at.
 */

#ifndef TONE_NUMBERS_H
#define TONE_NUMBERS_H

#include <stddef.h>
#include <stdint.h>

/* The numbers that calls return. The level builder's are 0 to 9. */
enum tone_number {
    TONE_ACCEPTED = 0,

    /* of the book */
    TONE_BOOK_SHORT = 1,               /* the book is shorter than 5 words */
    TONE_BOOK_SIZE = 2,                /* a size is outside its range */
    TONE_BOOK_LENGTH = 3,              /* the book's length is not the one that its sizes give */
    TONE_BOOK_COEFFICIENT = 4,         /* an impulse or tap is outside -32768..32767 */
    TONE_BOOK_FIRST_IMPULSE = 5,       /* the first impulse, G_0[0], is not 0 */
    TONE_BOOK_DIFFERENCE = 6,          /* a difference is wrong */
    TONE_BOOK_SUM = 7,                 /* a sum of absolute values is too large */

    /* of the other arguments */
    TONE_SAMPLES_OR_TOP = 8,           /* S is outside 1..1048576, or T outside 0..4 */
    TONE_STORE_SHORT = 9,              /* the store is shorter than its header and levels */
    TONE_RATE = 10,                    /* the rate is not from 1/16 up to below 2^(T+1) */
    TONE_COUNT = 11,                   /* a glide's count is outside 1..65536, a play's 0..1048576 */
    TONE_POSITION = 12,                /* the position is beyond 2^60 */
    TONE_STORE_LEVEL_LENGTH = 18,      /* a level length in the store's header is not the one that its S and T give */

    /* of the voice */
    TONE_VOICE_LEVEL = 13,             /* T is above 4, or a level above T */
    TONE_VOICE_FADE = 14,              /* i is 0 with two levels unequal, above 0 with them equal, or at least F */
    TONE_VOICE_RATE = 15,              /* R, R0 or R1 is outside 2^23..2^(28+T)-1, c above 65536, or j not below c;
                                          where c is 0 only R is looked at */
    TONE_VOICE_POSITION = 16,          /* P is beyond 2^60 */
    TONE_VOICE_HISTORY = 17,           /* a point is beyond -2^29..2^29 */
    TONE_VOICE_TOP = 19,               /* T is not the store's */
    TONE_VOICE_LENGTH = 28             /* the voice's count of words is not TONE_VOICE_WORDS */
};

/* Where the fields of a store's header stand. */
enum tone_store_word {
    TONE_STORE_WORD_SAMPLES = 0,
    TONE_STORE_WORD_TOP = 1,
    TONE_STORE_WORD_LENGTHS = 2
};

#define TONE_MOST_BOOK_WORDS 6231      /* words of the longest accepted book */
#define TONE_MOST_SAMPLES 1048576      /* the most samples of a recording, S */
#define TONE_MOST_TOP 4                /* the highest top level, T */
#define TONE_MOST_STORE_WORDS 2031623  /* words of the store for the most samples and the highest top level */

#endif
