/*
 * A studio's program: tests books, asks how long stores are, builds the stores of
 * document 01's bench cases, with its book K, and draws the test hum's first
 * samples. It knows no player. From the
 * repository's root, once `bash examples/archive.sh tone_builder` has written the archive:
 *
 *   gcc -std=c99 -Iinclude examples/c/studio.c -Ltarget/staticlib -ltone_builder -o studio
 *   ./studio
 *
 * It prints what studio.txt holds; unit.c plays the stores of B and C.
 */
#include <stdio.h>
#include <stdlib.h>
#include <string.h>

#include "tone_builder.h"

#define BOOK_WORDS 11
#define LEVEL_TAP 9 /* where h[0] stands in book K */

/* Straight lines between the samples, and no filtering of the levels. */
static const int32_t book_k[BOOK_WORDS] = {2, 1, 0, 0, 1, 0, 16384, 16384, -16384, 16384, 16384};

static void test_books(void)
{
    printf("book K: number %lu\n", (unsigned long)tone_check(book_k, BOOK_WORDS));
    printf("without its last word: number %lu\n", (unsigned long)tone_check(book_k, BOOK_WORDS - 1));
}

static void print_length(size_t sample_count, uint32_t top)
{
    printf("S %lu, T %lu: %lu words\n", (unsigned long)sample_count, (unsigned long)top,
           (unsigned long)tone_store_words(sample_count, top));
}

/* Builds a store of the length that it needs, and prints its words after the
 * case's letter: S, T, the lengths of the levels, then the levels. */
static void build(char letter, int32_t level_tap, const int16_t *samples, size_t sample_count, uint32_t top)
{
    int32_t book[BOOK_WORDS];
    size_t words = tone_store_words(sample_count, top);
    int32_t *store = (int32_t *)malloc(words * sizeof *store);
    uint32_t number;
    size_t k;

    if (words == 0 || store == NULL) {
        fprintf(stderr, "%c: no store\n", letter);
        exit(EXIT_FAILURE);
    }
    memcpy(book, book_k, sizeof book);
    book[LEVEL_TAP] = level_tap;
    number = tone_build(book, BOOK_WORDS, samples, sample_count, top, store, words);
    if (number != TONE_ACCEPTED) {
        fprintf(stderr, "%c: refused %lu\n", letter, (unsigned long)number);
        exit(EXIT_FAILURE);
    }
    printf("%c", letter);
    for (k = 0; k < words; k++)
        printf(" %ld", (long)store[k]);
    printf("\n");
    free(store);
}

/* A store that is one word too short is refused, and no word of it is written. */
static void refusal(void)
{
    const int16_t samples[3] = {0, 1000, 2000};
    const int32_t before[8] = {7, 7, 7, 7, 7, 7, 7, 7};
    int32_t store[8] = {7, 7, 7, 7, 7, 7, 7, 7};
    uint32_t number = tone_build(book_k, BOOK_WORDS, samples, 3, 1, store, 8);

    printf("B in 8 words: number %lu%s\n", (unsigned long)number,
           number == TONE_STORE_SHORT ? ", the store is shorter than its header and levels" : "");
    printf("the store is %s\n", memcmp(store, before, sizeof store) == 0 ? "as it was" : "changed");
}

/* The first samples of the test hum, in two calls: the second goes on where the
 * first one ended. */
static void test_hum(void)
{
    int16_t samples[8];
    uint32_t state = tone_test_hum(0, samples, 5);
    size_t k;

    state = tone_test_hum(state, samples + 5, 3);
    printf("test hum:");
    for (k = 0; k < 8; k++)
        printf(" %d", samples[k]);
    printf(", state %lu\n", (unsigned long)state);
}

int main(void)
{
    const int16_t rising[3] = {0, 1000, 2000};
    const int16_t toothed[4] = {0, 1000, 0, 1000};
    const int16_t one[1] = {1}, minus_one[1] = {-1};
    const int16_t highest[3] = {32767, 32767, 32767}, lowest[3] = {-32768, -32768, -32768};

    test_books();
    print_length(3, 1);
    print_length(1, 4);
    print_length(TONE_MOST_SAMPLES, TONE_MOST_TOP);
    print_length(3, TONE_MOST_TOP + 1);
    build('A', 16384, rising, 3, 0);
    build('B', 16384, rising, 3, 1);
    build('C', 16384, toothed, 4, 1);
    build('F', 32, one, 1, 1);
    build('F', 32, minus_one, 1, 1);
    build('G', 16384, highest, 3, 0);
    build('G', 16384, lowest, 3, 0);
    refusal();
    test_hum();
    return EXIT_SUCCESS;
}
