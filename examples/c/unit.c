/*
 * A unit's program: plays bench cases B and C of document 01 from stores that a
 * studio built, as constants. It knows no level builder. From the repository's
 * root, once `bash examples/archive.sh tone` has written the archive:
 *
 *   gcc -std=c99 -Iinclude examples/c/unit.c -Ltarget/staticlib -ltone -o unit
 *   ./unit
 *
 * It prints what unit.txt holds.
 */
#include <stdio.h>
#include <stdlib.h>

#include "tone.h"

#define BOOK_WORDS 11
#define MOST_PLAYED 4

/* Book K, and book K with a fade of 4 points. */
static const int32_t book_k[BOOK_WORDS] = {2, 1, 0, 0, 1, 0, 16384, 16384, -16384, 16384, 16384};
static const int32_t book_k4[BOOK_WORDS] = {2, 1, 0, 0, 4, 0, 16384, 16384, -16384, 16384, 16384};

/* The stores of cases B and C, as studio.c prints them. */
static const int32_t store_b[] = {3, 1, 3, 2, 0, 256000, 512000, 0, 512000};
static const int32_t store_c[] = {4, 1, 4, 2, 0, 256000, 0, 256000, 0, 0};

/* What plays are lent. */
struct hum {
    const int32_t *book;
    const int32_t *store;
    size_t store_words;
};

static const struct hum hum_b = {book_k, store_b, sizeof store_b / sizeof *store_b};
static const struct hum hum_c = {book_k4, store_c, sizeof store_c / sizeof *store_c};

/* Ends the program where a call that must be accepted is refused. */
static void must(const char *call, uint32_t number)
{
    if (number != TONE_ACCEPTED) {
        fprintf(stderr, "%s: refused %lu\n", call, (unsigned long)number);
        exit(EXIT_FAILURE);
    }
}

/* Opens a voice for a store. T stands in the store, which is tested first. */
static void open_voice(int32_t *voice, float rate, const struct hum *hum)
{
    must("tone_check_store", tone_check_store(hum->store, hum->store_words));
    must("tone_open", tone_open(rate, (uint32_t)hum->store[TONE_STORE_WORD_TOP], voice, TONE_VOICE_WORDS));
}

static uint32_t play(int32_t *voice, const struct hum *hum, int16_t *out, size_t count, uint64_t *multiplies)
{
    return tone_play(voice, TONE_VOICE_WORDS, hum->book, BOOK_WORDS, hum->store, hum->store_words, out, count, multiplies);
}

/* Plays `count` outputs, `step` or fewer at a time, and prints them after the
 * case's letter, and the sum of their multiplies. */
static void print_played(char letter, int32_t *voice, const struct hum *hum, size_t count, size_t step)
{
    int16_t out[MOST_PLAYED];
    uint64_t multiplies, sum = 0;
    size_t done, k;

    for (done = 0; done < count; done += step) {
        must("tone_play", play(voice, hum, out + done, count - done < step ? count - done : step, &multiplies));
        sum += multiplies;
    }
    printf("%c", letter);
    for (k = 0; k < count; k++)
        printf(" %d", out[k]);
    printf("\n%lu multiplies\n", (unsigned long)sum);
}

/* However a drive is cut into plays, its samples and the sum of its multiplies
 * are the same. */
static void case_b(void)
{
    int32_t voice[TONE_VOICE_WORDS];

    open_voice(voice, 2.0f, &hum_b);
    print_played('B', voice, &hum_b, 3, 3);
    open_voice(voice, 2.0f, &hum_b);
    print_played('B', voice, &hum_b, 3, 1);
}

/* The jump crosses an octave: a fade of 4 points leads to level 1, and makes two
 * level values at each. */
static void case_c(void)
{
    int32_t voice[TONE_VOICE_WORDS];

    open_voice(voice, 1.0f, &hum_c);
    must("tone_jump", tone_jump(voice, TONE_VOICE_WORDS, 2.0f));
    print_played('C', voice, &hum_c, 2, 2);
    printf("level %ld is then current\n", (long)voice[TONE_WORD_OLD_LEVEL]);
}

/* A damaged voice is refused by its number: nothing is written but a multiply
 * count of 0. */
static void refusal(void)
{
    int32_t voice[TONE_VOICE_WORDS];
    int16_t out[2] = {77, 77};
    uint64_t multiplies;
    uint32_t number;

    open_voice(voice, 1.0f, &hum_b);
    voice[TONE_WORD_POSITION + 1] = -1;
    number = play(voice, &hum_b, out, 2, &multiplies);
    printf("a voice beyond 2^60: number %lu, %lu multiplies\n", (unsigned long)number, (unsigned long)multiplies);
    printf("the output is %s\n", out[0] == 77 && out[1] == 77 ? "as it was" : "changed");
}

int main(void)
{
    case_b();
    case_c();
    refusal();
    return EXIT_SUCCESS;
}
