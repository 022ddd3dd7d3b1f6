/*
 * Builds and plays three of the bench cases of document 01, with its book K, and
 * shows a refusal. From the repository's root, once `bash examples/archive.sh tone_builder`
 * and `bash examples/archive.sh tone` have written the archives:
 *
 *   gcc -std=c99 -Iinclude examples/c/bench_cases.c -Ltarget/staticlib -ltone_builder -ltone -o bench_cases
 *   ./bench_cases
 *
 * It prints what bench_cases.txt holds.
 */
#include <stdio.h>
#include <stdlib.h>
#include <string.h>

#include "tone.h"
#include "tone_builder.h"

#define BOOK_WORDS 11
#define MOST_STORE_WORDS 16
#define MOST_PLAYED 4

/* A book, and the store that it made of a recording. */
struct hum {
    int32_t book[BOOK_WORDS];
    int32_t store[MOST_STORE_WORDS];
    size_t store_words;
};

/* Ends the program where a call that must be accepted is refused. */
static void must(const char *call, uint32_t number)
{
    if (number != TONE_ACCEPTED) {
        fprintf(stderr, "%s: refused %lu\n", call, (unsigned long)number);
        exit(EXIT_FAILURE);
    }
}

/* Book K with a fade of `fade` points: straight lines between the samples, and
 * no filtering of the levels. */
static void build(struct hum *hum, int32_t fade, const int16_t *samples, size_t count, uint32_t top)
{
    const int32_t book[BOOK_WORDS] = {2, 1, 0, 0, fade, 0, 16384, 16384, -16384, 16384, 16384};

    memcpy(hum->book, book, sizeof book);
    must("tone_check", tone_check(hum->book, BOOK_WORDS));
    hum->store_words = tone_store_words(count, top);
    if (hum->store_words > MOST_STORE_WORDS) {
        fprintf(stderr, "the store needs %lu words\n", (unsigned long)hum->store_words);
        exit(EXIT_FAILURE);
    }
    must("tone_build", tone_build(hum->book, BOOK_WORDS, samples, count, top, hum->store, hum->store_words));
}

/* Plays `count` outputs and prints them after the case's letter. */
static void play(char letter, int32_t *voice, const struct hum *hum, size_t count)
{
    int16_t out[MOST_PLAYED];
    uint64_t multiplies;
    size_t k;

    must("tone_play", tone_play(voice, TONE_VOICE_WORDS, hum->book, BOOK_WORDS, hum->store, hum->store_words, out,
                                count, &multiplies));
    printf("%c", letter);
    for (k = 0; k < count; k++)
        printf(" %d", out[k]);
    printf("\n");
}

static void case_a(void)
{
    const int16_t samples[3] = {0, 1000, 2000};
    struct hum hum;
    int32_t voice[TONE_VOICE_WORDS];

    build(&hum, 1, samples, 3, 0);
    must("tone_open", tone_open(1.0f, 0, voice, TONE_VOICE_WORDS));
    play('A', voice, &hum, 4);
}

static void case_b(void)
{
    const int16_t samples[3] = {0, 1000, 2000};
    struct hum hum;
    int32_t voice[TONE_VOICE_WORDS];

    build(&hum, 1, samples, 3, 1);
    must("tone_open", tone_open(2.0f, 1, voice, TONE_VOICE_WORDS));
    play('B', voice, &hum, 3);
}

/* The jump crosses an octave: a fade of 4 points leads to level 1. */
static void case_c(void)
{
    const int16_t samples[4] = {0, 1000, 0, 1000};
    struct hum hum;
    int32_t voice[TONE_VOICE_WORDS];

    build(&hum, 4, samples, 4, 1);
    must("tone_open", tone_open(1.0f, 1, voice, TONE_VOICE_WORDS));
    must("tone_jump", tone_jump(voice, TONE_VOICE_WORDS, 2.0f));
    play('C', voice, &hum, 2);
    printf("level %ld is then current\n", (long)voice[TONE_WORD_OLD_LEVEL]);
}

/* A rate of 4 is too high for top level 1. The voice stays as it was. */
static void refusal(void)
{
    int32_t voice[TONE_VOICE_WORDS];
    int32_t before[TONE_VOICE_WORDS];
    uint32_t number;

    must("tone_open", tone_open(1.0f, 1, voice, TONE_VOICE_WORDS));
    memcpy(before, voice, sizeof voice);
    number = tone_jump(voice, TONE_VOICE_WORDS, 4.0f);
    printf("jump to 4: refused %lu%s\n", (unsigned long)number, number == TONE_RATE ? ", the rate is out of range" : "");
    printf("the voice is %s\n", memcmp(before, voice, sizeof voice) == 0 ? "as it was" : "changed");
}

int main(void)
{
    case_a();
    case_b();
    case_c();
    refusal();
    return EXIT_SUCCESS;
}
