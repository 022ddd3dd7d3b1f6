/* libsoxr, mono, in its mode for rates that vary: it asks for samples as it needs them. */

#include <soxr.h>
#include <stddef.h>
#include <stdlib.h>

/* The most samples that it asks for at once. */
#define MOST_SAMPLES 256

struct state {
    soxr_t resampler;
    const float *in;
    size_t in_count;
    size_t used;
};

static size_t more_samples(void *handle, soxr_cbuf_t *buffer, size_t wanted)
{
    struct state *state = handle;
    size_t left = state->in_count - state->used;
    size_t count = wanted < left ? wanted : left;
    *buffer = state->in + state->used;
    state->used += count;
    return count;
}

void soxr_shim_close(void *handle)
{
    struct state *state = handle;
    if (state != NULL) {
        soxr_delete(state->resampler);
        free(state);
    }
}

void *soxr_shim_open(double rate)
{
    soxr_error_t error = 0;
    soxr_quality_spec_t quality = soxr_quality_spec(SOXR_HQ, SOXR_VR);
    struct state *state = calloc(1, sizeof *state);
    /* The highest rate that it is prepared for: it is slower the higher that lies above the rate, so the octave's end. */
    double highest = 1.0;
    while (highest < 1.1 * rate) {
        highest *= 2.0;
    }
    if (state == NULL) {
        return NULL;
    }
    state->resampler = soxr_create(highest, 1.0, 1, &error, NULL, &quality, NULL);
    if (error || soxr_set_io_ratio(state->resampler, rate, 0)
        || soxr_set_input_fn(state->resampler, more_samples, state, MOST_SAMPLES)) {
        soxr_shim_close(state);
        return NULL;
    }
    return state;
}

/* Samples used for `out_count` outputs at a rate, or -1. */
ptrdiff_t soxr_shim_play(void *handle, double rate, const float *in, ptrdiff_t in_count, float *out, ptrdiff_t out_count)
{
    struct state *state = handle;
    state->in = in;
    state->in_count = (size_t)in_count;
    state->used = 0;
    if (soxr_set_io_ratio(state->resampler, rate, 0)) {
        return -1;
    }
    if (soxr_output(state->resampler, out, (size_t)out_count) != (size_t)out_count) {
        return -1;
    }
    return (ptrdiff_t)state->used;
}
