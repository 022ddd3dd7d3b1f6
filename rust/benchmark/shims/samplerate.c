/* libsamplerate, mono, by its fastest sinc converter. */

#include <samplerate.h>
#include <stddef.h>

void *samplerate_open(double rate)
{
    int error = 0;
    (void)rate;
    return src_new(SRC_SINC_FASTEST, 1, &error);
}

/* Samples used for `out_count` outputs at a rate, or -1. */
ptrdiff_t samplerate_play(void *state, double rate, const float *in, ptrdiff_t in_count, float *out, ptrdiff_t out_count)
{
    SRC_DATA data = {0};
    data.data_in = in;
    data.input_frames = in_count;
    data.data_out = out;
    data.output_frames = out_count;
    data.src_ratio = 1.0 / rate;
    if (src_process(state, &data) != 0 || data.output_frames_gen != out_count) {
        return -1;
    }
    return data.input_frames_used;
}

void samplerate_close(void *state)
{
    src_delete(state);
}
