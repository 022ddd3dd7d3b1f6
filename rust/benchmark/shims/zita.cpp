// zita-resampler's resampler for rates that vary, mono, 24 taps at rate 1.

#include <zita-resampler/vresampler.h>

#include <cstddef>
#include <new>

namespace {

// Half the taps at rate 1.
constexpr unsigned half_length = 12;

struct State {
    VResampler resampler;
    // The rate that its filter was made for.
    double rate;
};

}

extern "C" void *zita_open(double rate)
{
    State *state = new (std::nothrow) State;
    if (state == nullptr) {
        return nullptr;
    }
    state->rate = rate;
    if (state->resampler.setup(1.0 / rate, 1, half_length) != 0) {
        delete state;
        return nullptr;
    }
    return state;
}

// Samples used for `out_count` outputs at a rate, or -1.
extern "C" std::ptrdiff_t zita_play(void *handle, double rate, const float *in, std::ptrdiff_t in_count, float *out, std::ptrdiff_t out_count)
{
    State *state = static_cast<State *>(handle);
    VResampler &resampler = state->resampler;
    resampler.set_rratio(state->rate / rate);
    resampler.inp_data = const_cast<float *>(in);
    resampler.inp_count = static_cast<unsigned>(in_count);
    resampler.out_data = out;
    resampler.out_count = static_cast<unsigned>(out_count);
    if (resampler.process() != 0 || resampler.out_count != 0) {
        return -1;
    }
    return in_count - static_cast<std::ptrdiff_t>(resampler.inp_count);
}

extern "C" void zita_close(void *handle)
{
    delete static_cast<State *>(handle);
}
