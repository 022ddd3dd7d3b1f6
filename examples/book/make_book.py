#!/usr/bin/env python3
"""Makes the example filter book: windowed sincs, rounded to words.

    make_book.py             writes the book to standard output
    make_book.py --figures   writes what its three filters do, in decibels

The book's form is a text of decimal words with blanks or line ends between
them; a line that begins with '#' is a comment. The words are those of
document 01, in its order: the sizes N, M, A, B, F; the impulses; the
differences; the level taps; the decimation taps (there "halving taps").

Every word comes from whole numbers and fractions alone. Sines and Bessel
functions are series in fixed point of 160 binary places, so the book is the
same on every machine, whatever its floating point does. Only the figures use
floating point.

What the filters are for (source document 002, section 3): a level is read at
twice the rate of the outputs, and the points so made are decimated by two. At
rate r the asked level l is the one with r / 2^l from 1 up to below 2, so a
level's half sampling rate, its Nyquist frequency, lies from 1/2 up to below 1
of the points' Nyquist frequency, which is the outputs' sampling rate. Where r
is below 1 level 0 stays, and its images come nearer than the filter's stop
band: that case asks for a steeper filter, which this book does not have.

All three filters are Kaiser's window over a sinc. Taps are words over 16384,
so each is off by up to 1/32768; in a list of 81 taps that alone leaves a stop
band of about -65 dB. The windows are chosen to reach that and no further.
"""

import math
import sys
from fractions import Fraction

UNIT = 16384  # a word of this size means one
TAPS = 12  # N, taps per phase: 002, 4.1.4
PHASES = 64  # M, phases: 002, 4.1.4
LEVEL_REACH = 40  # A: 81 level taps, as in 002, 4.1.3
DECIMATION_REACH = 20  # B: 41 decimation taps

# F, points of a fade: 32 outputs, 2/3 ms at 48000 Hz. That is short beside the
# movement of a hand, and a fade makes two values for each point. It is long
# enough that what a change of level adds or takes away, all of it above the
# outputs' pass band, is smeared by no more than 1/64 of the points' rate.
FADE = 64

# A cutoff is where a sinc stops, as a part of the Nyquist frequency of the
# words that its filter reads; beta is the shape of Kaiser's window.

# The interpolation filter passes a level up to 0.9 of its Nyquist frequency.
# The level's images lie above 1.1. Where they come through below 1.55 they do
# no harm: at the highest rates they fold to above 0.9 of the outputs' Nyquist
# frequency, at the lower ones decimation takes them away (002, 3.3-4). So the
# cutoff is as high as the main lobe's end at 1.55 allows, for a flat band.
INTERPOLATION_CUTOFF = Fraction(115, 100)
INTERPOLATION_BETA = Fraction(7)
INTERPOLATION_PASS = 0.9
INTERPOLATION_STOP = 1.55

# The level filter keeps the lower half of a level's band. What it lets through
# between 0.50 and 0.55 folds to above 0.9 of the next level's band. With the
# cutoff at one half every second tap is 0, and has no rounding.
LEVEL_CUTOFF = Fraction(1, 2)
LEVEL_BETA = Fraction(65, 10)
LEVEL_PASS = 0.45
LEVEL_STOP = 0.55

# The decimation filter has half as many taps, so twice the transition at the
# same depth. Its stop band begins at 0.55, so that what is left above the
# outputs' Nyquist frequency folds to above 0.9 of it; the price is paid at the
# top of the pass band, where a hum has next to nothing: at outputs of 48000 Hz
# 0.36 is 17 kHz.
DECIMATION_CUTOFF = Fraction(45, 100)
DECIMATION_BETA = Fraction(64, 10)
DECIMATION_PASS = 0.36
DECIMATION_STOP = 0.55

# ---- fixed point: a whole number over 2^160

PLACES = 160
ONE = 1 << PLACES


def fixed(x):
    """A fraction in fixed point, rounded down."""
    return x.numerator * ONE // x.denominator


def product(a, b):
    return a * b >> PLACES


def arctangent_of_inverse(n):
    """The angle whose tangent is 1/n: 1/n - 1/(3 n^3) + 1/(5 n^5) - .."""
    power, total, k = ONE // n, 0, 0
    while power:
        total += (power if k % 2 == 0 else -power) // (2 * k + 1)
        power //= n * n
        k += 1
    return total


PI = 16 * arctangent_of_inverse(5) - 4 * arctangent_of_inverse(239)


def sine_of_half_turns(x):
    """sin(pi x). x is brought to -1/2..1/2 first, where nothing is lost."""
    x = (x + Fraction(1, 2)) % 2 - Fraction(1, 2)
    x = min(x, 1 - x)
    angle = product(PI, fixed(x))
    square = product(angle, angle)
    term, total, k = angle, 0, 1
    while term:
        total += term
        term = -product(term, square) // (2 * k * (2 * k + 1))
        k += 1
    return total


def bessel(square):
    """I0 of the number with this square: the sum of (square/4)^k / k!^2."""
    quarter = fixed(square / 4)
    term, total, k = ONE, 0, 1
    while term:
        total += term
        term = product(term, quarter) // (k * k)
        k += 1
    return total


def windowed_sinc(t, cutoff, beta, end):
    """At t words from the centre; the window ends at `end`. Not normalised."""
    if abs(t) >= end:
        return 0
    place = Fraction(t) / end
    window = bessel(beta * beta * (1 - place * place))
    if t == 0:
        return product(fixed(cutoff), window)
    sinc = sine_of_half_turns(cutoff * t) * ONE // product(PI, fixed(Fraction(t)))
    return product(sinc, window)


# ---- words

def rounded(values, total):
    """Whole numbers in proportion to the values that add up to `total`: each
    value to the nearest, then those furthest off moved by one where the sum
    asks for it. None is off by one or more."""
    scale = sum(values)
    exact = [Fraction(value * total, scale) for value in values]
    words = [math.floor(x + Fraction(1, 2)) for x in exact]
    missing = total - sum(words)
    step = 1 if missing > 0 else -1
    furthest = sorted(range(len(words)), key=lambda k: step * (words[k] - exact[k]))
    for k in furthest[: abs(missing)]:
        words[k] += step
    return words


def symmetric(values):
    """Words for a symmetric filter, its values and words centre first. Centre
    and both arms add up to 16384, so the centre is even."""
    scale = values[0] + 2 * sum(values[1:])
    centre = 2 * math.floor(Fraction(values[0] * UNIT, 2 * scale) + Fraction(1, 2))
    return [centre] + rounded(values[1:], (UNIT - centre) // 2)


def tap_list(reach, cutoff, beta):
    """The taps 0..reach of a filter by its sinc and window."""
    return symmetric([windowed_sinc(k, cutoff, beta, reach + 1) for k in range(reach + 1)])


def phase_values(q):
    """Phase q of the interpolation filter: the filter at k + q/M, k = 0..N-1,
    of a window that is 0 at 0 and N."""
    half = Fraction(TAPS, 2)
    times = [k + Fraction(q, PHASES) - half for k in range(TAPS)]
    return [windowed_sinc(t, INTERPOLATION_CUTOFF, INTERPOLATION_BETA, half) for t in times]


def impulses():
    """M phases of N words. Each adds up to 16384, so that a steady level is
    kept as it is in every phase. The filter is symmetric in time, at index
    k M + q: phase M - q is phase q read backwards, and phases 0 and M/2 are
    symmetric in themselves."""
    phases = [None] * PHASES
    half = TAPS // 2
    first = symmetric(phase_values(0)[half:])
    phases[0] = [0] + first[:0:-1] + first
    for q in range(1, PHASES // 2):
        phases[q] = rounded(phase_values(q), UNIT)
        phases[PHASES - q] = phases[q][::-1]
    arm = rounded(phase_values(PHASES // 2)[:half], UNIT // 2)
    phases[PHASES // 2] = arm + arm[::-1]
    return phases


def differences(phases):
    """From each phase to the next; after the last comes the first, one tap
    later, with 0 at its end."""
    following = phases[1:] + [phases[0][1:] + [0]]
    return [[b - a for a, b in zip(p, f)] for p, f in zip(phases, following)]


def require(holds, what):
    if not holds:
        sys.exit("make_book.py: " + what)


def tested(phases, level, decimation):
    """Document 01's conditions that the making does not give by itself."""
    words = [word for phase in phases for word in phase] + level + decimation
    require(all(-32768 <= word <= 32767 for word in words), "a word is outside 16 bits")
    require(phases[0][0] == 0, "the first impulse is not 0")
    require(all(sum(map(abs, phase)) <= 65536 for phase in phases), "a phase's sum is too large")
    for taps in (level, decimation):
        magnitudes = [abs(tap) for tap in taps]
        require(2 * sum(magnitudes) - magnitudes[0] <= 32768, "a tap list's sum is too large")
        require(2 * sum(taps) - taps[0] == UNIT, "a tap list does not keep a steady level")
    require(all(sum(phase) == UNIT for phase in phases), "a phase does not keep a steady level")


def book_text(phases, level, decimation):
    def line(words):
        return " ".join(map(str, words))

    lines = ["# A filter book, made by make_book.py: decimal words, 16384 means one."]
    lines += ["# sizes: N (taps per phase), M (phases), A, B, F (points of a fade)"]
    lines += [line([TAPS, PHASES, LEVEL_REACH, DECIMATION_REACH, FADE])]
    lines += ["# impulses, a line for each phase"]
    lines += [line(phase) for phase in phases]
    lines += ["# differences to the next phase, a line for each phase"]
    lines += [line(row) for row in differences(phases)]
    lines += ["# level taps, centre first", line(level)]
    lines += ["# decimation taps, centre first", line(decimation)]
    return "\n".join(lines) + "\n"


# ---- figures, in floating point

def decibels(x):
    return 20 * math.log10(max(abs(x), 1e-12))


def response(taps, f):
    """Of symmetric taps, centre first, at f of the Nyquist frequency."""
    arms = sum(taps[k] * math.cos(math.pi * f * k) for k in range(1, len(taps)))
    return (taps[0] + 2 * arms) / UNIT


def interpolation_response(phases, f):
    """Of the impulse that the phases make with straight lines between them,
    at f of the level's Nyquist frequency."""
    in_time = [phases[q][k] for k in range(TAPS) for q in range(PHASES)]
    half = in_time[TAPS * PHASES // 2 :]
    x = math.pi * f / (2 * PHASES)
    line = 1.0 if x == 0 else math.sin(x) / x
    return response(half, f / PHASES) / PHASES * line * line


def grid(low, high, count):
    return [low + (high - low) * i / count for i in range(count + 1)]


def figure(name, answer, pass_end, stop, stop_end, count):
    band = [decibels(answer(f)) for f in grid(0.0, pass_end, 400)]
    rest = max(decibels(answer(f)) for f in grid(stop, stop_end, count))
    print(f"{name}")
    print(f"  pass band 0 to {pass_end}: {min(band):+.3f} to {max(band):+.3f} dB")
    print(f"  stop band {stop} to {stop_end}: at most {rest:.1f} dB")


def figures(phases, level, decimation):
    print("Frequencies are parts of the Nyquist frequency of the words that a filter reads.")
    # The lines between M phases let through a little about 2 M: it is in this band.
    figure("interpolation", lambda f: interpolation_response(phases, f),
           INTERPOLATION_PASS, INTERPOLATION_STOP, 2 * PHASES + 1, 6500)
    figure("levels", lambda f: response(level, f), LEVEL_PASS, LEVEL_STOP, 1.0, 2000)
    figure("decimation", lambda f: response(decimation, f), DECIMATION_PASS, DECIMATION_STOP, 1.0, 2000)


def main(arguments):
    phases = impulses()
    level = tap_list(LEVEL_REACH, LEVEL_CUTOFF, LEVEL_BETA)
    decimation = tap_list(DECIMATION_REACH, DECIMATION_CUTOFF, DECIMATION_BETA)
    tested(phases, level, decimation)
    if arguments == []:
        sys.stdout.write(book_text(phases, level, decimation))
    elif arguments == ["--figures"]:
        figures(phases, level, decimation)
    else:
        sys.exit("usage: make_book.py [--figures]")


if __name__ == "__main__":
    main(sys.argv[1:])
