//! Random inputs: books, recordings, lists of calls and voices, whole and
//! damaged, with a leaning towards every limit. Stores have a module of their own.

use crate::call::Call;
use crate::record::{
    set_wide, wide, words_of, Words, FADE, GLIDE_COUNT, GLIDE_DONE, GLIDE_FROM, GLIDE_TO, HISTORY,
    LEVEL, NEXT_LEVEL, POSITION, RATE, TOP,
};
use crate::EDITION;
use renderer::book::{assemble, book_number, FIRST_N};
use renderer::exact::Setting;
use renderer::levels::level_lengths;
use renderer::random::{
    bad_rate, free_voice, random_book, random_calls, random_rate, random_recording, wild_i32,
    wild_u64, Rng,
};
use renderer::voice::{rate_out_of_range, POINTS};
use tone::{MOST_OUTPUTS, VOICE_WORDS};

/// A sample of level 0, in the unit of positions.
const SAMPLE: u64 = 1 << 28;

/// An unsigned 32-bit number that is often near an edge.
pub fn wild_u32(rng: &mut Rng) -> u32 {
    wild_i32(rng) as u32
}

// ---------------------------------------------------------------- books

/// A random accepted book; one in three has its sums and taps at their limits.
pub fn accepted_book(rng: &mut Rng) -> Vec<i32> {
    match rng.below(3) {
        0 => limit_book(rng),
        _ => random_book(rng, FIRST_N),
    }
}

/// An accepted book of extreme sizes whose sums are 65536 and 32768, or just
/// below, and whose taps are often as large as they can be.
fn limit_book(rng: &mut Rng) -> Vec<i32> {
    let sizes = [
        rng.pick(&[2, 4, 24]),
        rng.pick(&[1, 2, 64, 128]),
        rng.pick(&[0, 1, 40]),
        rng.pick(&[0, 1, 40]),
        rng.pick(&[1, 2, 255, 256]),
    ];
    let n = sizes[0] as usize;
    let mut impulses = Vec::new();
    for q in 0..sizes[1] {
        let free = if q == 0 { n - 1 } else { n };
        impulses.extend(vec![0; n - free]);
        impulses.extend(limit_phase(rng, free));
    }
    let h = limit_taps(rng, sizes[2] as usize);
    let g = limit_taps(rng, sizes[3] as usize);
    assemble(sizes, &impulses, &h, &g)
}

/// `free` impulses with a sum of magnitudes of at most 65536.
fn limit_phase(rng: &mut Rng, free: usize) -> Vec<i32> {
    let each = (65536 / free as i32).min(32767);
    let mut phase = match rng.below(4) {
        0 => vec![each; free],
        1 => vec![-each; free],
        2 => (0..free).map(|_| rng.pick(&[each, -each])).collect(),
        _ => vec![0; free],
    };
    if phase[0] != 0 {
        return phase;
    }
    let large: &[i32] = match rng.below(6) {
        0 => &[-32768, -32768],
        1 => &[32767, 32767, 1, -1],
        2 => &[-32768, 32767, 1],
        3 => &[32767, -32768],
        4 => &[16384],
        _ => &[],
    };
    let start = rng.below(free as u64) as usize;
    for (k, impulse) in large.iter().take(free).enumerate() {
        phase[(start + k) % free] = *impulse;
    }
    phase
}

/// `outer` + 1 taps, the centre first, whose sum is at its limit.
fn limit_taps(rng: &mut Rng, outer: usize) -> Vec<i32> {
    let mut taps = vec![0; outer + 1];
    let sign = rng.pick(&[1, -1]);
    if outer == 0 || rng.one_in(4) {
        taps[0] = rng.pick(&[-32768, 32767]);
    } else if rng.one_in(3) {
        taps[1 + rng.below(outer as u64) as usize] = 16384 * sign;
    } else {
        let each = 16384 / (outer as i32 + 1);
        for tap in &mut taps[1..] {
            *tap = each * rng.pick(&[sign, sign, -1]);
        }
        taps[0] = (32768 - 2 * each * outer as i32) * sign;
    }
    taps
}

/// A book damaged for one of 1 to 7, and now and then for a second one, so that
/// the order of the tests is seen. What it comes to is the check's to say: some
/// of it is still accepted.
pub fn damaged_book(rng: &mut Rng, book: &[i32]) -> Vec<i32> {
    let mut words = book.to_vec();
    for _ in 0..1 + u64::from(rng.one_in(3)) {
        match rng.below(9) {
            0 => words.truncate(rng.below(5) as usize),
            1 | 2 => damage_size(rng, &mut words),
            3 => damage_length(rng, &mut words),
            4 => damage_range(rng, &mut words),
            5 => damage_first(rng, &mut words),
            6 => damage_difference(rng, &mut words),
            7 => damage_sum(rng, &mut words),
            _ => damage_any(rng, &mut words),
        }
    }
    words
}

fn any_at(rng: &mut Rng, words: &[i32]) -> Option<usize> {
    let length = words.len() as u64;
    (length > 0).then(|| rng.below(length) as usize)
}

/// Sets some word to anything.
pub fn damage_any(rng: &mut Rng, words: &mut [i32]) {
    if let Some(at) = any_at(rng, words) {
        words[at] = wild_i32(rng);
    }
}

fn damage_size(rng: &mut Rng, words: &mut [i32]) {
    let at = rng.below(5) as usize;
    let edges: &[i32] = match at {
        0 => &[0, 1, 3, 23, 25, 26, -2, -24],
        1 => &[0, 3, 6, 127, 129, 256, -1, -128],
        2 | 3 => &[-1, 41, 42, -40, 64],
        _ => &[0, -1, 257, 512, -256],
    };
    let edge = rng.pick(edges);
    let wild = wild_i32(rng);
    if at < words.len() {
        words[at] = if rng.one_in(3) { wild } else { edge };
    }
}

fn damage_length(rng: &mut Rng, words: &mut Vec<i32>) {
    match rng.below(4) {
        0 => words.push(wild_i32(rng)),
        1 => {
            words.pop();
        }
        2 => words.truncate(5 + rng.below(words.len() as u64 + 1) as usize),
        _ => {
            // One size for another: the length changes, or the parts do.
            if words.len() >= 5 {
                words[0] = 2 * rng.range(1, 12) as i32;
                words[2] = rng.range(0, 40) as i32;
                words[3] = rng.range(0, 40) as i32;
            }
        }
    }
}

fn damage_range(rng: &mut Rng, words: &mut [i32]) {
    let bad = rng.pick(&[32768, -32769, 65536, -65536, i32::MAX, i32::MIN]);
    if let Some(at) = any_at(rng, words).filter(|at| *at >= 5) {
        words[at] = bad;
    }
}

fn damage_first(rng: &mut Rng, words: &mut [i32]) {
    let bad = rng.pick(&[1, -1, 16384, -32768, 32767]);
    if words.len() > 5 {
        words[5] = bad;
    }
    if rng.one_in(2) {
        differences_again(words);
    }
}

/// The parts of a book whose sizes and length fit each other: N and M.
fn fitting_sizes(words: &[i32]) -> Option<(usize, usize)> {
    let number = book_number(words);
    (number == 0 || number > 3).then(|| (words[0] as usize, words[1] as usize))
}

/// Computes the differences anew, so that a changed impulse does not give 6.
fn differences_again(words: &mut [i32]) {
    let Some((n, m)) = fitting_sizes(words) else {
        return;
    };
    let end = 5 + m * n;
    let sizes = [words[0], words[1], 0, 0, 1];
    let whole = assemble(sizes, &words[5..end], &[], &[]);
    words[end..end + m * n].copy_from_slice(&whole[end..]);
}

fn damage_difference(rng: &mut Rng, words: &mut [i32]) {
    let Some((n, m)) = fitting_sizes(words) else {
        return;
    };
    let start = 5 + m * n;
    if rng.one_in(3) {
        // The last phase's differences taken to G_0[k] rather than G_0[k+1].
        let last = 5 + (m - 1) * n;
        for k in 0..n {
            words[start + (m - 1) * n + k] = words[5 + k].wrapping_sub(words[last + k]);
        }
        return;
    }
    let at = start + rng.below((m * n) as u64) as usize;
    words[at] = match rng.below(3) {
        0 => wild_i32(rng),
        1 => words[at].wrapping_add(1),
        _ => words[at].wrapping_sub(1),
    };
}

/// Makes one sum of magnitudes larger, by 1 or 2 or by much, its differences
/// being right.
fn damage_sum(rng: &mut Rng, words: &mut [i32]) {
    let Some((n, m)) = fitting_sizes(words) else {
        return;
    };
    let phase = rng.below(m as u64) as usize;
    // G_0[0] stays 0.
    let first = 5 + phase * n + usize::from(phase == 0);
    let h = 5 + 2 * m * n;
    let g = h + words[2] as usize + 1;
    let part = match rng.below(4) {
        0 => &mut words[h..g],
        1 => &mut words[g..],
        _ => &mut words[first..5 + (phase + 1) * n],
    };
    if rng.one_in(2) {
        part.fill_with(|| rng.pick(&[-32768, 32767]));
    } else {
        let any = rng.below(part.len() as u64) as usize;
        let at = rng.pick(&[0, any]);
        if part[at].unsigned_abs() < 32767 {
            part[at] += if part[at] < 0 { -1 } else { 1 };
        }
    }
    differences_again(words);
}

// ---------------------------------------------------------------- settings

/// A random setting with a recording of at most `longest` samples.
pub fn random_setting(rng: &mut Rng, top: u64, longest: u64) -> Setting {
    let book = accepted_book(rng);
    let count = match rng.below(4) {
        0 => 1 + rng.below(longest.min(8)),
        1 => 1 + rng.below(longest.min(200)),
        _ => 1 + rng.below(longest),
    };
    let samples = random_recording(rng, count as usize);
    setting_of(book, samples, top)
}

/// A setting of the product, which is lent one book.
pub fn setting_of(book: Vec<i32>, samples: Vec<i16>, top: u64) -> Setting {
    Setting {
        book,
        second: Vec::new(),
        samples,
        top,
    }
}

// ---------------------------------------------------------------- lists of calls

/// A list of calls for a drive that opens at a rate, some of them refused.
pub fn list_of_calls(
    rng: &mut Rng,
    setting: &Setting,
    rate: f32,
    count: usize,
    longest: u64,
) -> Vec<Call> {
    let calls = match rng.below(5) {
        0 => renderer_calls(rng, setting, count, longest),
        // Left as they are, since seeks past the end are among them.
        1 => return (0..count).map(|_| edge_call(rng, setting)).collect(),
        2 => (0..count)
            .map(|_| fade_call(rng, setting, longest))
            .collect(),
        3 => trembling_calls(rng, setting, count, longest),
        _ => (0..count)
            .map(|_| match rng.below(3) {
                0 => edge_call(rng, setting),
                1 => fade_call(rng, setting, longest),
                _ => renderer_calls(rng, setting, 1, longest)[0],
            })
            .collect(),
    };
    keep_inside(rng, setting, rate, calls)
}

/// The renderer's own random calls.
fn renderer_calls(rng: &mut Rng, setting: &Setting, count: usize, longest: u64) -> Vec<Call> {
    let calls = random_calls(rng, EDITION, setting, count, longest);
    calls.into_iter().map(Call::from).collect()
}

/// The list with plays cut short, and seeks put before them, where they would
/// run on far past the recording's end: silence tells nothing. One play in eight
/// is left as it is. Position and rate are followed roughly.
pub fn keep_inside(rng: &mut Rng, setting: &Setting, rate: f32, calls: Vec<Call>) -> Vec<Call> {
    let samples = setting.samples.len() as u64;
    let end = samples as f64 + f64::from(setting.book[0]);
    let tail = f64::from(setting.book[3]);
    let opened = !rate_out_of_range(rate, setting.top);
    let (mut position, mut rate) = (0.0, if opened { f64::from(rate) } else { 1.0 });
    let mut list = Vec::new();
    for call in calls {
        match call {
            Call::Jump(to) if !rate_out_of_range(to, setting.top) => rate = f64::from(to),
            Call::Glide(to, _) if !rate_out_of_range(to, setting.top) => {
                rate = rate.max(f64::from(to));
            }
            Call::Seek(to) => position = to as f64 / SAMPLE as f64,
            Call::Play(count) if !rng.one_in(8) => {
                if position > end - 2.0 * rate {
                    let to = rng.below(samples * SAMPLE * 3 / 4);
                    list.push(Call::Seek(to));
                    position = to as f64 / SAMPLE as f64;
                }
                let left = ((end - position) / rate + tail) as usize + 1;
                let count = count.min(left);
                position += rate * count as f64;
                list.push(Call::Play(count));
                continue;
            }
            Call::Play(count) => position += rate * count as f64,
            _ => {}
        }
        list.push(call);
    }
    list
}

/// Rates change often, so that fades run, end and follow each other.
fn fade_call(rng: &mut Rng, setting: &Setting, longest: u64) -> Call {
    let rate = accepted_rate(rng, setting.top);
    match rng.below(8) {
        0 | 1 => Call::Jump(rate),
        2 => Call::Glide(rate, 1 + rng.below(longest + 1) as u32),
        3 => Call::Glide(rate, rng.pick(&[1, 2, 3, 5, 7, 65535, 65536])),
        4 => Call::Play(rng.below(4) as usize),
        _ => Call::Play(rng.below(longest + 1) as usize),
    }
}

/// A rate held near an octave: glides, and a jump now and then, from one side of it
/// to the other and to where its level's band ends, with plays between them.
fn trembling_calls(rng: &mut Rng, setting: &Setting, count: usize, longest: u64) -> Vec<Call> {
    let octave = octave_rate(rng, setting.top);
    let trembling = |_| {
        let rate = rate_near(rng, octave);
        match rng.below(8) {
            0 => Call::Jump(rate),
            1..=3 => Call::Glide(rate, 1 + rng.below(longest + 1) as u32),
            _ => Call::Play(rng.below(longest + 1) as usize),
        }
    };
    (0..count).map(trembling).collect()
}

/// A rate that is 15/16 to 17/16 of an octave, or just below that.
fn rate_near(rng: &mut Rng, octave: f32) -> f32 {
    let end = octave * 15.0 / 16.0;
    match rng.below(6) {
        0 => end,
        1 => just_below(end),
        2 => octave,
        3 => just_below(octave),
        _ => end + octave * rng.below(1025) as f32 / 8192.0,
    }
}

/// Seeks to where windows pass an edge of a level or phases change; short plays.
fn edge_call(rng: &mut Rng, setting: &Setting) -> Call {
    match rng.below(8) {
        0 | 1 => Call::Seek(edge_position(rng, setting)),
        2 => Call::Jump(accepted_rate(rng, setting.top)),
        3 if rng.one_in(2) => Call::Jump(bad_rate(rng, setting.top)),
        3 => Call::Glide(accepted_rate(rng, setting.top), wild_u32(rng)),
        _ => Call::Play(rng.below(30) as usize),
    }
}

fn edge_position(rng: &mut Rng, setting: &Setting) -> u64 {
    if rng.one_in(12) {
        return (1 << 60) - rng.below(3) * rng.below(1 << 33) + rng.below(2);
    }
    let lengths = level_lengths(setting.samples.len() as u64, setting.top);
    let level = rng.below(lengths.len() as u64) as usize;
    let window = i64::from(setting.book[0]) / 2 + 2;
    let edge = rng.pick(&[0, lengths[level] as i64]);
    let index = (edge + rng.range(-window, window)).max(0) as u64;
    let unit = 1u64 << (28 + level);
    let phase = unit / setting.book[1] as u64;
    let fraction = match rng.below(4) {
        0 => 0,
        1 => unit - 1,
        2 => (rng.below(setting.book[1] as u64) * phase + unit - rng.below(2)) % unit,
        _ => rng.below(unit),
    };
    index * unit + fraction
}

/// The length of an output slice that is too long.
pub fn too_many_outputs(rng: &mut Rng) -> usize {
    MOST_OUTPUTS + 1 + rng.pick(&[0, 0, 0, 1, 4096])
}

/// The rate 2^l for a level l of T's.
fn octave_rate(rng: &mut Rng, top: u64) -> f32 {
    (1u32 << rng.below(top + 1)) as f32
}

/// The f32 before a rate.
fn just_below(rate: f32) -> f32 {
    f32::from_bits(rate.to_bits() - 1)
}

/// A rate that T accepts; one in eight is the last one before an octave. The
/// renderer's own are often at 15/16 of an octave, or just below it.
pub fn accepted_rate(rng: &mut Rng, top: u64) -> f32 {
    match rng.below(8) {
        0 => just_below(octave_rate(rng, top)),
        _ => random_rate(rng, top),
    }
}

/// A rate that T accepts, or, once in n, one that it refuses.
pub fn rate_or_bad(rng: &mut Rng, top: u64, n: u64) -> f32 {
    match rng.below(2 * n) {
        0 => bad_rate(rng, top),
        1 => f32::from_bits(rng.word() as u32),
        _ => accepted_rate(rng, top),
    }
}

// ---------------------------------------------------------------- voices

/// A voice that play accepts with this F, every field drawn anew. Where no glide
/// runs its rates and j may be anything.
pub fn free_words(rng: &mut Rng, top: u64, f: i32, samples: u64) -> Words {
    let mut voice = free_voice(rng, EDITION, top, f as u64, samples);
    // The renderer draws 64 bits, the archive's j has 32.
    voice.glide_done &= u64::from(u32::MAX);
    let mut words = words_of(&voice);
    if voice.glide_count > 0 && rng.one_in(4) {
        let count = rng.pick(&[1, 65535, 65536]);
        words[GLIDE_COUNT] = count;
        words[GLIDE_DONE] = rng.pick(&[0, count - 1]);
    }
    match rng.below(8) {
        0 => words[HISTORY..].fill(0),
        1 => words[HISTORY..].fill(rng.pick(&[1 << 29, -(1 << 29)])),
        2 => {
            for word in &mut words[HISTORY..] {
                *word = rng.pick(&[1 << 29, -(1 << 29), 0, 1, -1]);
            }
        }
        _ => {}
    }
    words
}

/// A voice with one field damaged, now and then two or three.
pub fn damaged_words(rng: &mut Rng, voice: &Words, f: i32) -> Words {
    let mut words = *voice;
    let count = match rng.below(4) {
        0 => 1 + rng.below(3),
        _ => 1,
    };
    for _ in 0..count {
        let wild = wild_i32(rng);
        match rng.below(12) {
            0 => words[TOP] = rng.pick(&[0, 3, 5, 6, -1, i32::MIN, wild]),
            1 | 2 => damage_levels(rng, &mut words),
            3 | 4 => damage_fade(rng, &mut words, f),
            5 | 6 => damage_rate(rng, &mut words),
            7 | 8 => damage_glide(rng, &mut words),
            9 => set_wide(&mut words, POSITION, damaged_position(rng)),
            10 => damage_point(rng, &mut words),
            _ => words[rng.below(VOICE_WORDS as u64) as usize] = wild,
        }
    }
    words
}

fn damage_levels(rng: &mut Rng, words: &mut Words) {
    let above = words[TOP].wrapping_add(1);
    let wild = wild_i32(rng);
    let level = rng.pick(&[above, above, 5, -1, wild]);
    match rng.below(3) {
        0 => words[LEVEL] = level,
        1 => words[NEXT_LEVEL] = level,
        _ => {
            words[LEVEL] = level;
            words[NEXT_LEVEL] = level;
        }
    }
}

/// For 14: i and the levels at odds, or i not below F.
fn damage_fade(rng: &mut Rng, words: &mut Words, f: i32) {
    match rng.below(4) {
        0 => words[NEXT_LEVEL] = if words[LEVEL] == 0 { 1 } else { 0 },
        1 => words[NEXT_LEVEL] = words[LEVEL],
        2 => words[FADE] = rng.pick(&[0, 1, f - 1, f, f + 1, 256, -1]),
        _ => words[FADE] = wild_i32(rng),
    }
}

/// A rate at or past its limits, or one of more than 32 bits whose low word
/// alone would pass.
fn damage_rate(rng: &mut Rng, words: &mut Words) {
    let at = rng.pick(&[RATE, GLIDE_FROM, GLIDE_TO]);
    let end = 1u64 << (28 + (words[TOP] as u32).min(4));
    let rate = match rng.below(7) {
        0 => (1 << 23) - 1,
        1 => 1 << 23,
        2 => end,
        3 => end - 1,
        4 => (1 << 27) + (1 << (32 + rng.below(32))),
        5 => 0,
        _ => wild_u64(rng),
    };
    set_wide(words, at, rate);
    if rng.one_in(2) && words[GLIDE_COUNT] == 0 {
        // R0, R1 and j are then looked at.
        words[GLIDE_COUNT] = 5;
    }
}

fn damage_glide(rng: &mut Rng, words: &mut Words) {
    let count = words[GLIDE_COUNT];
    match rng.below(4) {
        0 => words[GLIDE_COUNT] = rng.pick(&[0, 1, 65536, 65537, -1, i32::MIN]),
        1 => words[GLIDE_DONE] = count,
        2 => words[GLIDE_DONE] = rng.pick(&[count.wrapping_sub(1), count.wrapping_add(1), -1]),
        _ => words[GLIDE_DONE] = wild_i32(rng),
    }
}

fn damaged_position(rng: &mut Rng) -> u64 {
    match rng.below(6) {
        0 => 1 << 60,
        1 => (1 << 60) + 1,
        2 => (1 << 60) + rng.below(1 << 34),
        3 => 1 << 63,
        4 => u64::MAX,
        _ => wild_u64(rng),
    }
}

fn damage_point(rng: &mut Rng, words: &mut Words) {
    let limit = 1 << 29;
    let at = HISTORY + rng.below(POINTS as u64) as usize;
    words[at] = rng.pick(&[
        limit,
        -limit,
        limit + 1,
        -limit - 1,
        i32::MIN,
        i32::MAX,
        1 << 30,
        -(1 << 30),
    ]);
}

/// Words that a single damaged word of a voice is tried with: the limits of
/// every field, and the edges of the type.
pub fn edge_words(voice: &Words, f: i32) -> Vec<i32> {
    let mut list = vec![i32::MIN, i32::MIN + 1, i32::MAX, -1, 0, 1];
    for power in [2, 16, 23, 28, 29, 30] {
        list.extend([
            1 << power,
            (1 << power) - 1,
            (1 << power) + 1,
            -(1 << power),
        ]);
        list.push(-(1 << power) - 1);
    }
    let top = voice[TOP];
    list.extend([top, top + 1, f - 1, f, f + 1]);
    list.extend([voice[GLIDE_COUNT], voice[GLIDE_COUNT] - 1]);
    list.push((wide(voice, RATE) >> 1) as i32);
    list
}

#[cfg(test)]
mod tests {
    use super::*;
    use renderer::levels::MOST_TOP;
    use std::collections::BTreeSet;

    #[test]
    fn accepted_books_are_accepted() {
        let mut rng = Rng::new(1);
        for _ in 0..2000 {
            assert_eq!(book_number(&accepted_book(&mut rng)), 0);
        }
    }

    #[test]
    fn damaged_books_give_every_number() {
        let mut rng = Rng::new(2);
        let mut seen = BTreeSet::new();
        for _ in 0..2000 {
            let book = accepted_book(&mut rng);
            seen.insert(book_number(&damaged_book(&mut rng, &book)));
        }
        assert_eq!(seen, (0..=7).collect());
    }

    #[test]
    fn accepted_rates_are_accepted() {
        let mut rng = Rng::new(6);
        for top in 0..=MOST_TOP {
            let rates: Vec<f32> = (0..500).map(|_| accepted_rate(&mut rng, top)).collect();
            assert!(rates.iter().all(|rate| !rate_out_of_range(*rate, top)));
            for octave in 0..=top {
                let last_before = f32::from_bits(((1u32 << octave) as f32).to_bits() - 1);
                assert!(rates.contains(&last_before));
            }
        }
    }

    #[test]
    fn limits_are_reached() {
        let mut rng = Rng::new(3);
        let (mut sizes, mut sums) = (BTreeSet::new(), BTreeSet::new());
        for _ in 0..500 {
            let book = accepted_book(&mut rng);
            sizes.extend(book[..5].iter().enumerate().map(|(at, size)| (at, *size)));
            let n = book[0] as usize;
            for phase in book[5..].chunks(n).take(book[1] as usize) {
                sums.insert(phase.iter().map(|impulse| impulse.abs()).sum::<i32>());
            }
        }
        for (at, low, high) in [(0, 2, 24), (1, 1, 128), (2, 0, 40), (3, 0, 40), (4, 1, 256)] {
            assert!(sizes.contains(&(at, low)) && sizes.contains(&(at, high)));
        }
        assert!(sums.contains(&65536) && sums.contains(&0));
    }
}
