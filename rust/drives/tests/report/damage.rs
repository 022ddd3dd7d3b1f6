//! Damaged inputs: what comes of them is the renderer's to say.

use renderer::random::Rng;

/// Bytes that calls are made of, and some that they are not.
const BYTES: &[u8] = b"jumpglideseekplay    0123456789\n\n\r\t\0+-.PJ\x80\xff";

fn place(rng: &mut Rng, input: &[u8]) -> usize {
    rng.below(input.len() as u64 + 1) as usize
}

/// The place of some line end.
fn line_end(rng: &mut Rng, input: &[u8]) -> Option<usize> {
    let from = place(rng, input);
    let found = input[from..].iter().position(|byte| *byte == b'\n')?;
    Some(from + found)
}

/// One damage: a byte flipped, removed, put in or put in the stead of another; lines
/// joined, a line end doubled or made CR LF; a piece cut out or doubled.
fn damage(rng: &mut Rng, input: &mut Vec<u8>) {
    let at = place(rng, input);
    let end = line_end(rng, input).unwrap_or(at);
    let up_to = |at: usize, count: usize| at..(at + count).min(input.len());
    let (byte, piece) = (up_to(at, 1), up_to(at, 1 + rng.below(12) as usize));
    let bit = 1 << rng.below(8);
    let flipped = input[byte.clone()].iter().map(|byte| byte ^ bit).collect();
    let any = vec![rng.pick(BYTES)];
    let (place, new) = match rng.below(9) {
        0 => (byte, flipped),
        1 => (byte, vec![]),
        2 => (at..at, any),
        3 => (byte, any),
        4 => (up_to(end, 1), vec![]),
        5 => (end..end, vec![b'\n']),
        6 => (end..end, vec![b'\r']),
        7 => (piece, vec![]),
        _ => (at..at, input[piece].to_vec()),
    };
    input.splice(place, new);
}

/// An input with some damage, now and then with CR LF all over.
pub fn damaged(rng: &mut Rng, input: &[u8]) -> Vec<u8> {
    let mut input = input.to_vec();
    for _ in 0..1 + rng.below(20) {
        damage(rng, &mut input);
    }
    if rng.one_in(20) {
        let lines: Vec<&[u8]> = input.split(|byte| *byte == b'\n').collect();
        input = lines.join(&b"\r\n"[..]);
    }
    input
}
