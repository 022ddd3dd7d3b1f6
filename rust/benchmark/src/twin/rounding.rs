//! Rounding to the nearest integer, an exact half to the even one.

/// near(a / 2^bits). There is no test and no sign, so that loops over it are
/// vectorised.
#[inline(always)]
pub(super) fn near_unsigned(a: u64, bits: u32) -> u64 {
    (a + ((a >> bits) & 1) + (1 << (bits - 1)) - 1) >> bits
}

/// near(x / 2^bits), where a is the floor of x and `rest` says whether x has
/// anything above it: then it is no half. Halves are rare, so that a test which
/// fails is all that they cost.
#[inline(always)]
pub(super) fn near_with_rest(a: i64, rest: impl FnOnce() -> bool, bits: u32) -> i64 {
    let up = a + (1 << (bits - 1));
    if up & ((1 << bits) - 1) == 0 {
        return at_half(up >> bits, rest());
    }
    up >> bits
}

#[cold]
fn at_half(up: i64, rest: bool) -> i64 {
    up & !i64::from(!rest)
}

/// near(a / b), where b is no constant: with one division.
#[inline(always)]
pub(super) fn near_by(a: i64, b: i64) -> i64 {
    let up = (2 * a + b).div_euclid(2 * b);
    if (2 * a + b).rem_euclid(2 * b) == 0 {
        return up & !1;
    }
    up
}

#[cfg(test)]
mod tests {
    use super::*;

    /// Of a number below 0 too, by raising it.
    fn near_raised(a: i64, bits: u32) -> i64 {
        let raise = 1 << 40;
        near_unsigned((a + raise) as u64, bits) as i64 - (raise >> bits)
    }

    #[test]
    fn a_half_goes_to_the_even_number() {
        let halves = [-2, -2, 0, 0, 2, 2];
        assert_eq!(
            halves,
            [-5, -3, -1, 1, 3, 5].map(|a| near_raised(a * 8192, 14))
        );
        assert_eq!(halves, [-5, -3, -1, 1, 3, 5].map(|a| near_by(a, 2)));
        let none = |a: i64| near_with_rest(a * 8192, || false, 14);
        assert_eq!(halves, [-5, -3, -1, 1, 3, 5].map(none));
    }

    #[test]
    fn a_rest_is_no_half() {
        assert_eq!(
            [-5, -3, -1, 1, 3, 5].map(|a| near_with_rest(a * 8192, || true, 14)),
            [-2, -1, 0, 1, 2, 3]
        );
    }

    #[test]
    fn all_else_goes_to_the_nearest() {
        for a in -100..=100 {
            let exact = |b: f64| (a as f64 / b).round_ties_even() as i64;
            assert_eq!(near_raised(a, 4), exact(16.0), "{a} / 16");
            assert_eq!(near_with_rest(a, || false, 4), exact(16.0), "{a} / 16");
            for b in 1..=9 {
                assert_eq!(near_by(a, b), exact(b as f64), "{a} / {b}");
            }
        }
    }
}
