//! Document 01's conversion in whole numbers, written from its rules alone.
//!
//! The linear table is worked out with big integers; nothing is copied.

use std::cmp::Ordering;
use std::sync::OnceLock;

use crate::Root;

/// The scale of linear values.
const SCALE: u32 = 100_000_000;

/// A natural number in base 2^32, least digit first, without leading zeros.
struct Big(Vec<u32>);

impl Big {
    fn one() -> Big {
        Big(vec![1])
    }

    /// This number times `factor`, `count` times over.
    fn times(mut self, factor: u32, count: u32) -> Big {
        for _ in 0..count {
            let mut carry = 0u64;
            for digit in &mut self.0 {
                // At most (2^32 - 1)^2 + 2^32 - 1 < 2^64.
                let sum = u64::from(*digit) * u64::from(factor) + carry;
                *digit = sum as u32;
                carry = sum >> 32;
            }
            if carry > 0 {
                self.0.push(carry as u32);
            }
        }
        self
    }

    /// Neither number has leading zeros, so the longer one is the greater.
    fn compare(&self, other: &Big) -> Ordering {
        let by_length = self.0.len().cmp(&other.0.len());
        by_length.then_with(|| self.0.iter().rev().cmp(other.0.iter().rev()))
    }
}

/// The largest number below `end` that `holds`, which is true up to some point
/// and false from there on, and true at 0.
fn last_that(end: u64, holds: impl Fn(u64) -> bool) -> u64 {
    let (mut low, mut high) = (0, end);
    while high - low > 1 {
        let middle = low + (high - low) / 2;
        if holds(middle) { low = middle } else { high = middle }
    }
    low
}

/// The linear value of byte `k`, to the nearest whole number, halves up.
fn linear(k: u32) -> u64 {
    if k <= 10 {
        // floor(n / d + 1/2) = floor((2n + d) / 2d) with n = 10^10 k, d = 329460.
        return (20_000_000_000 * u64::from(k) + 329_460) / 658_920;
    }
    // The answer is the largest x whose x - 1/2 does not exceed the exact value:
    // ((2x - 1) / (2 * 10^8))^5 <= ((1000k + 14025) / 269025)^12.
    let exact = Big::one().times(2 * SCALE, 5).times(1000 * k + 14_025, 12);
    last_that(u64::from(SCALE) + 2, |x| {
        x == 0 || Big::one().times(2 * x as u32 - 1, 5).times(269_025, 12).compare(&exact) != Ordering::Greater
    })
}

/// The 256 linear values.
pub fn linear_table() -> &'static [u64; 256] {
    static TABLE: OnceLock<[u64; 256]> = OnceLock::new();
    TABLE.get_or_init(|| std::array::from_fn(|k| linear(k as u32)))
}

/// Eight times the cube of the half below `c`, where there is one.
fn half_below(c: u64) -> u64 {
    (2 * c).saturating_sub(1).pow(3)
}

/// The whole number nearest to the cube root of `n`, by halving: the largest
/// whose half below does not exceed the root. `n` is at most 10^18, so the root
/// is at most 10^6; and no cube that is tried, here and below, exceeds 2^63.
pub fn root_by_halving(n: u64) -> u64 {
    last_that(1 << 20, |c| half_below(c) <= 8 * n)
}

/// The same, bit by bit from the top.
pub fn root_by_bits(n: u64) -> u64 {
    let mut root = 0u64;
    for bit in (0..20).rev() {
        let trial = root | 1 << bit;
        if half_below(trial) <= 8 * n {
            root = trial;
        }
    }
    root
}

/// The same, from an estimate. The two loops end at the nearest, whatever the
/// estimate was.
pub fn root_by_estimate(n: u64) -> u64 {
    let mut root = (n as f64).cbrt().round() as u64;
    while half_below(root) > 8 * n {
        root -= 1;
    }
    while half_below(root + 1) <= 8 * n {
        root += 1;
    }
    root
}

/// The largest whole number whose cube does not exceed `n`, the root downward of
/// document 01 before its amendment. No cube tried exceeds 2_642_245^3, which is
/// below 2^64; the next one is above.
pub fn root_down(n: u64) -> u64 {
    last_that(2_642_246, |c| c * c * c <= n)
}

/// Divided by 10^10 to the nearest whole number, halves toward plus infinity.
fn rounded(sum: i64) -> i64 {
    (sum + 5_000_000_000).div_euclid(10_000_000_000)
}

/// Lightness, a and b in millionths, with the given whole cube root.
///
/// Linear values are at most 10^8 and a row's weights add up to at most 10^10,
/// so no sum exceeds 10^18; roots are then at most 10^6, and the second sums
/// stay below 5 * 10^16.
pub fn millionths_with(root: impl Fn(u64) -> u64, r: u8, g: u8, b: u8) -> [i64; 3] {
    let table = linear_table();
    let [r, g, b] = [r, g, b].map(|k| table[usize::from(k)]);
    let l = root(4_122_214_708 * r + 5_363_325_363 * g + 514_459_929 * b) as i64;
    let m = root(2_119_034_982 * r + 6_806_995_451 * g + 1_073_969_566 * b) as i64;
    let s = root(883_024_619 * r + 2_817_188_376 * g + 6_299_787_005 * b) as i64;
    [
        rounded(2_104_542_553 * l + 7_936_177_850 * m - 40_720_468 * s),
        rounded(19_779_984_951 * l - 24_285_922_050 * m + 4_505_937_099 * s),
        rounded(259_040_371 * l + 7_827_717_662 * m - 8_086_757_660 * s),
    ]
}

/// Lightness, a and b in millionths, with the root that the switch says.
pub fn millionths(r: u8, g: u8, b: u8) -> [i64; 3] {
    match crate::root() {
        Root::Nearest => millionths_with(root_by_estimate, r, g, b),
        Root::Down => millionths_with(root_down, r, g, b),
    }
}

/// Millionths as f32: numbers below 2^24 and 10^6 are exact, so the division is
/// the one rounding.
pub fn as_floats(millionths: [i64; 3]) -> [f32; 3] {
    millionths.map(|n| n as f32 / 1_000_000.0)
}

/// The conversion, worked out anew.
pub fn to_oklab(r: u8, g: u8, b: u8) -> [f32; 3] {
    as_floats(millionths(r, g, b))
}

#[cfg(test)]
mod tests {
    use super::*;

    #[test]
    fn linear_values_of_the_examples() {
        let table = linear_table();
        assert_eq!([table[0], table[1], table[10], table[255]], [0, 30_353, 303_527, 100_000_000]);
    }

    #[test]
    fn linear_values_are_near_the_floating_ones() {
        for k in 0..256 {
            let near = crate::published::linear_f64(k as u8) * 1e8;
            assert!((linear_table()[k] as f64 - near).abs() < 0.6, "byte {k}");
        }
    }

    /// Whole numbers to be roots, the first and the last among them.
    fn roots() -> impl Iterator<Item = u64> {
        (1..1_000_000).step_by(37).chain([999_999])
    }

    #[test]
    fn all_roots_are_the_nearest() {
        for root in [root_by_halving, root_by_bits, root_by_estimate] {
            assert_eq!([root(0), root(1_000_000_000_000_000_000)], [0, 1_000_000]);
            for c in roots() {
                // A half's cube is never whole: the one is below it, the other above.
                let below = (2 * c + 1).pow(3) / 8;
                assert_eq!([root(c * c * c), root(below), root(below + 1)], [c, c, c + 1]);
            }
        }
    }

    #[test]
    fn the_root_downward() {
        for c in roots() {
            assert_eq!([c * c * c, (c + 1).pow(3) - 1, (c + 1).pow(3)].map(root_down), [c, c, c + 1]);
        }
    }

    #[test]
    fn black_and_white_of_the_examples() {
        let both = || [millionths(0, 0, 0), millionths(255, 255, 255)];
        assert_eq!(both(), [[0, 0, 0], [1_000_000, 0, 0]]);
        assert_eq!(crate::with_root(Root::Down, both), [[0, 0, 0], [999_999, 2, -1]]);
    }
}
