//! Float bits worth trying, and the f32 nearest to a fraction worked out in
//! whole numbers, so that no float division decides what is expected.

use crate::random::Random;

/// Finite floats at the edges: zeros, denormals, the largest, and plain ones.
const EDGES: [u32; 14] = [
    0x0000_0000, // 0
    0x8000_0000, // minus zero
    0x0000_0001, // the smallest denormal
    0x8000_0001,
    0x007f_ffff, // the largest denormal
    0x0080_0000, // the smallest normal
    0x7f7f_ffff, // the largest finite
    0xff7f_ffff,
    0x3f00_0000, // 0.5
    0x3f80_0000, // 1.0
    0xbf80_0000,
    0x4000_0000, // 2.0
    0x3dcc_cccd, // 0.1
    0x7f00_0000,
];

/// Floats that are not finite: infinities and several NaN.
pub const NOT_FINITE: [u32; 6] = [
    0x7f80_0000,
    0xff80_0000,
    0x7fc0_0000,
    0x7f80_0001,
    0xffc0_0000,
    0xffff_ffff,
];

/// The bits of some finite float.
pub fn finite(random: &mut Random) -> u32 {
    if random.once_in(3) {
        return *random.pick(&EDGES);
    }
    let sign = (random.below(2) as u32) << 31;
    let exponent = (random.below(255) as u32) << 23;
    let fraction = random.below(1 << 23) as u32;
    sign | exponent | fraction
}

/// The bits of the f32 nearest to numerator / denominator, a tie going to the
/// even one. The numerator must be below 2^24 and the denominator from 1 to
/// 2^16, so that every quotient but 0 is a normal float.
pub fn nearest(numerator: u32, denominator: u32) -> u32 {
    assert!(numerator < 1 << 24 && (1..=1 << 16).contains(&denominator));
    if numerator == 0 {
        return 0;
    }
    // Scale the numerator by 2^shift until the quotient has 24 bits.
    let (top, below) = (u64::from(numerator), u64::from(denominator));
    let mut shift = 0;
    while (top << shift) / below < 1 << 23 {
        shift += 1;
    }
    let quotient = (top << shift) / below;
    let twice_rest = 2 * ((top << shift) % below);
    let up = twice_rest > below || (twice_rest == below && quotient % 2 == 1);
    // The quotient stands for quotient / 2^shift, its top bit is bit 23. A
    // carry out of the fraction moves the exponent on by itself.
    let exponent = 127 + 23 - shift;
    let bits = (exponent << 23) + (quotient - (1 << 23)) + u64::from(up);
    bits as u32
}

/// n / 256 as bits, worked out in whole numbers.
pub fn over_256(n: i16) -> u32 {
    let size = nearest(u32::from(n.unsigned_abs()), 256);
    if n < 0 {
        size | 0x8000_0000
    } else {
        size
    }
}

#[cfg(test)]
mod tests {
    use super::*;

    #[test]
    fn worked_levels() {
        assert_eq!(over_256(0x0080), 0x3f00_0000);
        assert_eq!(over_256(-0x80), 0xbf00_0000);
        assert_eq!(over_256(0), 0);
        assert_eq!(over_256(256), 0x3f80_0000);
        assert_eq!(over_256(i16::MIN), 0xc300_0000);
    }

    #[test]
    fn worked_colours() {
        assert_eq!(nearest(255, 255), 0x3f80_0000);
        assert_eq!(nearest(240, 255), 0x3f70_f0f1);
        assert_eq!(nearest(180, 255), 0x3f34_b4b5);
        assert_eq!(nearest(1, 255), 0x3b80_8081);
    }

    #[test]
    fn finite_floats_are_finite() {
        let mut random = Random::new(7);
        for _ in 0..10_000 {
            assert_ne!(finite(&mut random) & 0x7f80_0000, 0x7f80_0000);
        }
        for bits in NOT_FINITE {
            assert_eq!(bits & 0x7f80_0000, 0x7f80_0000);
        }
    }
}
