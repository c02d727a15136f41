// ORACLE: added; the arithmetic that SPECIFICATION §2 fixes for the archive, in place
// of the operating system's sine, cosine, arc tangent and hypotenuse.
//! The archive's arithmetic: every operation is one IEEE 754 double operation,
//! rounded once and never fused. The square root is the processor's, which IEEE
//! 754 fixes.

use std::f64::consts::{FRAC_PI_2, PI};

/// Magnitude by which the squares of a rotation may differ from 1: 2^-44.
pub const ROTATION_TOLERANCE: f64 = 1.0 / 17_592_186_044_416.0;

/// Half angles above this are refused.
pub const LARGEST_HALF_ANGLE: f64 = 4.0;

/// 1/n! with alternating sign for n = 1, 3, .. 13. Each factorial is a whole
/// number below 2^53, so the one division is the one rounding.
const SINE: [f64; 7] = [
    1.0,
    -1.0 / 6.0,
    1.0 / 120.0,
    -1.0 / 5_040.0,
    1.0 / 362_880.0,
    -1.0 / 39_916_800.0,
    1.0 / 6_227_020_800.0,
];

/// 1/n! with alternating sign for n = 0, 2, .. 14.
const COSINE: [f64; 8] = [
    1.0,
    -1.0 / 2.0,
    1.0 / 24.0,
    -1.0 / 720.0,
    1.0 / 40_320.0,
    -1.0 / 3_628_800.0,
    1.0 / 479_001_600.0,
    -1.0 / 87_178_291_200.0,
];

/// 1/n with alternating sign for n = 1, 3, .. 23.
const ARC_TANGENT: [f64; 12] = [
    1.0,
    -1.0 / 3.0,
    1.0 / 5.0,
    -1.0 / 7.0,
    1.0 / 9.0,
    -1.0 / 11.0,
    1.0 / 13.0,
    -1.0 / 15.0,
    1.0 / 17.0,
    -1.0 / 19.0,
    1.0 / 21.0,
    -1.0 / 23.0,
];

/// Horner from the highest power down: a product, then a sum, each rounded.
fn horner(coefficients: &[f64], square: f64) -> f64 {
    let mut value = coefficients[coefficients.len() - 1];
    for coefficient in coefficients[..coefficients.len() - 1].iter().rev() {
        value = value * square + coefficient;
    }
    value
}

/// Hypotenuse; an argument that is not finite gives +infinity, also NaN.
pub fn hypot(x: f64, y: f64) -> f64 {
    if !x.is_finite() || !y.is_finite() {
        return f64::INFINITY;
    }
    let (x, y) = (x.abs(), y.abs());
    let (a, b) = if x >= y { (x, y) } else { (y, x) };
    if a == 0.0 {
        return 0.0;
    }
    let r = b / a;
    a * (1.0 + r * r).sqrt()
}

/// Sine and cosine of a half angle from 0 to 4, or `None` outside. -0 is 0.
pub fn sin_cos(half_angle: f64) -> Option<(f64, f64)> {
    // Written so that NaN is refused with the rest.
    if !(half_angle >= 0.0 && half_angle <= LARGEST_HALF_ANGLE) {
        return None;
    }
    let mut h = half_angle;
    let mut halvings = 0;
    while h > 0.5 {
        h *= 0.5;
        halvings += 1;
    }
    let square = h * h;
    let mut s = horner(&SINE, square) * h;
    let mut c = horner(&COSINE, square);
    for _ in 0..halvings {
        let twice = 2.0 * s;
        (s, c) = (twice * c, 1.0 - twice * s);
    }
    Some((s, c))
}

/// Arc tangent of y / x by quadrant, or `None` for an argument not finite.
/// Signs are found by comparison, so -0 counts as 0.
pub fn atan2(y: f64, x: f64) -> Option<f64> {
    if !y.is_finite() || !x.is_finite() {
        return None;
    }
    let (height, width) = (y.abs(), x.abs());
    if height == 0.0 && width == 0.0 {
        return Some(0.0);
    }
    let steep = height > width;
    let mut q = if steep {
        width / height
    } else {
        height / width
    };
    for _ in 0..2 {
        q = q / (1.0 + (1.0 + q * q).sqrt());
    }
    let mut v = 4.0 * (horner(&ARC_TANGENT, q * q) * q);
    if steep {
        v = FRAC_PI_2 - v;
    }
    if x < 0.0 {
        v = PI - v;
    }
    if y < 0.0 {
        v = -v;
    }
    Some(v)
}

/// Sum from the left that starts from +0, also where nothing is summed.
pub fn sum(values: impl Iterator<Item = f64>) -> f64 {
    values.fold(0.0, |total, value| total + value)
}

#[cfg(test)]
mod tests {
    use super::*;

    // The examples of SPECIFICATION §15.
    #[test]
    fn worked_examples() {
        assert_eq!(4.0_f64.sqrt(), 2.0);
        assert_eq!(2.0_f64.sqrt().to_bits(), 0x3ff6_a09e_667f_3bcd);
        assert_eq!(f64::from_bits(1).sqrt(), 2.0_f64.powi(-537));
        assert_eq!(hypot(3.0, 4.0), 5.0);
        assert_eq!(hypot(0.0, 0.0).to_bits(), 0);
        assert_eq!(hypot(-0.0, -0.0).to_bits(), 0);
        assert_eq!(hypot(f64::NAN, 1.0), f64::INFINITY);
        assert_eq!(atan2(1.0, 0.0), Some(FRAC_PI_2));
        assert_eq!(atan2(0.0, -1.0), Some(PI));
        assert_eq!(atan2(-0.0, -1.0), Some(PI));
        assert_eq!(atan2(-0.0, 0.0).map(f64::to_bits), Some(0));
        assert_eq!(sin_cos(-0.0).map(|(_, c)| c), Some(1.0));
        assert!(sin_cos(4.0).is_some());
        assert!(sin_cos(4.0_f64.next_up()).is_none());
        assert!(sin_cos(f64::NAN).is_none());
        assert_eq!(sum(std::iter::empty()).to_bits(), 0);
        assert_eq!(sum([-0.0].into_iter()).to_bits(), 0);
    }

    // The promised 2^-40, against the system's routines, which are far closer.
    #[test]
    fn within_bounds() {
        let bound = 2.0_f64.powi(-40);
        for i in 0..=40_000 {
            let h = i as f64 * 1.0e-4;
            let (s, c) = sin_cos(h).unwrap();
            assert!((s - h.sin()).abs() < bound && (c - h.cos()).abs() < bound);
            let turn = h * 1.5;
            let (y, x) = (turn.sin() * (1.0 + h), turn.cos() * (1.0 + h));
            assert!((atan2(y, x).unwrap() - y.atan2(x)).abs() < bound);
        }
    }
}
