//! Seeded random numbers (xoshiro256**), the same on every computer: only whole
//! numbers, and doubles by the four operations and the square root.

use kapitsa_math::{Quat, Vec3, archive};

pub struct Random {
    state: [u64; 4],
}

impl Random {
    /// A stream of its own for each plan of a seed.
    pub fn new(seed: u64, index: u64) -> Self {
        let mut word = seed ^ index.wrapping_mul(0xd134_2543_de82_ef95);
        let state = std::array::from_fn(|_| {
            // splitmix64
            word = word.wrapping_add(0x9e37_79b9_7f4a_7c15);
            let mut mixed = word;
            mixed = (mixed ^ (mixed >> 30)).wrapping_mul(0xbf58_476d_1ce4_e5b9);
            mixed = (mixed ^ (mixed >> 27)).wrapping_mul(0x94d0_49bb_1331_11eb);
            mixed ^ (mixed >> 31)
        });
        Self { state }
    }

    pub fn bits(&mut self) -> u64 {
        let [a, b, c, d] = self.state;
        let result = b.wrapping_mul(5).rotate_left(7).wrapping_mul(9);
        let c = c ^ a;
        let d = d ^ b;
        self.state = [a ^ d, b ^ c, c ^ (b << 17), d.rotate_left(45)];
        result
    }

    /// A whole number below `limit`, which is small.
    pub fn below(&mut self, limit: usize) -> usize {
        ((self.bits() >> 32) * limit as u64 >> 32) as usize
    }

    /// A whole number from `low` to `high`, both included.
    pub fn within(&mut self, low: usize, high: usize) -> usize {
        low + self.below(high - low + 1)
    }

    /// Yes once in `times`.
    pub fn once_in(&mut self, times: usize) -> bool {
        self.below(times) == 0
    }

    pub fn coin(&mut self) -> bool {
        self.once_in(2)
    }

    pub fn pick<T: Copy>(&mut self, choices: &[T]) -> T {
        choices[self.below(choices.len())]
    }

    /// From 0 up to but not including 1.
    pub fn unit(&mut self) -> f64 {
        (self.bits() >> 11) as f64 / 9_007_199_254_740_992.0
    }

    pub fn range(&mut self, low: f64, high: f64) -> f64 {
        low + (high - low) * self.unit()
    }

    /// A magnitude from 2^low up to 2^(high + 1), each power as likely.
    pub fn power(&mut self, low: i32, high: i32) -> f64 {
        let exponent = low + self.below((high - low + 1) as usize) as i32;
        (1.0 + self.unit()) * two_to(exponent)
    }

    pub fn sign(&mut self) -> f64 {
        if self.coin() { 1.0 } else { -1.0 }
    }

    /// Each coordinate from -size to size.
    pub fn vector(&mut self, size: f64) -> Vec3 {
        Vec3::new(
            self.range(-size, size),
            self.range(-size, size),
            self.range(-size, size),
        )
    }

    pub fn direction(&mut self) -> Vec3 {
        loop {
            let vector = self.vector(1.0);
            let square = vector.length_squared();
            if square <= 1.0
                && square >= 0.01
                && let Some(unit) = vector.try_normalize()
            {
                return unit;
            }
        }
    }

    pub fn rotation(&mut self) -> Quat {
        loop {
            let quat = Quat::new(
                self.range(-1.0, 1.0),
                self.range(-1.0, 1.0),
                self.range(-1.0, 1.0),
                self.range(-1.0, 1.0),
            );
            let square = quat.length_squared();
            if square <= 1.0
                && square >= 0.01
                && let Some(unit) = quat.try_normalize()
            {
                return unit;
            }
        }
    }

    /// A rotation by an eighth or a quarter of the circle, or by none, about an axis;
    /// many of its numbers are 0, of either sign.
    pub fn neat_rotation(&mut self) -> Quat {
        let half = 0.5_f64.sqrt();
        let (s, c) = self.pick(&[
            (0.0, 1.0),
            (half, half),
            (1.0, 0.0),
            (-half, half),
            (0.6, 0.8),
        ]);
        let mut numbers = [0.0, 0.0, 0.0, c];
        let axis = self.below(3);
        numbers[axis] = s;
        let mut quat = numbers.map(|number| {
            if number == 0.0 && self.once_in(4) {
                -0.0
            } else {
                number
            }
        });
        if self.once_in(6) {
            quat = quat.map(|number| -number);
        }
        Quat::new(quat[0], quat[1], quat[2], quat[3])
    }
}

/// 2 to a power from -1074 to 1023, subnormal where it must be.
pub fn two_to(exponent: i32) -> f64 {
    if exponent >= -1_022 {
        f64::from_bits(((exponent + 1_023) as u64) << 52)
    } else {
        f64::from_bits(1 << (exponent + 1_074))
    }
}

/// Rotation about an axis by an angle of at most 8 in magnitude.
pub fn turn(axis: Vec3, angle: f64) -> Quat {
    let (s, c) = archive::sin_cos(angle.abs() * 0.5).expect("an angle of at most 8");
    let s = if angle < 0.0 { -s } else { s };
    Quat::new(axis.x * s, axis.y * s, axis.z * s, c)
}
