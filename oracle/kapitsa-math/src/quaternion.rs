use std::ops::Mul;

use crate::{Mat3, Vec3};
// ORACLE: import added, for hypotenuse, sine, cosine and the rotation test.
use crate::archive;

/// A quaternion `(x, y, z, w)` representing a 3D rotation.
///
/// Multiplication uses the Hamilton product: `a * b` applies `b` first, then
/// `a`. Rotations use a right-handed coordinate system and angles are radians.
#[derive(Clone, Copy, Debug, PartialEq)]
pub struct Quat {
    pub x: f64,
    pub y: f64,
    pub z: f64,
    pub w: f64,
}

impl Quat {
    pub const IDENTITY: Self = Self::new(0.0, 0.0, 0.0, 1.0);

    pub const fn new(x: f64, y: f64, z: f64, w: f64) -> Self {
        Self { x, y, z, w }
    }

    pub fn from_axis_angle(axis: Vec3, angle: f64) -> Option<Self> {
        if !angle.is_finite() {
            return None;
        }
        let axis = axis.try_normalize()?;
        let half_angle = angle * 0.5;
        // ORACLE: the archive's sine and cosine for the system's; a half angle
        // outside 0 to 4 gives `None`. (A step does not call this function.)
        let (sin, cos) = archive::sin_cos(half_angle)?;
        Some(Self::new(axis.x * sin, axis.y * sin, axis.z * sin, cos))
    }

    pub const fn conjugate(self) -> Self {
        Self::new(-self.x, -self.y, -self.z, self.w)
    }

    pub const fn length_squared(self) -> f64 {
        self.x * self.x + self.y * self.y + self.z * self.z + self.w * self.w
    }

    pub fn length(self) -> f64 {
        // ORACLE: the archive's hypotenuse for the system's, in the same order.
        archive::hypot(
            archive::hypot(archive::hypot(self.x, self.y), self.z),
            self.w,
        )
    }

    pub fn try_normalize(self) -> Option<Self> {
        if !self.is_finite() {
            return None;
        }

        let scale = self
            .x
            .abs()
            .max(self.y.abs())
            .max(self.z.abs())
            .max(self.w.abs());
        if scale == 0.0 {
            return None;
        }

        let scaled = Self::new(
            self.x / scale,
            self.y / scale,
            self.z / scale,
            self.w / scale,
        );
        let length = scaled.length();
        if !length.is_finite() || length == 0.0 {
            return None;
        }

        Some(Self::new(
            scaled.x / length,
            scaled.y / length,
            scaled.z / length,
            scaled.w / length,
        ))
    }

    pub const fn is_finite(self) -> bool {
        self.x.is_finite() && self.y.is_finite() && self.z.is_finite() && self.w.is_finite()
    }

    pub fn is_normalized(self) -> bool {
        // ORACLE: the rotation test of SPECIFICATION §5 (refusal 6) stands in for the length
        // within 8 epsilon: squares summed from the left, within 2^-44 of 1.
        self.is_finite() && (self.length_squared() - 1.0).abs() <= archive::ROTATION_TOLERANCE
    }

    /// Rotates a vector, returning `None` for invalid inputs or overflow.
    pub fn rotate_vector(self, vector: Vec3) -> Option<Vec3> {
        if !vector.is_finite() {
            return None;
        }
        let rotation = self.try_normalize()?;
        let vector_part = Vec3::new(rotation.x, rotation.y, rotation.z);
        let first_cross = vector_part.cross(vector);
        let rotated =
            vector + first_cross * (2.0 * rotation.w) + vector_part.cross(first_cross) * 2.0;
        rotated.is_finite().then_some(rotated)
    }

    /// Returns the corresponding column-major rotation matrix.
    pub fn to_mat3(self) -> Option<Mat3> {
        let rotation = self.try_normalize()?;
        let (x, y, z, w) = (rotation.x, rotation.y, rotation.z, rotation.w);

        Some(Mat3::from_cols(
            Vec3::new(
                1.0 - 2.0 * (y * y + z * z),
                2.0 * (x * y + z * w),
                2.0 * (x * z - y * w),
            ),
            Vec3::new(
                2.0 * (x * y - z * w),
                1.0 - 2.0 * (x * x + z * z),
                2.0 * (y * z + x * w),
            ),
            Vec3::new(
                2.0 * (x * z + y * w),
                2.0 * (y * z - x * w),
                1.0 - 2.0 * (x * x + y * y),
            ),
        ))
    }

    /// Integrates world-space angular velocity over `dt` radians-per-second.
    ///
    /// The world-space rotation increment is left-multiplied onto this
    /// orientation. Negative finite `dt` integrates backward in time.
    pub fn integrate_world_angular_velocity(self, angular_velocity: Vec3, dt: f64) -> Option<Self> {
        if !angular_velocity.is_finite() || !dt.is_finite() {
            return None;
        }

        let rotation_vector = angular_velocity * dt;
        if !rotation_vector.is_finite() {
            return None;
        }
        let angle = rotation_vector.length();
        if !angle.is_finite() {
            return None;
        }

        let delta = if angle < 1e-8 {
            let angle_squared = angle * angle;
            Self::new(
                rotation_vector.x * (0.5 - angle_squared / 48.0),
                rotation_vector.y * (0.5 - angle_squared / 48.0),
                rotation_vector.z * (0.5 - angle_squared / 48.0),
                1.0 - angle_squared / 8.0,
            )
        } else {
            let axis = rotation_vector / angle;
            let half_angle = angle * 0.5;
            // ORACLE: the archive's sine and cosine for the system's; a half angle
            // above 4 gives `None`, which the step answers with 11.
            let (sin, cos) = archive::sin_cos(half_angle)?;
            Self::new(axis.x * sin, axis.y * sin, axis.z * sin, cos)
        };

        (delta * self.try_normalize()?).try_normalize()
    }
}

impl Mul for Quat {
    type Output = Self;

    fn mul(self, rhs: Self) -> Self::Output {
        Self::new(
            self.w * rhs.x + self.x * rhs.w + self.y * rhs.z - self.z * rhs.y,
            self.w * rhs.y - self.x * rhs.z + self.y * rhs.w + self.z * rhs.x,
            self.w * rhs.z + self.x * rhs.y - self.y * rhs.x + self.z * rhs.w,
            self.w * rhs.w - self.x * rhs.x - self.y * rhs.y - self.z * rhs.z,
        )
    }
}
