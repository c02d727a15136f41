// ORACLE: an extract. Of the original's 4,551 lines these are what constrained/ calls
// or names: `JointConstraint`, the rotation error of Fixed, Slider and D6 (kinds
// that no plan holds yet) and `map_rigid_body_error`.
use crate::collision::CollisionError;
use kapitsa_math::{Quat, Vec3, archive};

#[derive(Clone, Copy)]
pub(crate) struct JointConstraint {
    pub(crate) id: crate::world::JointId,
    pub(crate) body_a: usize,
    pub(crate) body_b: usize,
    pub(crate) joint: super::Joint,
}

pub(super) fn relative_rotation_error(
    rotation_a: Quat,
    rotation_b: Quat,
) -> Result<Vec3, CollisionError> {
    let relative = canonical_relative_rotation(rotation_a, rotation_b)?;
    let vector = Vec3::new(relative.x, relative.y, relative.z);
    let sine = vector
        .checked_length()
        .ok_or(CollisionError::ArithmeticOverflow)?;
    if sine <= f64::MIN_POSITIVE {
        return Ok(Vec3::ZERO);
    }
    // ORACLE: the archive's arc tangent for the system's.
    let angle = 2.0 * archive::atan2(sine, relative.w).ok_or(CollisionError::ArithmeticOverflow)?;
    vector
        .checked_mul_scalar(angle / sine)
        .ok_or(CollisionError::ArithmeticOverflow)
}

fn canonical_relative_rotation(rotation_a: Quat, rotation_b: Quat) -> Result<Quat, CollisionError> {
    let mut relative = (rotation_a.conjugate() * rotation_b)
        .try_normalize()
        .ok_or(CollisionError::ArithmeticOverflow)?;
    if relative.w < 0.0 {
        relative = Quat::new(-relative.x, -relative.y, -relative.z, -relative.w);
    }
    Ok(relative)
}

pub(super) fn fixed_rotation_coefficient(rotation_error: Vec3) -> Result<f64, CollisionError> {
    let angle_squared = rotation_error
        .checked_dot(rotation_error)
        .ok_or(CollisionError::ArithmeticOverflow)?;
    if !angle_squared.is_finite() {
        return Err(CollisionError::ArithmeticOverflow);
    }

    // The FixedJoint error is log(R_a^-1 R_b). Its derivative for world-space
    // angular velocities uses J_l^-1(phi); row gradients use its transpose.
    let coefficient = if angle_squared < 1.0e-4 {
        1.0 / 12.0 + angle_squared / 720.0 + angle_squared * angle_squared / 30_240.0
    } else {
        let angle = angle_squared.sqrt();
        let half_angle = angle * 0.5;
        // ORACLE: the archive's sine and cosine for the system's.
        let (sin, cos) = archive::sin_cos(half_angle).ok_or(CollisionError::ArithmeticOverflow)?;
        1.0 / angle_squared - cos / (2.0 * angle * sin)
    };
    if !coefficient.is_finite() {
        return Err(CollisionError::ArithmeticOverflow);
    }
    Ok(coefficient)
}

pub(super) fn fixed_rotation_row_axis(
    rotation_a: Quat,
    rotation_error: Vec3,
    local_axis: Vec3,
    coefficient: f64,
) -> Result<Vec3, CollisionError> {
    if !local_axis.is_finite() {
        return Err(CollisionError::ArithmeticOverflow);
    }

    let first_cross = rotation_error
        .checked_cross(local_axis)
        .ok_or(CollisionError::ArithmeticOverflow)?;
    let second_cross = rotation_error
        .checked_cross(first_cross)
        .ok_or(CollisionError::ArithmeticOverflow)?;
    let local_gradient = local_axis
        .checked_add(first_cross * 0.5)
        .and_then(|value| value.checked_add(second_cross * coefficient))
        .ok_or(CollisionError::ArithmeticOverflow)?;
    rotation_a
        .rotate_vector(local_gradient)
        .filter(|axis| axis.is_finite())
        .ok_or(CollisionError::ArithmeticOverflow)
}

pub(super) fn map_rigid_body_error(error: crate::rigid_body::BodyError) -> CollisionError {
    match error {
        crate::rigid_body::BodyError::ArithmeticOverflow
        | crate::rigid_body::BodyError::NonFiniteValue => CollisionError::ArithmeticOverflow,
        crate::rigid_body::BodyError::InvalidInertiaTensor => CollisionError::NonConvergent,
        crate::rigid_body::BodyError::BodyMustBeDynamic
        | crate::rigid_body::BodyError::StaticBodyCannotHaveVelocity => {
            CollisionError::InvalidContact
        }
    }
}
