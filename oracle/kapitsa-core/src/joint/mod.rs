// ORACLE: of the original's modules those stand here that the constrained step
// needs. The ten kinds' own files are not among the files of docs/src; `kinds` has
// their fields as this file and geometry.rs use them.
mod common;
pub(crate) mod constrained;
mod error;
mod kinds;
mod solver;

pub use common::{JointCommon, JointDrive, JointFrame, JointLimit, JointMotion};
pub use error::JointError;
pub use kinds::{
    BallJoint, ConeTwistJoint, CylindricalJoint, D6Joint, DistanceJoint, FixedJoint, HingeJoint,
    PlanarJoint, SliderJoint, SpringJoint,
};
pub(crate) use solver::JointConstraint;

/// Statically dispatched constraint kinds supported by Kapitsa.
// Inline Copy settings avoid per-joint heap allocations in the solver path.
#[allow(clippy::large_enum_variant)]
#[derive(Clone, Copy, Debug, PartialEq)]
pub enum Joint {
    Fixed(FixedJoint),
    Hinge(HingeJoint),
    Slider(SliderJoint),
    Ball(BallJoint),
    Cylindrical(CylindricalJoint),
    Planar(PlanarJoint),
    Distance(DistanceJoint),
    Spring(SpringJoint),
    ConeTwist(ConeTwistJoint),
    D6(D6Joint),
}

impl Joint {
    pub(crate) fn supports_free_bilateral(&self) -> bool {
        let common = self.common();
        if !common.enabled
            || common.compliance != 0.0
            || common.damping != 0.0
            || common.break_force.is_some()
            || common.break_torque.is_some()
        {
            return false;
        }
        match self {
            Self::Ball(joint) => joint.swing_limit.is_none() && joint.twist_limit.is_none(),
            Self::Fixed(_) => true,
            Self::Hinge(joint) => joint.angle_limit.is_none() && !joint.drive.enabled,
            Self::Slider(joint) => joint.translation_limit.is_none() && !joint.drive.enabled,
            Self::Cylindrical(joint) => {
                joint.translation_limit.is_none()
                    && joint.angle_limit.is_none()
                    && !joint.translation_drive.enabled
                    && !joint.angular_drive.enabled
            }
            Self::Planar(joint) => {
                joint.translation_limits.iter().all(Option::is_none)
                    && joint.rotation_limit.is_none()
                    && joint.translation_drives.iter().all(|drive| !drive.enabled)
                    && !joint.rotation_drive.enabled
            }
            Self::Distance(joint) => joint.distance_limit.lower == joint.distance_limit.upper,
            Self::D6(joint) => {
                joint
                    .linear_motion
                    .iter()
                    .chain(&joint.angular_motion)
                    .all(|motion| matches!(motion, JointMotion::Locked | JointMotion::Free))
                    && joint
                        .linear_drives
                        .iter()
                        .chain(&joint.angular_drives)
                        .all(|drive| !drive.enabled)
            }
            Self::ConeTwist(joint) => {
                let free_twist = joint.twist_limit.lower <= -std::f64::consts::PI
                    && joint.twist_limit.upper >= std::f64::consts::PI;
                joint
                    .swing_limit
                    .iter()
                    .all(|angle| *angle == 0.0 || *angle == std::f64::consts::PI)
                    && (free_twist || joint.twist_limit.lower == joint.twist_limit.upper)
            }
            Self::Spring(_) => false,
        }
    }

    pub fn common(&self) -> &JointCommon {
        match self {
            Self::Fixed(joint) => &joint.common,
            Self::Hinge(joint) => &joint.common,
            Self::Slider(joint) => &joint.common,
            Self::Ball(joint) => &joint.common,
            Self::Cylindrical(joint) => &joint.common,
            Self::Planar(joint) => &joint.common,
            Self::Distance(joint) => &joint.common,
            Self::Spring(joint) => &joint.common,
            Self::ConeTwist(joint) => &joint.common,
            Self::D6(joint) => &joint.common,
        }
    }

    /// Validates all common and type-specific settings before storage or solving.
    pub fn validate(&self) -> Result<(), JointError> {
        self.common().validate()?;
        match self {
            Self::Fixed(_) => {}
            Self::Hinge(joint) => {
                validate_limit(joint.angle_limit)?;
                joint.drive.validate()?;
            }
            Self::Slider(joint) => {
                validate_limit(joint.translation_limit)?;
                joint.drive.validate()?;
            }
            Self::Ball(joint) => {
                if joint.swing_limit.is_some_and(|angle| {
                    !angle.is_finite() || !(0.0..=std::f64::consts::PI).contains(&angle)
                }) {
                    return Err(JointError::InvalidLimit);
                }
                validate_limit(joint.twist_limit)?;
            }
            Self::Cylindrical(joint) => {
                validate_limit(joint.translation_limit)?;
                validate_limit(joint.angle_limit)?;
                joint.translation_drive.validate()?;
                joint.angular_drive.validate()?;
            }
            Self::Planar(joint) => {
                for limit in joint.translation_limits {
                    validate_limit(limit)?;
                }
                validate_limit(joint.rotation_limit)?;
                for drive in joint.translation_drives {
                    drive.validate()?;
                }
                joint.rotation_drive.validate()?;
            }
            Self::Distance(joint) => joint.distance_limit.validate()?,
            Self::Spring(joint) => {
                if !joint.rest_length.is_finite() || joint.rest_length < 0.0 {
                    return Err(JointError::InvalidLimit);
                }
                if !joint.stiffness.is_finite() || joint.stiffness < 0.0 {
                    return Err(JointError::InvalidStiffness);
                }
                if !joint.spring_damping.is_finite() || joint.spring_damping < 0.0 {
                    return Err(JointError::InvalidDamping);
                }
                validate_limit(joint.distance_limit)?;
            }
            Self::ConeTwist(joint) => {
                if joint.swing_limit.iter().any(|angle| {
                    !angle.is_finite() || !(0.0..=std::f64::consts::PI).contains(angle)
                }) {
                    return Err(JointError::InvalidLimit);
                }
                joint.twist_limit.validate()?;
            }
            Self::D6(joint) => {
                for motion in joint.linear_motion.into_iter().chain(joint.angular_motion) {
                    motion.validate()?;
                }
                for drive in joint.linear_drives.into_iter().chain(joint.angular_drives) {
                    drive.validate()?;
                }
            }
        }
        Ok(())
    }

    pub fn set_enabled(&mut self, enabled: bool) {
        match self {
            Self::Fixed(joint) => joint.common.enabled = enabled,
            Self::Hinge(joint) => joint.common.enabled = enabled,
            Self::Slider(joint) => joint.common.enabled = enabled,
            Self::Ball(joint) => joint.common.enabled = enabled,
            Self::Cylindrical(joint) => joint.common.enabled = enabled,
            Self::Planar(joint) => joint.common.enabled = enabled,
            Self::Distance(joint) => joint.common.enabled = enabled,
            Self::Spring(joint) => joint.common.enabled = enabled,
            Self::ConeTwist(joint) => joint.common.enabled = enabled,
            Self::D6(joint) => joint.common.enabled = enabled,
        }
    }

    pub(crate) fn with_frames(mut self, frame_a: JointFrame, frame_b: JointFrame) -> Self {
        match &mut self {
            Self::Fixed(joint) => {
                joint.common.frame_a = frame_a;
                joint.common.frame_b = frame_b;
            }
            Self::Hinge(joint) => {
                joint.common.frame_a = frame_a;
                joint.common.frame_b = frame_b;
            }
            Self::Slider(joint) => {
                joint.common.frame_a = frame_a;
                joint.common.frame_b = frame_b;
            }
            Self::Ball(joint) => {
                joint.common.frame_a = frame_a;
                joint.common.frame_b = frame_b;
            }
            Self::Cylindrical(joint) => {
                joint.common.frame_a = frame_a;
                joint.common.frame_b = frame_b;
            }
            Self::Planar(joint) => {
                joint.common.frame_a = frame_a;
                joint.common.frame_b = frame_b;
            }
            Self::Distance(joint) => {
                joint.common.frame_a = frame_a;
                joint.common.frame_b = frame_b;
            }
            Self::Spring(joint) => {
                joint.common.frame_a = frame_a;
                joint.common.frame_b = frame_b;
            }
            Self::ConeTwist(joint) => {
                joint.common.frame_a = frame_a;
                joint.common.frame_b = frame_b;
            }
            Self::D6(joint) => {
                joint.common.frame_a = frame_a;
                joint.common.frame_b = frame_b;
            }
        }
        self
    }
}

fn validate_limit(limit: Option<JointLimit>) -> Result<(), JointError> {
    if let Some(limit) = limit {
        limit.validate()?;
    }
    Ok(())
}
