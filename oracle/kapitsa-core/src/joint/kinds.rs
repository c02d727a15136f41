// ORACLE: added; the ten kinds' own files are not among the files of docs/src. The
// fields are those that joint/mod.rs and constrained/geometry.rs use.
use super::{JointCommon, JointDrive, JointLimit, JointMotion};

#[derive(Clone, Copy, Debug, PartialEq)]
pub struct FixedJoint {
    pub common: JointCommon,
}

#[derive(Clone, Copy, Debug, PartialEq)]
pub struct HingeJoint {
    pub common: JointCommon,
    pub angle_limit: Option<JointLimit>,
    pub drive: JointDrive,
}

#[derive(Clone, Copy, Debug, PartialEq)]
pub struct SliderJoint {
    pub common: JointCommon,
    pub translation_limit: Option<JointLimit>,
    pub drive: JointDrive,
}

#[derive(Clone, Copy, Debug, PartialEq)]
pub struct BallJoint {
    pub common: JointCommon,
    pub swing_limit: Option<f64>,
    pub twist_limit: Option<JointLimit>,
}

#[derive(Clone, Copy, Debug, PartialEq)]
pub struct CylindricalJoint {
    pub common: JointCommon,
    pub translation_limit: Option<JointLimit>,
    pub angle_limit: Option<JointLimit>,
    pub translation_drive: JointDrive,
    pub angular_drive: JointDrive,
}

#[derive(Clone, Copy, Debug, PartialEq)]
pub struct PlanarJoint {
    pub common: JointCommon,
    pub translation_limits: [Option<JointLimit>; 2],
    pub rotation_limit: Option<JointLimit>,
    pub translation_drives: [JointDrive; 2],
    pub rotation_drive: JointDrive,
}

#[derive(Clone, Copy, Debug, PartialEq)]
pub struct DistanceJoint {
    pub common: JointCommon,
    pub distance_limit: JointLimit,
}

#[derive(Clone, Copy, Debug, PartialEq)]
pub struct SpringJoint {
    pub common: JointCommon,
    pub rest_length: f64,
    pub stiffness: f64,
    pub spring_damping: f64,
    pub distance_limit: Option<JointLimit>,
}

#[derive(Clone, Copy, Debug, PartialEq)]
pub struct ConeTwistJoint {
    pub common: JointCommon,
    pub swing_limit: [f64; 2],
    pub twist_limit: JointLimit,
}

#[derive(Clone, Copy, Debug, PartialEq)]
pub struct D6Joint {
    pub common: JointCommon,
    pub linear_motion: [JointMotion; 3],
    pub angular_motion: [JointMotion; 3],
    pub linear_drives: [JointDrive; 3],
    pub angular_drives: [JointDrive; 3],
}
