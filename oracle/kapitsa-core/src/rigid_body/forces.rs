// ORACLE: added; the original is not among the files of docs/src. The fields and
// accessors are those that rigid_body.rs and constrained/solver.rs use. A step
// neither reads nor changes a force.
use kapitsa_math::Vec3;

/// Accumulated world-space force and torque.
#[derive(Clone, Copy, Debug, PartialEq)]
pub struct BodyForces {
    pub(super) force: Vec3,
    pub(super) torque: Vec3,
}

impl BodyForces {
    pub fn force(&self) -> Vec3 {
        self.force
    }

    pub fn torque(&self) -> Vec3 {
        self.torque
    }
}
