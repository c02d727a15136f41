// ORACLE: added; the original is not among the files of docs/src. The cases are
// those that rigid_body.rs and joint/solver.rs name.

/// Refused change of a rigid body.
#[derive(Clone, Copy, Debug, PartialEq, Eq)]
pub enum BodyError {
    NonFiniteValue,
    ArithmeticOverflow,
    InvalidInertiaTensor,
    BodyMustBeDynamic,
    StaticBodyCannotHaveVelocity,
}
