// ORACLE: added; the original is not among the files of docs/src. The cases are
// those that mass.rs names. A step gives none of them.

/// Invalid mass properties.
#[derive(Clone, Copy, Debug, PartialEq, Eq)]
pub enum MassError {
    NonFiniteMass,
    NonPositiveMass,
    NonFiniteCenterOfMass,
    NonFiniteInertia,
    NonSymmetricInertia,
    NonPositiveDefiniteInertia,
    NonPhysicalInertia,
    EmptyComposition,
    ArithmeticOverflow,
}
