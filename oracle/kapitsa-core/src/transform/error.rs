// ORACLE: added; the original is not among the files of docs/src. The cases are
// those that transform.rs names. A step answers 11 for each of them.

/// Invalid translation or rotation.
#[derive(Clone, Copy, Debug, PartialEq, Eq)]
pub enum TransformError {
    NonFiniteTranslation,
    InvalidRotation,
    CompositionOverflow,
    InverseOverflow,
}
