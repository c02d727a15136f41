// ORACLE: added; `JointConstraint` names this type, whose file is not among the
// files of docs/src. A step never looks at it.

/// Number of a joint in its world.
#[derive(Clone, Copy, Debug, PartialEq, Eq)]
pub struct JointId(pub usize);
