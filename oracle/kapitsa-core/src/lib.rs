// ORACLE: added; the original's lib.rs is not among the files of docs/src.
//! The constrained step of jointed bodies, and the plan file around it.

// The files are carried whole, and a step calls only a part of them.
#![allow(dead_code, unused_imports)]

pub mod collision;
pub(crate) mod constraint;
pub mod joint;
pub mod mass;
pub mod plan;
pub mod rigid_body;
pub mod step;
pub mod transform;
pub mod world;
