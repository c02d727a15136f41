// ORACLE: added; the original's lib.rs is not among the files of docs/src.
//! Vectors, matrices and quaternions, over the arithmetic fixed for the archive.

pub mod archive;
mod matrix;
mod quaternion;
mod vector;

pub use matrix::{Cholesky3, CholeskyError, Mat3};
pub use quaternion::Quat;
pub use vector::Vec3;
