// ORACLE: added; of the original's module only the errors are called.
mod error;

pub use error::{CollisionError, QueryError};
