//! What the programs beside `oracle-pose` share: containers of plans, random plans,
//! and a census of the answers.

pub mod census;
pub mod container;
pub mod draft;
pub mod random;
pub mod scenes;
