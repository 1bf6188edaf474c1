//! What engines are tried on: theories in a readable notation, fixed cases
//! with the answers due, the cases of the stored programs, and generators.

pub mod chains;
pub mod checkpoints;
pub mod fixed;
pub mod full_log;
pub mod generate;
pub mod kept;
pub mod notation;
pub mod pairs;
pub mod programs;
pub mod put_back;
pub mod questions;
pub mod resumptions;
pub mod slices;
pub mod theories;
