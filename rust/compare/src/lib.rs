//! The two engines behind one interface, the inputs that are compared, the
//! answers to the fixed ones, the summary, and the stack that the calls take.

pub mod call;
pub mod check;
pub mod comparison;
pub mod fixed;
pub mod inputs;
pub mod lent;
#[cfg(not(feature = "selfcheck"))]
pub mod proved;
pub mod stack;
pub mod summary;

pub use call::{Engine, RustEngine};

#[cfg(feature = "selfcheck")]
pub use call::RustEngine as ProvedEngine;
/// The proved library, or the Rust engine once more for a self-check.
#[cfg(not(feature = "selfcheck"))]
pub use proved::ProvedEngine;

/// What stands behind `ProvedEngine`.
pub const LEFT_ENGINE: &str = match cfg!(feature = "selfcheck") {
    true => "The Rust engine once more",
    false => "The proved library",
};
