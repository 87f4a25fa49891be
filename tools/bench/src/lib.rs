//! The hand-tuned coder, the yardstick for the library's speed, the exported functions that are measured beside it, and frames
//! with large coordinates to compare them on.

#[cfg(feature = "library")]
pub mod exported;
pub mod far;
pub mod hand;
pub mod random;
