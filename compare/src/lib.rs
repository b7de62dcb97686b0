//! The proved calls as safe Rust functions. Each takes what the second program's function of the same
//! name takes and gives what that gives, so a comparison is one call of each on the same input.
//!
//! Only numbers and slices of numbers cross the boundary (`proved`). The proved functions take any of these,
//! so no wrapper has anything to test first.
//!
//! Beside them, what the comparisons share: `both`, `seeds` and `folders`.

pub mod both;
pub mod folders;
pub mod listing;
pub mod network;
pub mod panel;
mod proved;
pub mod seeds;
pub mod wire;
