//! The C library as Rust calls it, and an independent implementation to compare it with.

pub mod draws;
pub mod format;
pub mod judge;
pub mod library;
pub mod player;
pub mod random;
