//! A second inspection program, written from `docs/` alone: bytes in, transcript out.
//! It shares no code and no table with the proved crates.

pub mod deciding;
pub mod lists;
pub mod sheet;
pub mod tables;
pub mod text;

pub use text::{inspect, transcript};
