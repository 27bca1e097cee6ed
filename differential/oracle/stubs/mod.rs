//! The root of the Rust's files and of the stubs beside them, as build.rs lays them out.

pub mod ir;
pub mod mosaic;
pub mod simplify;
