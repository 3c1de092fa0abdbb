//! Tests: makes every call of the library through the binding, and compares each answer with what the papers say.
//!
//!     rustc --test --edition 2021 -O -D warnings -L FOLDER examples/rust/every_call.rs -o every_call && ./every_call
//!
//! FOLDER has libvelgrodis.a. Status 0 if all is as expected.
#![deny(unsafe_code)]

pub mod velgrodis;

#[cfg(test)]
mod tests;
