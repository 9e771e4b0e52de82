//! The serial (DSP0253), I2C (DSP0237) and USB (DSP0283) bindings of MCTP, proved in Rattle, as a safe Rust crate.
//!
//! What runs is the archive `libpulevago.a`; every function here is a thin call of one of its functions ([`ffi`]), with Rust's
//! slices for pointers and lengths, and [`Error`] for the numbers that refuse. A refusal changes nothing that was lent, and on
//! success the bytes of an output beyond the written part keep their content.
//!
//! What is proved of the archive's functions, and what is not, is in the repository's `README.md`. This crate itself is tested, not
//! proved. Where an answer comes that the proof excludes, so that crate and archive don't belong together, it panics and says
//! which; it never reads outside of what it was lent.

#![no_std]
#![deny(missing_docs, unsafe_op_in_unsafe_fn)]

mod answers;
pub mod checks;
mod error;
pub mod ffi;
pub mod i2c;
pub mod serial;
pub mod usb;

pub use error::Error;

/// The examples of `README.md`, which are run with the other documentation tests.
#[cfg(doctest)]
#[doc = include_str!("../README.md")]
struct Readme;
