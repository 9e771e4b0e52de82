//! The other side of each comparison: the same functions in plain Rust, with the same refusals, bounds and output bytes.
pub mod bulk_receiver;
pub mod checks;
pub mod i2c;
pub mod receiver;
pub mod usb;
pub mod wire;
pub mod writer;
