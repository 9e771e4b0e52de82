//! Every function that `pulevago.h` declares, called by its declaration in `ffi` and through the safe crate, on memory with guards
//! around it. Answers are typed from document 01, or made by `document01`, a reading of it that shares nothing with the archive.

mod check_values;
mod document01;
mod histories;
mod i2c;
mod lent;
mod marked_cases;
mod over_32_bits;
mod random;
mod receiver;
mod serial_frames;
mod states;
mod taker;
mod usb;
mod usb_transfers;
