//! The archive's functions as the header `pulevago.h` declares them, and its constants, under the same names.
//!
//! Nothing checks these declarations against the archive when they are linked; the tests of this crate call each of them. What each
//! function does is said in the header.
//!
//! # Safety
//!
//! What a caller owes in every call: each pointer is not null, also where its length is 0, and points to as many bytes as its length
//! says; what a call may write (each `*mut`) overlaps nothing else that the call is given. Calls keep nothing of what they were
//! lent. Nothing is global: calls on different memory may run at the same time.

#![allow(missing_docs)] // the header says what each function does

pub const PULEVAGO_DONE: u32 = 0;
pub const PULEVAGO_BAD_LENGTH: u32 = 1;
pub const PULEVAGO_SHORT_OUTPUT: u32 = 2;
pub const PULEVAGO_BAD_ARGUMENT: u32 = 3;
pub const PULEVAGO_BAD_ADDRESS: u32 = 4;
pub const PULEVAGO_INVALID_INPUT: u32 = 5;
pub const PULEVAGO_BAD_PACKET: u32 = 6;
pub const PULEVAGO_RX_FAILURE: u32 = 7;
pub const PULEVAGO_NO_ROOM: u32 = 8;
pub const PULEVAGO_INCONSISTENT: u32 = 9;

pub const PULEVAGO_RECEIVER_SIZE: usize = 263;

pub const PULEVAGO_FRAME_MAX: usize = 516;
pub const PULEVAGO_PACKET_MAX: usize = 255;
pub const PULEVAGO_I2C_FRAME_MAX: usize = 259;
pub const PULEVAGO_USB_HEADER_SIZE: usize = 4;
pub const PULEVAGO_USB_TRANSFER_MAX: usize = 512;

pub const PULEVAGO_TOOK_PACKET: u8 = 0;
pub const PULEVAGO_INPUT_ENDED: u8 = 1;
pub const PULEVAGO_ALLOWANCE_SPENT: u8 = 2;

unsafe extern "C" {
    // check values
    pub fn pulevago_frame_check(input: *const u8, input_length: usize, check: *mut u16) -> u32;
    pub fn pulevago_frame_check_from(
        before: u16,
        input: *const u8,
        input_length: usize,
        check: *mut u16,
    ) -> u32;
    pub fn pulevago_pec(input: *const u8, input_length: usize, check: *mut u8) -> u32;
    pub fn pulevago_pec_from(
        before: u8,
        input: *const u8,
        input_length: usize,
        check: *mut u8,
    ) -> u32;

    // serial
    pub fn pulevago_frame_to_serial(
        packet: *const u8,
        packet_length: usize,
        out: *mut u8,
        out_length: usize,
        written: *mut usize,
    ) -> u32;
    pub fn pulevago_receiver_fresh(state: *mut u8, state_length: usize) -> u32;
    pub fn pulevago_receiver_consistent(state: *const u8, state_length: usize) -> u32;
    pub fn pulevago_receiver_step(
        state: *mut u8,
        state_length: usize,
        byte: u8,
        place: *mut usize,
        length: *mut usize,
    ) -> u32;
    pub fn pulevago_receiver_take(
        state: *mut u8,
        state_length: usize,
        input: *const u8,
        input_length: usize,
        allowance: usize,
        out: *mut u8,
        out_length: usize,
        reason: *mut u8,
        taken: *mut usize,
        length: *mut usize,
    ) -> u32;

    // I2C
    pub fn pulevago_i2c_encode(
        own: u8,
        dest: u8,
        payload: *const u8,
        payload_length: usize,
        out: *mut u8,
        out_length: usize,
        pec: bool,
        written: *mut usize,
    ) -> u32;
    pub fn pulevago_i2c_decode(
        input: *const u8,
        input_length: usize,
        pec: bool,
        source: *mut u8,
        place: *mut usize,
        length: *mut usize,
    ) -> u32;

    // USB
    pub fn pulevago_usb_header(size: usize, out: *mut u8, out_length: usize) -> u32;
    pub fn pulevago_usb_decode(
        input: *const u8,
        input_length: usize,
        place: *mut usize,
        length: *mut usize,
        rest_place: *mut usize,
        rest_length: *mut usize,
    ) -> u32;
    pub fn pulevago_usb_walk(
        transfer: *const u8,
        transfer_length: usize,
        at: *mut usize,
        found: *mut u8,
        place: *mut usize,
        length: *mut usize,
    ) -> u32;
    pub fn pulevago_usb_append(
        packet: *const u8,
        packet_length: usize,
        out: *mut u8,
        out_length: usize,
        used: *mut usize,
    ) -> u32;
}
