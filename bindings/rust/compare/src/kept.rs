//! Where the Rust parts from the documents and the port follows it, as docs/DIFFERENCES.md has it: both sides give the same.

use crate::answers::{outcome, Outcome, Part};
use crate::shown::{both, port_heard, rust_heard, HeardAll};
use crate::streams::{frame_of, CASE_A, CASE_N_HISTORY, FLAG};
use crate::{port_side, rust_side};
use std::fmt::Debug;

/// The frame of case A, as document 01 prints it.
const CASE_A_FRAME: [u8; 12] = [
    0x7e, 0x01, 0x05, 0x01, 0x0a, 0x09, 0xc8, 0x7d, 0x5e, 0x2d, 0xba, 0x7e,
];

/// Shows them all, and says whether each is so.
pub fn show() -> bool {
    println!("where both part from the documents:");
    let shown = [
        check_bytes(),
        flag_not_needed(),
        lost_without_end(),
        three_flags(),
        i2c_low_bits(),
        usb_third_byte(),
    ];
    shown.iter().all(|right| *right)
}

/// Whether both sides give this.
fn alike<T: PartialEq + Debug + Clone>(what: &str, rust: T, port: T, wanted: T) -> bool {
    both(what, (rust, wanted.clone()), (port, wanted))
}

/// Whether both sides hand out these packets.
fn hand_out(what: &str, stream: &[u8], packets: &[&[u8]]) -> bool {
    let of = |heard: Outcome<HeardAll>| match heard {
        Outcome::Given((packets, _)) => Outcome::Given(packets),
        Outcome::Panicked(message) => Outcome::Panicked(message),
    };
    let wanted = packets.iter().map(|packet| packet.to_vec()).collect();
    let (rust, port) = (of(rust_heard(stream)), of(port_heard(stream)));
    alike(what, rust, port, Outcome::Given(wanted))
}

fn check_bytes() -> bool {
    alike(
        "case A's frame: the check's register as it stands, high byte first",
        outcome(|| rust_side::frame(&CASE_A, 12).out),
        outcome(|| port_side::frame(&CASE_A, 12).out),
        Outcome::Given(CASE_A_FRAME.to_vec()),
    )
}

/// Another byte than the flag in FrameEnd lets the next 01 open a frame.
fn flag_not_needed() -> bool {
    let packet = [0x01, 0x0a, 0x09, 0xc8, 0x00];
    let unclosed = [FLAG, 0x01, 0x01, 0x00, 0x00, 0x00, 0x00];
    hand_out(
        "7e 01 01 00 00 00 00 and a frame without its opening flag: its packet is handed out",
        &[&unclosed[..], &frame_of(&packet)[1..]].concat(),
        &[&packet],
    )
}

fn lost_without_end() -> bool {
    let packet = [&[0x01, 0x01, 0, 0, 0, 0, 0x01, 0x77][..], &[0; 118]].concat();
    hand_out(
        "case N's history and 1000 frames of the lost packet: nothing is handed out",
        &[&CASE_N_HISTORY[..], &frame_of(&packet).repeat(1000)].concat(),
        &[],
    )
}

fn three_flags() -> bool {
    hand_out(
        "case N, two flags and then case A's frame: nothing is handed out",
        &[&CASE_N_HISTORY[..], &CASE_A_FRAME].concat(),
        &[],
    ) & hand_out(
        "the same with three flags: the packet is handed out",
        &[&CASE_N_HISTORY[..], &[FLAG], &CASE_A_FRAME].concat(),
        &[&CASE_A],
    )
}

/// An empty part behind a header of four bytes, which both wires have.
const NOTHING_BEHIND_HEADER: Part = Part {
    place: 4,
    length: 0,
};

fn i2c_low_bits() -> bool {
    let input = [0x3b, 0x0f, 0x01, 0x40];
    alike(
        "I2C 3b 0f 01 40, low bits as no sender sets them: an empty payload from 20",
        outcome(|| rust_side::i2c_decode(&input, false)),
        outcome(|| port_side::i2c_decode(&input, false)),
        Outcome::Given(Ok((0x20, NOTHING_BEHIND_HEADER))),
    )
}

fn usb_third_byte() -> bool {
    let input = [0x1a, 0xb4, 0xff, 0x04];
    alike(
        "USB 1a b4 ff 04, a third byte as no sender sets it: an empty packet",
        outcome(|| rust_side::usb_decode(&input)),
        outcome(|| port_side::usb_decode(&input)),
        Outcome::Given(Ok((NOTHING_BEHIND_HEADER, NOTHING_BEHIND_HEADER))),
    )
}
