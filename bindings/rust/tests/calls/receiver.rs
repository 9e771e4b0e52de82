//! The receiver's step, and making a state a fresh one.

use pulevago::serial::{Receiver, RECEIVER_SIZE};
use pulevago::{ffi, Error};

use crate::document01::{serial_frame, FRAME_A, PACKET_A};
use crate::lent::{filler, Lent, LentNumber, WIDE};

/// Feeds one byte to the state: the packet's place and length, both 0 without one, or the number that refused.
pub fn step(state: &mut Lent, byte: u8) -> Result<(usize, usize), u32> {
    let safe = Receiver::from_bytes(state.bytes());
    let mut place = LentNumber::of(WIDE);
    let mut length = LentNumber::of(WIDE);
    let number = unsafe {
        ffi::pulevago_receiver_step(
            state.pointer(),
            state.length(),
            byte,
            place.pointer(),
            length.pointer(),
        )
    };
    let bytes = state.bytes();
    if number == 0 {
        let (place, length) = (place.value(), length.value());
        let mut safe = safe.expect("what steps is a state");
        let packet = safe.step(byte).map(<[u8]>::to_vec);
        let part = bytes[place..place + length].to_vec();
        assert_eq!(packet.unwrap_or_default(), part);
        assert_eq!(safe.as_bytes(), bytes);
        return Ok((place, length));
    }
    assert_eq!(safe.map_err(Error::number), Err(number));
    place.assert_unchanged();
    length.assert_unchanged();
    Err(number)
}

/// The packets that a fresh receiver hands out, each with the index of the byte that ended it.
fn heard(stream: &[u8]) -> Vec<(usize, Vec<u8>)> {
    let mut state = Lent::of(&[0; RECEIVER_SIZE]);
    let mut packets = Vec::new();
    for (index, &byte) in stream.iter().enumerate() {
        let (place, length) = step(&mut state, byte).expect("no state of its own is refused");
        if length > 0 {
            packets.push((index, state.bytes()[place..place + length].to_vec()));
        } else {
            assert_eq!(place, 0);
        }
    }
    packets
}

#[test]
fn case_a_on_its_last_byte() {
    assert_eq!(heard(&FRAME_A), [(11, PACKET_A.to_vec())]);
}

#[test]
fn every_length_from_1_to_255() {
    for length in 1..=255 {
        let packet = filler(length);
        let frame = serial_frame(&packet);
        assert_eq!(heard(&frame), [(frame.len() - 1, packet)]);
    }
}

#[test]
fn packets_of_flags_and_escapes() {
    for packet in [
        vec![0x7e; 255],
        vec![0x7d; 255],
        vec![0x7e],
        vec![0x7d; 126],
    ] {
        let frame = serial_frame(&packet);
        assert_eq!(heard(&frame), [(frame.len() - 1, packet)]);
    }
}

#[test]
fn frames_back_to_back() {
    let stream = [FRAME_A, FRAME_A, FRAME_A].concat();
    let packet = PACKET_A.to_vec();
    let wanted = [(11, packet.clone()), (23, packet.clone()), (35, packet)];
    assert_eq!(heard(&stream), wanted);
}

#[test]
fn every_byte_of_a_frame_changed() {
    // Whichever byte is changed, nothing is handed out: the check sees every change of one byte.
    for index in 0..FRAME_A.len() {
        for byte in (0..=255).filter(|byte| *byte != FRAME_A[index]) {
            let mut changed = FRAME_A;
            changed[index] = byte;
            assert_eq!(heard(&changed), [], "byte {index} is {byte:02x}");
        }
    }
}

#[test]
fn a_handed_out_packet_stays_until_the_next_byte() {
    let mut receiver = Receiver::new();
    for byte in FRAME_A {
        receiver.step(byte);
    }
    let saved = Receiver::from_bytes(receiver.as_bytes()).expect("a saved state");
    assert_eq!(saved, receiver);
    let stands_there = |state: &[u8]| state.windows(5).any(|five| five == PACKET_A);
    assert!(stands_there(saved.as_bytes()));
}

#[test]
fn fresh_whatever_stood_there() {
    for content in [filler(RECEIVER_SIZE), vec![0xff; RECEIVER_SIZE]] {
        let mut state = Lent::of(&content);
        let number = unsafe { ffi::pulevago_receiver_fresh(state.pointer(), state.length()) };
        assert_eq!(number, 0);
        assert_eq!(state.bytes(), [0; RECEIVER_SIZE]);
    }
    let mut receiver = Receiver::new();
    for byte in &FRAME_A[..7] {
        receiver.step(*byte);
    }
    assert_ne!(receiver, Receiver::new());
    receiver.reset();
    assert_eq!(receiver, Receiver::new());
    assert_eq!(receiver, Receiver::default());
    assert_eq!(receiver.as_bytes(), &[0; RECEIVER_SIZE]);
}
