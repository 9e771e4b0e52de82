//! The receiver's taker.

use pulevago::serial::{Reason, Receiver, Taken, PACKET_MAX, RECEIVER_SIZE};
use pulevago::{ffi, Error};

use crate::document01::{FRAME_A, PACKET_A};
use crate::lent::{filler, filler_with, Lent, LentNumber, NARROW, WIDE};

/// Its reason, the bytes taken and the packet's length, and the whole output; or the number that refused.
type Took = Result<(Taken, Vec<u8>), u32>;

pub fn take(state: &mut Lent, input: &[u8], allowance: usize, room: usize) -> Took {
    let safe = Receiver::from_bytes(state.bytes());
    let mut lent = Lent::of(input);
    let mut out = Lent::room(room);
    let mut reason = LentNumber::of(NARROW);
    let mut taken = LentNumber::of(WIDE);
    let mut length = LentNumber::of(WIDE);
    let number = unsafe {
        ffi::pulevago_receiver_take(
            state.pointer(),
            state.length(),
            lent.pointer(),
            lent.length(),
            allowance,
            out.pointer(),
            out.length(),
            reason.pointer(),
            taken.pointer(),
            length.pointer(),
        )
    };
    assert_eq!(lent.bytes(), input);
    let answer = if number == 0 {
        let reasons = [Reason::Packet, Reason::InputEnded, Reason::AllowanceSpent];
        Ok(Taken {
            reason: reasons[usize::from(reason.value())],
            taken: taken.value(),
            length: length.value(),
        })
    } else {
        reason.assert_unchanged();
        taken.assert_unchanged();
        length.assert_unchanged();
        assert_eq!(out.bytes(), filler(room));
        Err(number)
    };

    let mut safe_out = Lent::room(room);
    let by_the_crate = safe.and_then(|mut receiver| {
        let answer = receiver.take_at_most(input, allowance, safe_out.slice());
        assert_eq!(receiver.as_bytes(), state.bytes());
        answer
    });
    assert_eq!(safe_out.bytes(), out.bytes());
    assert_eq!(by_the_crate.map_err(Error::number), answer);
    answer.map(|taken| (taken, out.bytes().to_vec()))
}

fn fresh() -> Lent {
    Lent::of(&[0; RECEIVER_SIZE])
}

fn done(reason: Reason, taken: usize, packet: &[u8], room: usize) -> Took {
    let length = packet.len();
    let answer = Taken {
        reason,
        taken,
        length,
    };
    Ok((answer, filler_with(room, 0, packet)))
}

/// The state that a fresh receiver is in after these bytes, fed one by one.
fn state_after(stream: &[u8]) -> Vec<u8> {
    let mut receiver = Receiver::new();
    for &byte in stream {
        receiver.step(byte);
    }
    receiver.as_bytes().to_vec()
}

#[test]
fn a_packet_and_the_rest_of_the_input_not_taken() {
    let mut state = fresh();
    let stream = [&FRAME_A[..], &[0x7e, 0x01, 0x05]].concat();
    let wanted = done(Reason::Packet, 12, &PACKET_A, 300);
    assert_eq!(take(&mut state, &stream, 100, 300), wanted);
    assert_eq!(state.bytes(), state_after(&FRAME_A));
}

#[test]
fn each_reason_where_several_hold() {
    let whole = FRAME_A.len();
    // packet, input's end and allowance at once; input's end and allowance; allowance alone
    let wanted = done(Reason::Packet, whole, &PACKET_A, 255);
    assert_eq!(take(&mut fresh(), &FRAME_A, whole, 255), wanted);
    let wanted = done(Reason::InputEnded, 11, &[], 255);
    assert_eq!(take(&mut fresh(), &FRAME_A[..11], 11, 255), wanted);
    let wanted = done(Reason::AllowanceSpent, 11, &[], 255);
    assert_eq!(take(&mut fresh(), &FRAME_A, 11, 255), wanted);
}

#[test]
fn nothing_to_take() {
    let ended = done(Reason::InputEnded, 0, &[], 255);
    assert_eq!(take(&mut fresh(), &[], 0, 255), ended);
    assert_eq!(take(&mut fresh(), &[], usize::MAX, 255), ended);
    let spent = done(Reason::AllowanceSpent, 0, &[], 255);
    assert_eq!(take(&mut fresh(), &FRAME_A, 0, 255), spent);
}

#[test]
fn allowances_over_32_bits() {
    for allowance in [1 << 32, (1 << 32) + 5, usize::MAX >> 1, usize::MAX] {
        let wanted = done(Reason::Packet, 12, &PACKET_A, 255);
        assert_eq!(take(&mut fresh(), &FRAME_A, allowance, 255), wanted);
    }
}

#[test]
fn a_short_output_leaves_the_state() {
    for room in [0, 1, 5, 254] {
        for fed in [0, 1, 7, 11] {
            let before = state_after(&FRAME_A[..fed]);
            let mut state = Lent::of(&before);
            assert_eq!(take(&mut state, &FRAME_A[fed..], 100, room), Err(2));
            assert_eq!(state.bytes(), before);
        }
    }
}

#[test]
fn a_frame_cut_anywhere() {
    for cut in 0..FRAME_A.len() {
        let (first, second) = FRAME_A.split_at(cut);
        let mut state = fresh();
        let wanted = done(Reason::InputEnded, cut, &[], 255);
        assert_eq!(take(&mut state, first, 100, 255), wanted);
        assert_eq!(state.bytes(), state_after(first));
        let wanted = done(Reason::Packet, 12 - cut, &PACKET_A, 255);
        assert_eq!(take(&mut state, second, 100, 255), wanted);
        assert_eq!(state.bytes(), state_after(&FRAME_A));
    }
}

#[test]
fn take_moves_the_input_on() {
    let stream = [&FRAME_A[..], &FRAME_A[..], &[0x7e, 0x01]].concat();
    let mut input = &stream[..];
    let mut out = [0; PACKET_MAX];
    let mut receiver = Receiver::new();
    for left in [14, 2] {
        assert_eq!(receiver.take(&mut input, &mut out), Some(&PACKET_A[..]));
        assert_eq!(input, &stream[stream.len() - left..]);
    }
    assert_eq!(receiver.take(&mut input, &mut out), None);
    assert!(input.is_empty());
    assert_eq!(receiver.as_bytes()[..], state_after(&stream));
    assert_eq!(receiver.take(&mut input, &mut out), None);
    assert_eq!(receiver.as_bytes()[..], state_after(&stream));
}
