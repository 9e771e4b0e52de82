//! States as bytes: which bytes are one, what a call does with bytes that are none, and states saved and loaded.
//!
//! The layout is that of `crates/pulevago/src/state.rt`: the position's number, the count, the stored length in two bytes, the high
//! one first, and the 259 stored bytes.

use pulevago::serial::{Receiver, RECEIVER_SIZE};
use pulevago::{ffi, Error};

use crate::document01::{serial_frame, FRAME_A};
use crate::lent::{filler, Lent};
use crate::random::Random;
use crate::receiver::step;
use crate::taker::take;

const FRAME_SEARCH: u8 = 0;
const SERIAL_REVISION: u8 = 1;
const BYTE_COUNT: u8 = 2;
const DATA: u8 = 3;
const DATA_ESCAPED: u8 = 4;
const CHECK: u8 = 5;
const FRAME_END: u8 = 6;

fn state(position: u8, count: u8, length: u16, stored: &[u8]) -> [u8; RECEIVER_SIZE] {
    let mut bytes = [0; RECEIVER_SIZE];
    bytes[0] = position;
    bytes[1] = count;
    bytes[2..4].copy_from_slice(&length.to_be_bytes());
    bytes[4..4 + stored.len()].copy_from_slice(stored);
    bytes
}

/// Whether the bytes are a state, by the declaration and by the safe crate.
fn is_state(bytes: &[u8]) -> bool {
    let mut lent = Lent::of(bytes);
    let number = unsafe { ffi::pulevago_receiver_consistent(lent.pointer(), lent.length()) };
    assert_eq!(lent.bytes(), bytes);
    let safe = Receiver::from_bytes(bytes);
    if number == 0 {
        assert_eq!(safe.as_ref().map(|r| &r.as_bytes()[..]), Ok(bytes));
        return true;
    }
    assert_eq!(number, 9);
    assert_eq!(safe, Err(Error::Inconsistent));
    false
}

/// 'Consistent', of document 01.
fn consistent(position: u8, count: u8, length: u16, first: u8, second: u8) -> bool {
    let count_there = count >= 1 && first == 0x01 && second == count;
    let count = u16::from(count);
    length <= 259
        && match position {
            FRAME_SEARCH | SERIAL_REVISION => true,
            BYTE_COUNT => length == 1 && first == 0x01,
            DATA | DATA_ESCAPED => count_there && (2..=count + 1).contains(&length),
            CHECK => count_there && (count + 2..=count + 3).contains(&length),
            FRAME_END => count_there && length == count + 4,
            _ => false,
        }
}

#[test]
fn which_bytes_are_a_state() {
    let lengths = || (0..=262).chain([511, 512, 513, 0x0101, 0x8001, 0xff01, 0xffff]);
    let mut found = [0; 2];
    for position in [0, 1, 2, 3, 4, 5, 6, 7, 8, 255] {
        for count in [0u8, 1, 2, 5, 254, 255] {
            for length in lengths() {
                for first in [0x00, 0x01, 0x7e] {
                    for second in [count, count.wrapping_add(1)] {
                        let bytes = state(position, count, length, &[first, second]);
                        let wanted = consistent(position, count, length, first, second);
                        assert_eq!(is_state(&bytes), wanted, "{:?}", &bytes[..6]);
                        found[usize::from(wanted)] += 1;
                    }
                }
            }
        }
    }
    assert!(found[0] > 1000 && found[1] > 1000, "{found:?}");
}

#[test]
fn every_number_of_a_position() {
    for position in 0..=255 {
        let wanted = position <= SERIAL_REVISION;
        assert_eq!(is_state(&state(position, 0, 0, &[])), wanted);
    }
}

#[test]
fn bytes_that_are_no_state_give_9_and_a_fresh_one() {
    let mut cases = vec![
        state(7, 0, 0, &[]).to_vec(),
        state(255, 0, 0, &[]).to_vec(),
        state(FRAME_SEARCH, 0, 260, &[]).to_vec(),
        state(SERIAL_REVISION, 0, 0xffff, &[]).to_vec(),
        state(BYTE_COUNT, 0, 2, &[0x01]).to_vec(),
        state(BYTE_COUNT, 0, 1, &[0x02]).to_vec(),
        state(DATA, 0, 2, &[0x01, 0x00]).to_vec(),
        state(DATA, 5, 7, &[0x01, 0x05]).to_vec(),
        state(DATA_ESCAPED, 5, 2, &[0x01, 0x06]).to_vec(),
        state(CHECK, 5, 6, &[0x01, 0x05]).to_vec(),
        state(FRAME_END, 5, 8, &[0x01, 0x05]).to_vec(),
        vec![0xff; RECEIVER_SIZE],
    ];
    cases.push(filler(RECEIVER_SIZE));
    for bytes in cases {
        assert!(!is_state(&bytes));
        let mut lent = Lent::of(&bytes);
        assert_eq!(step(&mut lent, 0x7e), Err(9));
        assert_eq!(lent.bytes(), [0; RECEIVER_SIZE]);
        // 9 before 2: the output has no room
        for room in [255, 0] {
            let mut lent = Lent::of(&bytes);
            assert_eq!(take(&mut lent, &FRAME_A, 100, room), Err(9));
            assert_eq!(lent.bytes(), [0; RECEIVER_SIZE]);
        }
    }
}

#[test]
fn another_size_gives_9_and_stays_as_it_is() {
    for size in [0, 1, 262, 264, 526] {
        for content in [vec![0; size], filler(size)] {
            assert!(!is_state(&content));
            let mut lent = Lent::of(&content);
            assert_eq!(step(&mut lent, 0x7e), Err(9));
            assert_eq!(take(&mut lent, &FRAME_A, 100, 255), Err(9));
            assert_eq!(take(&mut lent, &FRAME_A, 100, 0), Err(9));
            let number = unsafe { ffi::pulevago_receiver_fresh(lent.pointer(), lent.length()) };
            assert_eq!(number, 9);
            assert_eq!(lent.bytes(), content);
        }
    }
}

/// Feeds the rest of a stream and gives what is handed out, and the state at the end.
fn go_on(mut receiver: Receiver, rest: &[u8]) -> (Vec<Vec<u8>>, Receiver) {
    let mut packets = Vec::new();
    for &byte in rest {
        packets.extend(receiver.step(byte).map(<[u8]>::to_vec));
    }
    (packets, receiver)
}

#[test]
fn states_saved_after_each_byte_and_loaded_go_on_the_same() {
    let mut random = Random::new(2);
    let mut stream = random.line_bytes(40);
    stream.extend(serial_frame(&random.line_bytes(30)));
    stream.extend(serial_frame(&random.line_bytes(255)));
    stream.extend(FRAME_A);
    let mut receiver = Receiver::new();
    for (index, &byte) in stream.iter().enumerate() {
        receiver.step(byte);
        let saved = receiver.as_bytes().to_vec();
        let loaded = Receiver::from_bytes(&saved).expect("a state that was left is one");
        assert_eq!(loaded, receiver);
        let rest = &stream[index + 1..];
        let by_the_crate = go_on(loaded, rest);
        assert_eq!(by_the_crate, go_on(receiver.clone(), rest));

        // the same bytes, stepped by the declaration
        let mut lent = Lent::of(&saved);
        for &byte in rest {
            step(&mut lent, byte).expect("a state that was left is one");
        }
        assert_eq!(lent.bytes(), by_the_crate.1.as_bytes());
    }
    let (packets, _) = go_on(Receiver::new(), &stream);
    assert_eq!(packets.last().map(Vec::len), Some(5));
}
