//! I2C: encode and decode.

use crate::answers::{hex, outcome, Outcome, Written};
use crate::generator::Generator;
use crate::tally::Tally;
use crate::{port_side, rust_side};

/// The largest payload, and the header before it.
const PAYLOAD_MAX: usize = 254;
const HEADER: usize = 4;

/// A payload and the addresses of its frame.
#[derive(Clone, Copy)]
struct Frame<'a> {
    own: u8,
    dest: u8,
    payload: &'a [u8],
    pec: bool,
}

/// Both tallies, since what was encoded is decoded.
struct Calls<'r> {
    encode: Tally,
    decode: Tally,
    random: &'r mut Generator,
}

/// All addresses, all lengths around each limit, damaged and random input, then calls at random: about so many of each in all.
pub fn compare(calls: usize, random: &mut Generator) -> [Tally; 2] {
    let mut all = Calls {
        encode: Tally::new("i2c encode"),
        decode: Tally::new("i2c decode"),
        random,
    };
    all.every_address();
    all.every_length();
    all.every_short_input();
    for _ in 0..calls / 2 {
        all.random_frame();
        all.random_input();
    }
    [all.encode, all.decode]
}

impl Calls<'_> {
    fn every_address(&mut self) {
        for own in 0..128 {
            for dest in 0..128 {
                for pec in [false, true] {
                    let payload = self.random.bytes(5);
                    self.there_and_back(
                        Frame {
                            own,
                            dest,
                            payload: &payload,
                            pec,
                        },
                        HEADER + 6,
                    );
                }
            }
        }
    }

    /// Every payload length to beyond the limit, in outputs around what the frame needs.
    fn every_length(&mut self) {
        for length in 0..=PAYLOAD_MAX + 6 {
            let payload = self.random.bytes(length);
            for pec in [false, true] {
                let need = HEADER + length + usize::from(pec);
                let rooms = [
                    0,
                    3,
                    4,
                    5,
                    need - 2,
                    need - 1,
                    need,
                    need + 1,
                    need + 9,
                    259,
                    300,
                ];
                for room in rooms {
                    let frame = self.frame_of(&payload, pec);
                    self.there_and_back(frame, room);
                }
                self.each_byte_damaged(&rust_side::i2c_encode(0x20, 0x1d, &payload, need, pec).out);
            }
        }
    }

    /// Every input of up to two bytes, and longer ones of bytes that matter.
    fn every_short_input(&mut self) {
        self.decode_both(&[]);
        for first in 0..=255 {
            self.decode_both(&[first]);
            for second in 0..=255 {
                self.decode_both(&[first, second]);
            }
        }
        self.every_string(&mut Vec::new(), &[0x00, 0x01, 0x02, 0x03, 0x0f, 0x41], 6);
    }

    fn every_string(&mut self, string: &mut Vec<u8>, letters: &[u8], length: usize) {
        self.decode_both(string);
        self.decode_with_right_pec(string);
        if length > 0 {
            for letter in letters {
                string.push(*letter);
                self.every_string(string, letters, length - 1);
                string.pop();
            }
        }
    }

    fn random_frame(&mut self) {
        let length = self.random.between(0, PAYLOAD_MAX + 3);
        let payload = self.random.bytes(length);
        let pec = self.random.once_in(2);
        let room = length + self.random.between(0, 10);
        let frame = self.frame_of(&payload, pec);
        self.there_and_back(frame, room);
        let back = Frame {
            own: frame.dest,
            dest: frame.own,
            pec: !pec,
            ..frame
        };
        self.one_encode(back, room);
    }

    /// Bytes at random, some with a header that may fit.
    fn random_input(&mut self) {
        let length = self.random.between(0, 300);
        let mut input = self.random.bytes(length);
        if length >= HEADER && !self.random.once_in(4) {
            input[1] = self.random.one_of(&[0x0f, 0x0f, 0x0f, 0x0e, 0x8f]);
            let count = length - HEADER + 1;
            input[2] = self.random.one_of(&[count, count, count - 1, count + 1]) as u8;
        }
        self.decode_both(&input);
        self.decode_with_right_pec(&input);
    }

    /// The frame, each of its bytes changed in turn, cut at each length, and with a byte more.
    fn each_byte_damaged(&mut self, frame: &[u8]) {
        for at in 0..frame.len() {
            // In a short frame to every other value, in a long one to one.
            let changes = if frame.len() < 12 { 1..=255 } else { 1..=1 };
            for change in changes {
                let mut damaged = frame.to_vec();
                damaged[at] ^= change;
                self.decode_both(&damaged);
                self.decode_with_right_pec(&damaged);
            }
            if frame.len() < 40 {
                self.decode_both(&frame[..at]);
                self.decode_with_right_pec(&frame[..at]);
            }
        }
        self.decode_both(&[frame, &[0x5a]].concat());
    }

    /// Encodes, and decodes what the published text wrote.
    fn there_and_back(&mut self, frame: Frame, room: usize) {
        if let Outcome::Given(written) = self.one_encode(frame, room) {
            if let Ok(length) = written.answer {
                self.decode_both(&written.out[..length]);
            }
        }
    }

    /// Gives what the published text wrote.
    fn one_encode(&mut self, frame: Frame, room: usize) -> Outcome<Written> {
        let Frame {
            own,
            dest,
            payload,
            pec,
        } = frame;
        let input = || {
            let payload = hex(payload);
            format!("own {own:02x} dest {dest:02x} pec {pec} {payload} into {room}")
        };
        let rust = outcome(|| rust_side::i2c_encode(own, dest, payload, room, pec));
        let port = outcome(|| port_side::i2c_encode(own, dest, payload, room, pec));
        self.encode.call(payload.len(), input, &rust, &port);
        rust
    }

    /// With and without a PEC expected.
    fn decode_both(&mut self, input: &[u8]) {
        for pec in [false, true] {
            let rust = outcome(|| rust_side::i2c_decode(input, pec));
            let port = outcome(|| port_side::i2c_decode(input, pec));
            self.decode.call(
                input.len(),
                || format!("pec {pec} {}", hex(input)),
                &rust,
                &port,
            );
        }
    }

    /// The bytes with their own PEC behind them, so that what comes after that check is reached.
    fn decode_with_right_pec(&mut self, bytes: &[u8]) {
        self.decode_both(&[bytes, &[smbus_pec::pec(bytes)]].concat());
    }

    /// A payload's frame, from any address to any.
    fn frame_of<'p>(&mut self, payload: &'p [u8], pec: bool) -> Frame<'p> {
        Frame {
            own: self.address(),
            dest: self.address(),
            payload,
            pec,
        }
    }

    fn address(&mut self) -> u8 {
        self.random.below(128) as u8
    }
}
