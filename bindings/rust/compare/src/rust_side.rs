//! The published text's answers, in the common form. Its private functions are reached through the public ones above them.

use crate::answers::{part_of, room_of, Heard, I2cDecoded, Packet, Part, State};
use crate::answers::{UsbDecoded, Walked, Written, POSITIONS};
use crate::published::i2c::MctpI2cEncap;
use crate::published::serial::MctpSerialHandler;
use crate::published::usb::MctpUsbHandler;
use embedded_io_async::{ErrorType, Read, Write};
use mctp::Error;
use std::future::Future;
use std::pin::pin;
use std::task::{Context, Poll, Waker};

/// Runs a future that never waits.
fn now<T>(future: impl Future<Output = T>) -> T {
    match pin!(future).poll(&mut Context::from_waker(Waker::noop())) {
        Poll::Ready(answer) => answer,
        Poll::Pending => panic!("the published text waits"),
    }
}

/// Gives a stream byte by byte and counts; at its end it says so.
struct Reader<'a> {
    stream: &'a [u8],
    given: usize,
}

impl ErrorType for Reader<'_> {
    type Error = ();
}

impl Read for Reader<'_> {
    async fn read(&mut self, room: &mut [u8]) -> Result<usize, ()> {
        if self.given == self.stream.len() {
            return Ok(0);
        }
        room[0] = self.stream[self.given];
        self.given += 1;
        Ok(1)
    }
}

/// Takes what is written, up to its room, and fails beyond that.
struct Writer {
    written: Vec<u8>,
    room: usize,
}

impl ErrorType for Writer {
    type Error = ();
}

impl Write for Writer {
    async fn write(&mut self, bytes: &[u8]) -> Result<usize, ()> {
        let count = bytes.len().min(self.room - self.written.len());
        if count == 0 {
            return Err(());
        }
        self.written.extend_from_slice(&bytes[..count]);
        Ok(count)
    }
}

/// What the writer writes of the packet's frame, and whether it says that it is done.
pub fn send(packet: &[u8], room: usize) -> (Vec<u8>, bool) {
    let mut writer = Writer {
        written: Vec::new(),
        room,
    };
    let done = now(MctpSerialHandler::new().send_async(packet, &mut writer)).is_ok();
    (writer.written, done)
}

/// The packet's frame at the start of an output. Number 2, which the Rust has not, stands exactly where its own frame is longer
/// than the output.
pub fn frame(packet: &[u8], room: usize) -> Written {
    let (frame, done) = send(packet, usize::MAX);
    assert!(done, "the text fails where its writer does not");
    let mut out = room_of(room);
    if room < frame.len() {
        return Written {
            answer: Err(2),
            out,
        };
    }
    out[..frame.len()].copy_from_slice(&frame);
    Written {
        answer: Ok(frame.len()),
        out,
    }
}

/// A serial receiver of the published text.
pub struct Listener {
    handler: MctpSerialHandler,
    fed: usize,
    packets: Vec<Packet>,
}

impl Listener {
    pub fn new() -> Listener {
        Listener {
            handler: MctpSerialHandler::new(),
            fed: 0,
            packets: Vec::new(),
        }
    }

    pub fn feed(&mut self, bytes: &[u8]) {
        let mut reader = Reader {
            stream: bytes,
            given: 0,
        };
        while let Ok(packet) = now(self.handler.recv_async(&mut reader)) {
            self.packets.push(Packet {
                fed: self.fed + reader.given,
                bytes: packet.to_vec(),
            });
        }
        assert!(reader.given == bytes.len(), "a byte was left");
        self.fed += bytes.len();
    }

    /// The state, as the handler's Debug tells it.
    pub fn state(&self) -> State {
        let told = format!("{:?}", self.handler);
        read_state(&told).unwrap_or_else(|| panic!("no state: {told}"))
    }

    pub fn heard(self) -> Heard {
        let state = self.state();
        Heard {
            packets: self.packets,
            state,
        }
    }
}

/// Reads `MctpSerialHandler { rxpos: Data, rxbuf: [1, 5], rxcount: 5 }`.
fn read_state(told: &str) -> Option<State> {
    let fields = told
        .strip_prefix("MctpSerialHandler { rxpos: ")?
        .strip_suffix(" }")?;
    let (position, fields) = fields.split_once(", rxbuf: [")?;
    let (stored, count) = fields.split_once("], rxcount: ")?;
    let stored = stored
        .split(", ")
        .filter(|byte| !byte.is_empty())
        .map(|byte| byte.parse().ok());
    Some(State {
        position: POSITIONS.iter().find(|name| **name == position)?,
        count: count.parse().ok()?,
        stored: stored.collect::<Option<Vec<u8>>>()?,
    })
}

/// What a fresh receiver gives on the stream, up to the first zero count that it would read as a byte count, and how many bytes
/// that is.
pub fn hear(stream: &[u8]) -> (Heard, usize) {
    let mut listener = Listener::new();
    let mut from = 0;
    for at in 1..stream.len() {
        // A byte count follows a revision.
        if stream[at - 1..=at] == [0x01, 0x00] {
            listener.feed(&stream[from..at]);
            from = at;
            if listener.state().position == "ByteCount" {
                return (listener.heard(), at);
            }
        }
    }
    listener.feed(&stream[from..]);
    (listener.heard(), stream.len())
}

/// The numbers of the errors on I2C.
fn i2c_number(error: Error) -> u32 {
    match error {
        Error::BadArgument => 3,
        Error::InvalidInput => 5,
        other => panic!("{other:?} on I2C"),
    }
}

pub fn i2c_encode(own: u8, dest: u8, payload: &[u8], room: usize, pec: bool) -> Written {
    let mut out = room_of(room);
    let start = out.as_ptr();
    let encoded = MctpI2cEncap::new(own).encode(dest, payload, &mut out, pec);
    let answer = match encoded {
        Ok(frame) => {
            assert!(
                frame.as_ptr() == start,
                "a frame that is not at the output's start"
            );
            Ok(frame.len())
        }
        Err(error) => Err(i2c_number(error)),
    };
    Written { answer, out }
}

pub fn i2c_decode(input: &[u8], pec: bool) -> I2cDecoded {
    // The own address is not looked at.
    let decoded = MctpI2cEncap::new(0).decode(input, pec);
    let (payload, source) = decoded.map_err(i2c_number)?;
    Ok((source, part_of(input, payload)))
}

/// The numbers of the errors on USB.
fn usb_number(error: Error) -> u32 {
    match error {
        Error::BadArgument => 6,
        Error::RxFailure => 7,
        other => panic!("{other:?} on USB"),
    }
}

pub fn usb_header(size: usize, room: usize) -> Written {
    let mut out = room_of(room);
    let headed = MctpUsbHandler::header(size, &mut out);
    Written {
        answer: headed.map(|()| 4).map_err(usb_number),
        out,
    }
}

pub fn usb_decode(input: &[u8]) -> UsbDecoded {
    let (packet, remainder) = MctpUsbHandler::decode(input).map_err(usb_number)?;
    Ok((part_of(input, packet), part_of(input, remainder)))
}

/// One `decode` after another, each on what the one before left, until nothing is left or one refuses.
pub fn usb_walk(transfer: &[u8]) -> Walked {
    let mut walked = Walked {
        packets: Vec::new(),
        number: 0,
        place: 0,
    };
    while walked.place < transfer.len() {
        match usb_decode(&transfer[walked.place..]) {
            Ok((packet, remainder)) => {
                let place = walked.place + packet.place;
                walked.packets.push(Part {
                    place,
                    length: packet.length,
                });
                walked.place += remainder.place;
            }
            Err(number) => {
                walked.number = number;
                break;
            }
        }
    }
    walked
}

/// The Rust's header and the packet behind the used bytes, in an output that has room for them.
pub fn usb_append(packet: &[u8], used: usize, room: usize) -> Written {
    let mut out = room_of(room);
    let answer = match MctpUsbHandler::header(packet.len(), &mut out[used..][..4]) {
        Ok(()) => {
            out[used + 4..][..packet.len()].copy_from_slice(packet);
            Ok(used + 4 + packet.len())
        }
        Err(error) => Err(usb_number(error)),
    };
    Written { answer, out }
}
