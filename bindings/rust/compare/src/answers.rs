//! The form that both sides' answers are brought into, so that they can be compared.

use std::cell::Cell;
use std::panic::{catch_unwind, set_hook, take_hook, AssertUnwindSafe};

/// The receiver's positions, in the order of document 01's table.
pub const POSITIONS: [&str; 7] = [
    "FrameSearch",
    "SerialRevision",
    "ByteCount",
    "Data",
    "DataEscaped",
    "Check",
    "FrameEnd",
];

/// A receiver's state, without what a cleared vector does not have: stored bytes beyond the stored length.
#[derive(Clone, Debug, PartialEq, Eq)]
pub struct State {
    pub position: &'static str,
    pub count: usize,
    pub stored: Vec<u8>,
}

/// A packet handed out, and how many bytes had been fed then.
#[derive(Clone, Debug, PartialEq, Eq)]
pub struct Packet {
    pub fed: usize,
    pub bytes: Vec<u8>,
}

/// What a fresh receiver gave on a stream.
#[derive(Clone, Debug, PartialEq, Eq)]
pub struct Heard {
    pub packets: Vec<Packet>,
    pub state: State,
}

/// What a call that writes gave: the length written or the refusal's number, and the whole output.
#[derive(Clone, Debug, PartialEq, Eq)]
pub struct Written {
    pub answer: Result<usize, u32>,
    pub out: Vec<u8>,
}

/// A part of an input.
#[derive(Clone, Copy, Debug, PartialEq, Eq)]
pub struct Part {
    pub place: usize,
    pub length: usize,
}

/// Source address and payload, or the refusal's number.
pub type I2cDecoded = Result<(u8, Part), u32>;

/// Packet and remainder, or the refusal's number.
pub type UsbDecoded = Result<(Part, Part), u32>;

/// The packets of a transfer, and where and how the walk stopped: 0 at the end, or the refusal's number.
#[derive(Clone, Debug, PartialEq, Eq)]
pub struct Walked {
    pub packets: Vec<Part>,
    pub number: u32,
    pub place: usize,
}

/// An answer, or the message of the panic that came instead.
#[derive(Clone, Debug, PartialEq, Eq)]
pub enum Outcome<T> {
    Given(T),
    Panicked(String),
}

thread_local! {
    static IN_CALL: Cell<bool> = const { Cell::new(false) };
}

/// A panic in a call is an answer, so nothing is printed of it; of any other panic the usual message is.
pub fn silence_panics_in_calls() {
    let usual = take_hook();
    set_hook(Box::new(move |panic| {
        if !IN_CALL.get() {
            usual(panic);
        }
    }));
}

/// What the call gives.
pub fn outcome<T>(call: impl FnOnce() -> T) -> Outcome<T> {
    IN_CALL.set(true);
    let ended = catch_unwind(AssertUnwindSafe(call));
    IN_CALL.set(false);
    match ended {
        Ok(answer) => Outcome::Given(answer),
        Err(panic) => Outcome::Panicked(match panic.downcast::<String>() {
            Ok(message) => *message,
            Err(panic) => panic
                .downcast::<&str>()
                .map_or(String::new(), |m| m.to_string()),
        }),
    }
}

/// The part that this slice of the whole is.
pub fn part_of(whole: &[u8], slice: &[u8]) -> Part {
    let place = (slice.as_ptr() as usize).wrapping_sub(whole.as_ptr() as usize);
    assert!(
        place <= whole.len() && slice.len() <= whole.len() - place,
        "no part of the input"
    );
    Part {
        place,
        length: slice.len(),
    }
}

/// A lent output as it is before a call: the byte at place i is 160 + i.
pub fn room_of(length: usize) -> Vec<u8> {
    (0..length).map(|place| (160 + place) as u8).collect()
}

/// Bytes as a line of hex; `-` for none.
pub fn hex(bytes: &[u8]) -> String {
    if bytes.is_empty() {
        return String::from("-");
    }
    bytes.iter().map(|byte| format!("{byte:02x}")).collect()
}
