//! Where port and Rust part by design: each shown with its smallest input. What the Rust does outside the domain differs with and
//! without debug assertions, so this is run in both builds.

use crate::answers::{hex, outcome, room_of, Outcome, Written};
use crate::port_side::{self, Way};
use crate::rust_side;
use crate::shown::{both, port_heard, rust_heard, state, HeardAll};
use crate::streams::{check_of, frame_of, ESCAPE, FLAG};

/// A count of zero, as short as it can be.
const ZERO_COUNT: [u8; 3] = [FLAG, 0x01, 0x00];

/// How many bytes the Rust stores.
const STORED_MAX: usize = 259;

/// Shows them all, and says whether each is as docs/DIFFERENCES.md has it.
pub fn show() -> bool {
    println!("where port and Rust part:");
    let shown = [
        zero_count(),
        nothing_shorter_parts(),
        empty_packet(),
        full_vector(),
        stored_bytes_beyond_the_length(),
        packet_lengths(),
        short_output(),
        addresses(),
    ];
    shown.iter().all(|right| *right)
}

/// What the port gives behind a zero count, whatever other bytes than a flag follow: nothing.
fn nothing_heard() -> Outcome<HeardAll> {
    Outcome::Given((Vec::new(), state("FrameSearch", 0, &[0x01])))
}

fn zero_count() -> bool {
    let in_data = Outcome::Given((Vec::new(), state("Data", 0, &[0x01, 0x00])));
    both(
        "7e 01 00: the Rust is in Data with a count of 0, the port in FrameSearch",
        (rust_heard(&ZERO_COUNT), in_data),
        (port_heard(&ZERO_COUNT), nothing_heard()),
    )
}

/// All strings of up to two bytes give the same on both sides.
fn nothing_shorter_parts() -> bool {
    let mut strings = vec![vec![]];
    for first in 0..=255 {
        strings.push(vec![first]);
        strings.extend((0..=255).map(|second| vec![first, second]));
    }
    let parting: Vec<_> = strings
        .iter()
        .filter(|s| rust_heard(s) != port_heard(s))
        .collect();
    both(
        "on no serial input of two bytes or fewer they part",
        (parting, vec![]),
        ((), ()),
    )
}

/// A bad escape behind a zero count leads the Rust to a packet of no bytes.
fn empty_packet() -> bool {
    let [high, low] = check_of(&[]).to_be_bytes();
    let stream = [&ZERO_COUNT[..], &[ESCAPE, 0x00, high, low, FLAG]].concat();
    let empty = Outcome::Given((
        vec![vec![]],
        state("FrameSearch", 0, &[0x01, 0x00, high, low]),
    ));
    let shown = both(
        &format!(
            "{}: the Rust hands out an empty packet, the port nothing",
            hex(&stream)
        ),
        (rust_heard(&stream), empty),
        // The closing flag opens a frame for the port.
        (
            port_heard(&stream),
            Outcome::Given((vec![], state("SerialRevision", 0, &[0x01]))),
        ),
    );
    // A shortest string begins with a flag: before one every byte is passed over.
    let letters = [FLAG, 0x01, 0x00, ESCAPE, 0x5e, 0x41, high, low];
    let shorter = string_with_empty_packet(&mut vec![FLAG], &letters, stream.len() - 2);
    shown
        & both(
            "  and on no shorter string of these bytes does it",
            (shorter, None),
            ((), ()),
        )
}

/// A string that begins so, goes on with up to so many letters, and on which the Rust hands out an empty packet.
fn string_with_empty_packet(string: &mut Vec<u8>, letters: &[u8], more: usize) -> Option<Vec<u8>> {
    let Outcome::Given((packets, _)) = rust_heard(string) else {
        return Some(string.clone());
    };
    if packets.iter().any(Vec::is_empty) {
        return Some(string.clone());
    }
    for letter in letters.iter().filter(|_| more > 0) {
        string.push(*letter);
        let found = string_with_empty_packet(string, letters, more - 1);
        string.pop();
        if found.is_some() {
            return found;
        }
    }
    None
}

/// Behind a zero count the Rust stores until its vector is full, and panics at the next byte.
fn full_vector() -> bool {
    let full = [&ZERO_COUNT[..], &[0x00; STORED_MAX - 2]].concat();
    let too_full = [&full[..], &[0x00]].concat();
    let stored = [&[0x01][..], &[0x00; STORED_MAX - 1]].concat();
    let panic = "called `Result::unwrap()` on an `Err` value: 0";
    let filled = Outcome::Given((Vec::new(), state("Data", 0, &stored)));
    both(
        "7e 01 00 and 257 zeros: the Rust has stored 259 bytes, the port nothing",
        (rust_heard(&full), filled),
        (port_heard(&full), nothing_heard()),
    ) & both(
        "7e 01 00 and 258 zeros: the Rust panics, the port has stored nothing",
        (rust_heard(&too_full), Outcome::Panicked(panic.into())),
        (port_heard(&too_full), nothing_heard()),
    )
}

/// A cleared vector has no bytes; the port's state keeps them.
fn stored_bytes_beyond_the_length() -> bool {
    let stream = [FLAG, 0x01, 0x01, FLAG, 0x00];
    let (_, receiver) = port_side::hear(&stream, Way::Steps);
    both(
        "7e 01 01 7e 00: the Rust has stored 00, the port 00 and behind its length still 01",
        (
            rust_heard(&stream),
            Outcome::Given((vec![], state("FrameSearch", 0, &[0x00]))),
        ),
        (
            receiver.as_bytes()[..6].to_vec(),
            vec![0, 0, 0, 1, 0x00, 0x01],
        ),
    )
}

/// What the Rust does with a packet that it asserts not to get.
fn rust_sent(packet: &[u8]) -> Outcome<Vec<u8>> {
    outcome(|| rust_side::send(packet, usize::MAX).0)
}

/// What it is wanted to do: in a debug build its assertion, else a frame.
fn asserted(assertion: &str, frame: Vec<u8>) -> Outcome<Vec<u8>> {
    if cfg!(debug_assertions) {
        Outcome::Panicked(format!("assertion failed: {assertion}"))
    } else {
        Outcome::Given(frame)
    }
}

fn refused(number: u32, room: usize) -> Outcome<Written> {
    Outcome::Given(Written {
        answer: Err(number),
        out: room_of(room),
    })
}

fn packet_lengths() -> bool {
    let mut right = true;
    for length in [0, 4] {
        let packet = vec![0x00; length];
        right &= both(
            &format!(
                "a packet of {length} bytes: the Rust asserts, or frames it; the port refuses by 1"
            ),
            (
                rust_sent(&packet),
                asserted("p.len() > 4", frame_of(&packet)),
            ),
            (outcome(|| port_side::frame(&packet, 600)), refused(1, 600)),
        );
    }
    let packet = vec![0x00; 256];
    right & both(
        "a packet of 256 bytes: the Rust asserts, or frames it with a count of 0; the port refuses by 1",
        (rust_sent(&packet), asserted("p.len() <= u8::MAX.into()", frame_of(&packet))),
        (outcome(|| port_side::frame(&packet, 600)), refused(1, 600)),
    )
}

fn short_output() -> bool {
    let packet = [0x00; 5];
    both(
        "a packet of 5 bytes into 1: the Rust has written 7e when its writer fails, the port refuses by 2 and writes nothing",
        (outcome(|| rust_side::send(&packet, 1)), Outcome::Given((vec![FLAG], false))),
        (outcome(|| port_side::frame(&packet, 1)), refused(2, 1)),
    )
}

/// What the Rust makes of such an address rests on the stand-in for libmctp.
fn addresses() -> bool {
    let cut_off = Written {
        answer: Ok(4),
        out: vec![0x00, 0x0f, 0x01, 0x01],
    };
    let mut right = true;
    for (own, dest) in [(0, 128), (128, 0)] {
        right &= both(
            &format!("I2C own {own} dest {dest}: the Rust over its stand-in cuts the address to 0, the port refuses by 4"),
            (outcome(|| rust_side::i2c_encode(own, dest, &[], 4, false)), Outcome::Given(cut_off.clone())),
            (outcome(|| port_side::i2c_encode(own, dest, &[], 4, false)), refused(4, 4)),
        );
    }
    right
}
