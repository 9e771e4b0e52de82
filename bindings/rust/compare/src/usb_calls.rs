//! USB: header, decode, walks over whole transfers, and the builder over the Rust's header.

use crate::answers::{hex, outcome};
use crate::generator::Generator;
use crate::tally::Tally;
use crate::{port_side, rust_side};
use pulevago::usb::{HEADER_SIZE, TRANSFER_MAX};

/// The largest packet.
const PACKET_MAX: usize = 251;

/// Headers of all sizes around each limit into lent headers of 0 to 8 bytes, then sizes at random: about so many calls in all.
pub fn headers(calls: usize, random: &mut Generator) -> Tally {
    let mut tally = Tally::new("usb header");
    let small = 0..=600;
    let large = (usize::MAX - 300)..=usize::MAX;
    let around = [16, 32, 63]
        .into_iter()
        .flat_map(|bits| (1 << bits) - 10..=(1 << bits) + 300);
    for size in small.chain(large).chain(around) {
        for room in 0..=8 {
            one_header(&mut tally, size, room);
        }
    }
    for _ in 0..calls {
        let any_size = random.number() as usize >> random.below(64);
        let size = if random.once_in(2) {
            any_size
        } else {
            random.below(270)
        };
        one_header(&mut tally, size, random.one_of(&[4, 4, 4, 3, 5]));
    }
    tally
}

fn one_header(tally: &mut Tally, size: usize, room: usize) {
    let rust = outcome(|| rust_side::usb_header(size, room));
    let port = outcome(|| port_side::usb_header(size, room));
    tally.call(room, || format!("size {size} into {room}"), &rust, &port);
}

/// All short inputs, every length byte with inputs around it, damaged and random input: about so many calls in all.
pub fn decodes(calls: usize, random: &mut Generator) -> Tally {
    let mut tally = Tally::new("usb decode");
    one_decode(&mut tally, &[]);
    for first in 0..=255 {
        one_decode(&mut tally, &[first]);
        for second in 0..=255 {
            one_decode(&mut tally, &[first, second]);
            one_decode(&mut tally, &[first, second, 0x00, 0x04]);
        }
    }
    let letters = [0x1a, 0xb4, 0x00, 0x03, 0x04, 0x05, 0x06, 0xff];
    every_string(&mut tally, &mut Vec::new(), &letters, 6);
    for length_byte in 0..=255 {
        for length in around(length_byte) {
            let mut input = random.bytes(length);
            begin_header(&mut input, length_byte, random);
            one_decode(&mut tally, &input);
        }
    }
    for _ in 0..calls {
        let input = random_input(random);
        one_decode(&mut tally, &input);
    }
    tally
}

fn every_string(tally: &mut Tally, string: &mut Vec<u8>, letters: &[u8], length: usize) {
    one_decode(tally, string);
    if length > 0 {
        for letter in letters {
            string.push(*letter);
            every_string(tally, string, letters, length - 1);
            string.pop();
        }
    }
}

/// Lengths of inputs around what a length byte says, and around the header's.
fn around(length_byte: u8) -> impl Iterator<Item = usize> {
    let said = usize::from(length_byte);
    (3..=6)
        .chain(said.saturating_sub(3)..=said + 5)
        .chain([300, TRANSFER_MAX])
}

/// Puts a header at the input's start, as much of it as there is room for.
fn begin_header(input: &mut [u8], length_byte: u8, random: &mut Generator) {
    let header = [0x1a, 0xb4, random.byte(), length_byte];
    for (to, from) in input.iter_mut().zip(header) {
        *to = from;
    }
}

/// Bytes with a header that fits, or nearly.
fn random_input(random: &mut Generator) -> Vec<u8> {
    let length = random.between(0, 300);
    let mut input = random.bytes(length);
    let length_byte = (length + 20 - random.below(40).min(length + 20)).min(255) as u8;
    begin_header(&mut input, length_byte, random);
    if random.once_in(3) && length > 0 {
        input[random.below(length.min(HEADER_SIZE))] ^= 1 << random.below(8);
    }
    input
}

fn one_decode(tally: &mut Tally, input: &[u8]) {
    let rust = outcome(|| rust_side::usb_decode(input));
    let port = outcome(|| port_side::usb_decode(input));
    tally.call(input.len(), || hex(input), &rust, &port);
}

/// Walks over so many transfers, good, damaged and of noise.
pub fn walks(calls: usize, random: &mut Generator) -> Tally {
    let mut tally = Tally::new("usb walk");
    for _ in 0..calls {
        let transfer = transfer(random);
        let rust = outcome(|| rust_side::usb_walk(&transfer));
        let port = outcome(|| port_side::usb_walk(&transfer));
        tally.call(transfer.len(), || hex(&transfer), &rust, &port);
    }
    tally
}

/// Packets behind their headers, often with a bit changed, cut, or with bytes behind them.
fn transfer(random: &mut Generator) -> Vec<u8> {
    let mut transfer = Vec::new();
    let longest = random.one_of(&[0, 3, 20, 100, PACKET_MAX]);
    for _ in 0..random.below(12) {
        let length = random.between(0, longest);
        transfer.extend([0x1a, 0xb4, 0x00, (length + HEADER_SIZE) as u8]);
        transfer.extend(random.bytes(length));
    }
    let length = transfer.len();
    match random.below(5) {
        0 if length > 0 => transfer[random.below(length)] ^= 1 << random.below(8),
        1 if length > 0 => transfer.truncate(random.below(length)),
        2 => transfer.extend(random_input(random)),
        _ => {}
    }
    transfer
}

/// The builder with room, against the Rust's header and the packet: so many calls.
pub fn appends(calls: usize, random: &mut Generator) -> Tally {
    let mut tally = Tally::new("usb append, with room");
    for _ in 0..calls {
        let length = random.between(0, PACKET_MAX + 2);
        let packet = random.bytes(length);
        let room = random.between(length + HEADER_SIZE, TRANSFER_MAX);
        let used = random.between(0, room - length - HEADER_SIZE);
        let rust = outcome(|| rust_side::usb_append(&packet, used, room));
        let port = outcome(|| port_side::usb_append(&packet, used, room));
        let input = || format!("{} behind {used} into {room}", hex(&packet));
        tally.call(length, input, &rust, &port);
    }
    tally
}
