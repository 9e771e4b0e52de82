//! All sides on the same inputs, before anything is measured: packets and places, output bytes, answers and refusals must be
//! equal. The first difference stops the program.
use crate::call_rows::{CHECK_SIZES, DEST, OWN, frame_of, transfer_of};
use crate::inputs::{ALL_ESCAPES, MIXES, Random, crowded_line, line, packets};
use crate::plain;
use crate::plain::bulk_receiver::BulkReceiver;
use crate::plain::receiver::{AtEnd, Kept, Receiver};
use crate::takers::{PIECE, Taker, take_line};
use pulevago::serial::FRAME_MAX;
use pulevago::usb::TRANSFER_MAX;
use pulevago::{Error, checks, i2c, serial, usb};
use std::fmt::Debug;

pub fn compare_all() {
    compare_takers();
    compare_writers();
    compare_checks();
    compare_i2c();
    compare_usb();
}

/// What a function answers, and all of the output that it was lent.
type Outcome<T> = (Result<T, Error>, Vec<u8>);

/// The call's outcome on an output of `room` bytes that are not 0.
fn outcome<T>(room: usize, call: impl FnOnce(&mut [u8]) -> Result<T, Error>) -> Outcome<T> {
    let mut out = vec![0xa5; room];
    (call(&mut out), out)
}

fn must_agree<T: PartialEq + Debug>(what: &str, ours: &T, theirs: &T) {
    assert!(
        ours == theirs,
        "{what}: ours is {ours:?}, the other side's {theirs:?}"
    );
}

/// Each packet with the place on the line behind its last byte.
#[derive(PartialEq, Default)]
struct Heard {
    places: Vec<(usize, usize)>,
    bytes: Vec<u8>,
}

impl Heard {
    fn add(&mut self, place: usize, packet: &[u8]) {
        self.places.push((place, packet.len()));
        self.bytes.extend_from_slice(packet);
    }
}

fn heard_by(mut taker: impl Taker, line: &[u8], piece: usize) -> Heard {
    let mut heard = Heard::default();
    take_line(&mut taker, line, piece, |place, packet| {
        heard.add(place, packet)
    });
    heard
}

/// The same by a function that is fed a byte a call.
fn heard_stepping(line: &[u8], mut step: impl FnMut(u8, &mut dyn FnMut(&[u8]))) -> Heard {
    let mut heard = Heard::default();
    for (i, &byte) in line.iter().enumerate() {
        step(byte, &mut |packet| heard.add(i + 1, packet));
    }
    heard
}

fn compare_takers() {
    const SHORT: usize = 1 << 18;
    for mix in MIXES {
        compare_takers_on(mix.name, &line(mix, 16 << 20), PIECE);
        compare_takers_on(mix.name, &line(mix, SHORT), 7);
        compare_takers_on(mix.name, &line(mix, SHORT), 1);
    }
    compare_takers_on("a crowded line", &crowded_line(1 << 22), PIECE);
    compare_allowances();
}

/// Short pieces of a crowded line, with an allowance and an output that is now and then too short.
fn compare_allowances() {
    let mut ours = serial::Receiver::new();
    let mut at_end = Receiver::<AtEnd>::new();
    let mut kept = Receiver::<Kept>::new();
    let mut bulk = BulkReceiver::new();
    let mut random = Random(5);
    let line = crowded_line(1 << 18);
    let mut at = 0;
    while at < line.len() {
        let (allowance, room) = (random.between(0, 40), random.between(254, 256));
        let input = &line[at..(at + random.between(0, 40)).min(line.len())];
        let taken = outcome(room, |out| ours.take_at_most(input, allowance, out));
        let others: [&mut dyn Taker; 3] = [&mut at_end, &mut kept, &mut bulk];
        for other in others {
            let theirs = outcome(room, |out| other.take_at_most(input, allowance, out));
            must_agree("take with an allowance", &taken, &theirs);
        }
        at += taken.0.map_or(0, |taken| taken.taken);
    }
}

fn compare_takers_on(what: &str, line: &[u8], piece: usize) {
    let ours = heard_by(serial::Receiver::new(), line, piece);
    assert!(!ours.places.is_empty(), "take, {what}: no packet at all");
    let mut stepped = serial::Receiver::new();
    let mut plain_stepped = Receiver::<AtEnd>::new();
    let others = [
        (
            "plain, check at the end",
            heard_by(Receiver::<AtEnd>::new(), line, piece),
        ),
        (
            "plain, check kept",
            heard_by(Receiver::<Kept>::new(), line, piece),
        ),
        ("bulk", heard_by(BulkReceiver::new(), line, piece)),
        (
            "ours, by steps",
            heard_stepping(line, |byte, each| stepped.step(byte).map_or((), each)),
        ),
        (
            "plain, by steps",
            heard_stepping(line, |byte, each| plain_stepped.step(byte).map_or((), each)),
        ),
    ];
    for (name, theirs) in others {
        assert!(
            theirs == ours,
            "take, {what}: packets or places differ between ours and {name}"
        );
    }
}

fn compare_writers() {
    let mut inputs: Vec<Vec<u8>> = (0..=300).map(|length| Random(6).bytes(length)).collect();
    for mix in MIXES.into_iter().chain([ALL_ESCAPES]) {
        inputs.extend(packets(mix, 1 << 16));
    }
    for packet in inputs {
        let length =
            plain::writer::frame_to_serial(&packet, &mut [0; FRAME_MAX]).unwrap_or(FRAME_MAX);
        for room in [0, length - 1, length, FRAME_MAX] {
            let ours = outcome(room, |out| serial::frame_to_serial(&packet, out));
            must_agree(
                "frame_to_serial",
                &ours,
                &outcome(room, |out| plain::writer::frame_to_serial(&packet, out)),
            );
            must_agree(
                "frame_to_serial",
                &ours,
                &outcome(room, |out| {
                    plain::writer::frame_to_serial_in_one_pass(&packet, out)
                }),
            );
        }
    }
}

fn compare_checks() {
    for length in (0..300).chain(CHECK_SIZES) {
        let bytes = Random(7 + length as u64).bytes(length);
        must_agree(
            "frame_check",
            &checks::frame_check(&bytes),
            &plain::checks::frame_check(&bytes),
        );
        must_agree("pec", &checks::pec(&bytes), &plain::checks::pec(&bytes));
    }
}

fn compare_i2c() {
    let mut random = Random(8);
    for length in 0..=256 {
        let payload = random.bytes(length);
        for pec in [false, true] {
            for room in [0, length + 3, length + 4, length + 5, length + 6] {
                for (own, dest) in [(OWN, DEST), (127, 0), (128, 0), (0, 255)] {
                    let ours = outcome(room, |out| i2c::encode(own, dest, &payload, out, pec));
                    must_agree(
                        "i2c::encode",
                        &ours,
                        &outcome(room, |out| {
                            plain::i2c::encode(own, dest, &payload, out, pec)
                        }),
                    );
                }
            }
            if length <= 254 {
                let mut frame = frame_of(&payload, pec);
                compare_i2c_decode(&frame);
                let place = random.between(0, frame.len() - 1);
                frame[place] ^= random.between(1, 255) as u8;
                compare_i2c_decode(&frame);
                compare_i2c_decode(&frame[..place]);
            }
        }
    }
}

fn compare_i2c_decode(frame: &[u8]) {
    for pec in [false, true] {
        must_agree(
            "i2c::decode",
            &i2c::decode(frame, pec),
            &plain::i2c::decode(frame, pec),
        );
    }
}

fn compare_usb() {
    for size in 0..300 {
        for room in 3..=5 {
            must_agree(
                "usb::header",
                &outcome(room, |out| usb::header(size, out)),
                &outcome(room, |out| plain::usb::header(size, out)),
            );
        }
    }
    for length in 0..=255 {
        for room in [0, 3, 4, 5, 255, 256] {
            let transfer = [&[0x1a, 0xb4, 0, length][..], &[0; 252]].concat();
            compare_walks(&transfer[..room]);
        }
    }
    let mut random = Random(9);
    for _ in 0..10_000 {
        let sizes = [
            random.between(0, 120),
            random.between(0, 120),
            random.between(0, 255),
        ];
        let mut transfer = transfer_of(
            &sizes[..2]
                .iter()
                .map(|&size| random.bytes(size))
                .collect::<Vec<_>>(),
        );
        compare_walks(&transfer);
        let place = random.between(0, transfer.len() - 1);
        transfer[place] ^= random.between(1, 255) as u8;
        compare_walks(&transfer);
        compare_walks(&transfer[..place]);
        let packet = random.bytes(sizes[2]);
        let (room, used) = (
            random.between(0, TRANSFER_MAX + 8),
            random.between(0, TRANSFER_MAX + 8),
        );
        let (mut used_ours, mut used_theirs) = (used, used);
        let ours = outcome(room, |out| usb::append(&packet, out, &mut used_ours));
        let theirs = outcome(room, |out| {
            plain::usb::append(&packet, out, &mut used_theirs)
        });
        must_agree("usb::append", &(ours, used_ours), &(theirs, used_theirs));
    }
}

fn compare_walks(transfer: &[u8]) {
    must_agree(
        "usb::decode",
        &usb::decode(transfer),
        &plain::usb::decode(transfer),
    );
    let ours: Vec<_> = usb::Walker::new(transfer).collect();
    must_agree(
        "usb::Walker",
        &ours,
        &plain::usb::Walker::new(transfer).collect(),
    );
}
