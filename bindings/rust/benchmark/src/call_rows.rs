//! What is measured of the short calls: check values, I2C and USB.
use crate::inputs::Random;
use crate::plain;
use crate::table::{Table, Unit};
use crate::timing::{sum_over, weight};
use pulevago::usb::{HEADER_SIZE, TRANSFER_MAX};
use pulevago::{Error, checks, i2c, usb};
use std::hint::black_box;

pub const CHECK_SIZES: [usize; 4] = [4096, 255, 16, 5];
pub const PAYLOAD_SIZES: [usize; 3] = [254, 64, 5];
pub const OWN: u8 = 0x20;
pub const DEST: u8 = 0x1d;

/// How many different inputs a row goes over.
const INPUTS: usize = 64;
/// How often a row calls.
const CALLS: usize = 1 << 20;

pub fn measure_all(table: &mut Table) {
    for size in CHECK_SIZES {
        measure_checks(table, size);
    }
    for size in PAYLOAD_SIZES {
        for pec in [false, true] {
            measure_i2c(table, size, pec);
        }
    }
    measure_usb(table);
}

fn measure_checks(table: &mut Table, size: usize) {
    let inputs = &inputs(size);
    let times = (16 << 20) / (INPUTS * size);
    let amount = (times * INPUTS * size, Unit::Megabytes);
    let on = &format!("{size} bytes");
    let ours = Box::new(|| sum_over(inputs, times, |input| checks::frame_check(input).into()));
    let plain_check = Box::new(|| {
        sum_over(inputs, times, |input| {
            plain::checks::frame_check(input).into()
        })
    });
    table.measure(
        "frame_check",
        on,
        amount,
        ours,
        vec![("plain", plain_check)],
    );
    let ours = Box::new(|| sum_over(inputs, times, |input| checks::pec(input).into()));
    let plain_pec = Box::new(|| sum_over(inputs, times, |input| plain::checks::pec(input).into()));
    table.measure("pec", on, amount, ours, vec![("plain", plain_pec)]);
}

fn measure_i2c(table: &mut Table, size: usize, pec: bool) {
    let payloads = &inputs(size);
    let frames = &payloads
        .iter()
        .map(|payload| frame_of(payload, pec))
        .collect::<Vec<_>>();
    let times = CALLS / INPUTS;
    let amount = (CALLS, Unit::Calls);
    let on = &format!(
        "payload of {size} bytes, {} PEC",
        if pec { "with" } else { "without" }
    );
    let ours = Box::new(|| sum_encoded(i2c::encode, payloads, times, pec));
    let others = Box::new(|| sum_encoded(plain::i2c::encode, payloads, times, pec));
    table.measure("i2c::encode", on, amount, ours, vec![("plain", others)]);
    let ours = Box::new(|| sum_decoded(i2c::decode, frames, times, pec));
    let others = Box::new(|| sum_decoded(plain::i2c::decode, frames, times, pec));
    table.measure("i2c::decode", on, amount, ours, vec![("plain", others)]);
}

pub fn frame_of(payload: &[u8], pec: bool) -> Vec<u8> {
    let mut frame = [0; i2c::FRAME_MAX];
    let length = plain::i2c::encode(OWN, DEST, payload, &mut frame, pec)
        .expect("addresses and a payload that fit");
    frame[..length].to_vec()
}

fn sum_encoded(
    encode: impl Fn(u8, u8, &[u8], &mut [u8], bool) -> Result<usize, Error>,
    payloads: &[Vec<u8>],
    times: usize,
    pec: bool,
) -> u64 {
    let mut out = [0; i2c::FRAME_MAX];
    sum_over(payloads, times, |payload| {
        encode(OWN, DEST, payload, &mut out, pec).map_or(0, |length| weight(&out[..length]))
    })
}

fn sum_decoded(
    decode: impl Fn(&[u8], bool) -> Result<i2c::Decoded<'_>, Error>,
    frames: &[Vec<u8>],
    times: usize,
    pec: bool,
) -> u64 {
    sum_over(frames, times, |frame| {
        decode(frame, pec).map_or(0, |decoded| {
            weight(decoded.payload) ^ u64::from(decoded.source)
        })
    })
}

fn measure_usb(table: &mut Table) {
    const SIZE: usize = 60;
    const IN_TRANSFER: usize = TRANSFER_MAX / (SIZE + HEADER_SIZE);
    let packets = &inputs(SIZE);
    let transfers = &packets
        .chunks(IN_TRANSFER)
        .map(transfer_of)
        .collect::<Vec<_>>();
    let times = CALLS / INPUTS;
    let amount = (CALLS, Unit::Calls);

    let ours = Box::new(|| sum_headers(usb::header, packets, times));
    let others = Box::new(|| sum_headers(plain::usb::header, packets, times));
    table.measure(
        "usb::header",
        "packet of 60 bytes",
        amount,
        ours,
        vec![("plain", others)],
    );

    let decodes = (CALLS / transfers.len() * transfers.len(), Unit::Calls);
    let ours = Box::new(|| sum_usb_decoded(usb::decode, transfers, CALLS / transfers.len()));
    let others =
        Box::new(|| sum_usb_decoded(plain::usb::decode, transfers, CALLS / transfers.len()));
    table.measure(
        "usb::decode",
        "first packet of a transfer",
        decodes,
        ours,
        vec![("plain", others)],
    );

    let ours = Box::new(|| {
        sum_over(transfers, times, |transfer| {
            sum_walked(usb::Walker::new(transfer))
        })
    });
    let others = Box::new(|| {
        sum_over(transfers, times, |transfer| {
            sum_walked(plain::usb::Walker::new(transfer))
        })
    });
    table.measure(
        "usb::Walker",
        "transfers of 512 bytes, 8 packets of 60",
        amount,
        ours,
        vec![("plain", others)],
    );

    let ours = Box::new(|| sum_appended(usb::append, packets, IN_TRANSFER, times));
    let others = Box::new(|| sum_appended(plain::usb::append, packets, IN_TRANSFER, times));
    table.measure(
        "usb::append",
        "transfers of 512 bytes, 8 packets of 60",
        amount,
        ours,
        vec![("plain", others)],
    );
}

pub fn transfer_of<T: AsRef<[u8]>>(packets: &[T]) -> Vec<u8> {
    let mut transfer = [0; TRANSFER_MAX];
    let mut used = 0;
    for packet in packets {
        plain::usb::append(packet.as_ref(), &mut transfer, &mut used).expect("packets that fit");
    }
    transfer[..used].to_vec()
}

fn sum_headers(
    header: impl Fn(usize, &mut [u8]) -> Result<(), Error>,
    packets: &[Vec<u8>],
    times: usize,
) -> u64 {
    let mut out = [0; HEADER_SIZE];
    sum_over(packets, times, |packet| {
        header(packet.len(), &mut out).map_or(0, |()| weight(&out))
    })
}

fn sum_usb_decoded(
    decode: impl Fn(&[u8]) -> Result<(&[u8], &[u8]), Error>,
    transfers: &[Vec<u8>],
    times: usize,
) -> u64 {
    sum_over(transfers, times, |transfer| {
        decode(transfer).map_or(0, |(packet, rest)| weight(packet) ^ rest.len() as u64)
    })
}

fn sum_walked<'a>(walker: impl Iterator<Item = Result<&'a [u8], Error>>) -> u64 {
    walker.fold(0, |sum, packet| sum.wrapping_add(packet.map_or(0, weight)))
}

/// Builds transfer after transfer, and looks at each.
fn sum_appended(
    append: impl Fn(&[u8], &mut [u8], &mut usize) -> Result<(), Error>,
    packets: &[Vec<u8>],
    in_transfer: usize,
    times: usize,
) -> u64 {
    let mut out = [0; TRANSFER_MAX];
    let mut sum = 0_u64;
    for _ in 0..times {
        for transfer in packets.chunks(in_transfer) {
            let mut used = 0;
            sum = sum.wrapping_add(sum_over(transfer, 1, |packet| {
                append(packet, &mut out, &mut used).is_ok().into()
            }));
            sum = sum.wrapping_add(weight(black_box(&out[..used])));
        }
    }
    sum
}

fn inputs(size: usize) -> Vec<Vec<u8>> {
    let mut random = Random(size as u64);
    (0..INPUTS).map(|_| random.bytes(size)).collect()
}
