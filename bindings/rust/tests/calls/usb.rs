//! USB, one packet at a time: header and decode.

use pulevago::{ffi, usb, Error};

use crate::document01::usb_packet;
use crate::lent::{filler, filler_with, Lent, LentNumber, WIDE};

/// The whole lent header after it, or the number that refused.
fn header(size: usize, room: usize) -> Result<Vec<u8>, u32> {
    let mut out = Lent::room(room);
    let number = unsafe { ffi::pulevago_usb_header(size, out.pointer(), out.length()) };
    let mut safe_out = Lent::room(room);
    let safe = usb::header(size, safe_out.slice());
    assert_eq!(safe_out.bytes(), out.bytes());
    if number == 0 {
        assert_eq!(safe, Ok(()));
        return Ok(out.bytes().to_vec());
    }
    assert_eq!(safe.map_err(Error::number), Err(number));
    assert_eq!(out.bytes(), filler(room));
    Err(number)
}

/// Place and length of packet and remainder, or the number that refused.
fn decode(input: &[u8]) -> Result<[usize; 4], u32> {
    let mut lent = Lent::of(input);
    let mut parts = [WIDE; 4].map(LentNumber::of);
    let [place, length, rest_place, rest_length] = &mut parts;
    let number = unsafe {
        ffi::pulevago_usb_decode(
            lent.pointer(),
            lent.length(),
            place.pointer(),
            length.pointer(),
            rest_place.pointer(),
            rest_length.pointer(),
        )
    };
    assert_eq!(lent.bytes(), input);
    let safe = usb::decode(input);
    if number == 0 {
        let [place, length, rest_place, rest_length] = parts.map(|number| number.value());
        let packet = &input[place..place + length];
        let rest = &input[rest_place..rest_place + rest_length];
        assert_eq!(safe, Ok((packet, rest)));
        return Ok([place, length, rest_place, rest_length]);
    }
    assert_eq!(safe.map_err(Error::number), Err(number));
    parts.iter().for_each(LentNumber::assert_unchanged);
    Err(number)
}

#[test]
fn headers_of_every_size() {
    for size in 0..=300 {
        let wanted = match size {
            0..=251 => Ok(vec![0x1a, 0xb4, 0x00, size as u8 + 4]),
            _ => Err(6),
        };
        assert_eq!(header(size, 4), wanted);
    }
}

#[test]
fn sizes_over_32_bits() {
    for size in [1 << 32, (1 << 32) + 5, 1 << 63, usize::MAX - 3, usize::MAX] {
        assert_eq!(header(size, 4), Err(6));
    }
}

#[test]
fn lent_headers_of_another_size() {
    for room in [0, 1, 3, 5, 8, 260] {
        assert_eq!(header(5, room), Err(6));
        assert_eq!(header(252, room), Err(6));
    }
}

#[test]
fn packets_of_every_size_and_what_is_behind() {
    for size in 0..=251 {
        let packet = filler(size);
        for behind in [0, 1, 300] {
            let input = [usb_packet(&packet), filler(behind)].concat();
            assert_eq!(decode(&input), Ok([4, size, 4 + size, behind]));
        }
    }
}

#[test]
fn what_decode_refuses() {
    // case K, a length byte of 0, wrong first bytes, headers cut off, no byte at all
    let refused: [&[u8]; 8] = [
        &[0x1a, 0xb4, 0x00, 0x03],
        &[0x1a, 0xb4, 0x00, 0x00, 0x01],
        &[0x1b, 0xb4, 0x00, 0x04],
        &[0x1a, 0xb5, 0x00, 0x04],
        &[0xb4, 0x1a, 0x00, 0x04],
        &[0x1a, 0xb4, 0x00],
        &[0x1a],
        &[],
    ];
    for input in refused {
        assert_eq!(decode(input), Err(7));
    }
    let whole = usb_packet(&filler(251));
    for length in 0..whole.len() {
        assert_eq!(decode(&whole[..length]), Err(7));
    }
}

#[test]
fn the_third_byte_is_not_tested() {
    for third in 0..=255 {
        assert_eq!(decode(&[0x1a, 0xb4, third, 0x04]), Ok([4, 0, 4, 0]));
    }
}

#[test]
fn parts_are_parts_of_the_input() {
    let input = filler_with(20, 0, &usb_packet(&[1, 2, 3]));
    let (packet, rest) = usb::decode(&input).expect("a packet");
    assert_eq!(packet.as_ptr(), input[4..].as_ptr());
    assert_eq!(rest.as_ptr(), input[7..].as_ptr());
    // an empty part stands at its place too
    let (packet, rest) = usb::decode(&input[..7]).expect("a packet");
    assert_eq!((packet.len(), rest.len()), (3, 0));
    assert_eq!(rest.as_ptr(), input[7..].as_ptr());
}
