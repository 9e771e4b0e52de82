//! I2C, encode and decode.

use pulevago::i2c::{self, Decoded};
use pulevago::{ffi, Error};

use crate::document01::{i2c_frame, pec_from, PACKET_A};
use crate::lent::{filler, filler_with, written_or_refused, Lent, LentNumber, NARROW, WIDE};

/// The frame's length and the whole output after it, or the number that refused.
fn encode(
    own: u8,
    dest: u8,
    payload: &[u8],
    room: usize,
    pec: bool,
) -> Result<(usize, Vec<u8>), u32> {
    let mut lent = Lent::of(payload);
    let mut out = Lent::room(room);
    let mut written = LentNumber::of(WIDE);
    let number = unsafe {
        ffi::pulevago_i2c_encode(
            own,
            dest,
            lent.pointer(),
            lent.length(),
            out.pointer(),
            out.length(),
            pec,
            written.pointer(),
        )
    };
    assert_eq!(lent.bytes(), payload);

    let mut safe_out = Lent::room(room);
    let safe = i2c::encode(own, dest, payload, safe_out.slice(), pec);
    written_or_refused(number, &written, &out, safe, &safe_out)
}

/// The source, and the payload's place and length; or the number that refused.
fn decode(input: &[u8], pec: bool) -> Result<(u8, usize, usize), u32> {
    let mut lent = Lent::of(input);
    let mut source = LentNumber::of(NARROW);
    let mut place = LentNumber::of(WIDE);
    let mut length = LentNumber::of(WIDE);
    let number = unsafe {
        ffi::pulevago_i2c_decode(
            lent.pointer(),
            lent.length(),
            pec,
            source.pointer(),
            place.pointer(),
            length.pointer(),
        )
    };
    assert_eq!(lent.bytes(), input);
    let safe = i2c::decode(input, pec);
    if number == 0 {
        let (source, place, length) = (source.value(), place.value(), length.value());
        let payload = &input[place..place + length];
        assert_eq!(safe, Ok(Decoded { source, payload }));
        let by_the_crate = safe.expect("just seen").payload;
        assert_eq!(
            by_the_crate.as_ptr(),
            payload.as_ptr(),
            "a part of the input"
        );
        return Ok((source, place, length));
    }
    assert_eq!(safe.map_err(Error::number), Err(number));
    source.assert_unchanged();
    place.assert_unchanged();
    length.assert_unchanged();
    Err(number)
}

/// What encode gives where it refuses nothing.
fn done(
    own: u8,
    dest: u8,
    payload: &[u8],
    room: usize,
    pec: bool,
) -> Result<(usize, Vec<u8>), u32> {
    let frame = i2c_frame(own, dest, payload, pec);
    Ok((frame.len(), filler_with(room, 0, &frame)))
}

#[test]
fn case_g_with_and_without_its_code() {
    let plain = [0x3a, 0x0f, 0x06, 0x41, 0x01, 0x0a, 0x09, 0xc8, 0x7e];
    let wanted = (9, filler_with(40, 0, &plain));
    assert_eq!(encode(0x20, 0x1d, &PACKET_A, 40, false), Ok(wanted));
    let with_code = [&plain[..], &[pec_from(0, &plain)]].concat();
    let wanted = (10, filler_with(40, 0, &with_code));
    assert_eq!(encode(0x20, 0x1d, &PACKET_A, 40, true), Ok(wanted));
    assert_eq!(decode(&plain, false), Ok((0x20, 4, 5)));
    assert_eq!(decode(&with_code, true), Ok((0x20, 4, 5)));
}

#[test]
fn every_length_there_and_back() {
    for pec in [false, true] {
        for length in 0..=254 {
            let payload = filler(length);
            assert_eq!(
                encode(1, 127, &payload, 259, pec),
                done(1, 127, &payload, 259, pec)
            );
            let frame = i2c_frame(1, 127, &payload, pec);
            assert_eq!(decode(&frame, pec), Ok((1, 4, length)));
        }
        for length in [255, 256, 260, 1000] {
            assert_eq!(encode(1, 127, &filler(length), 2000, pec), Err(3));
        }
    }
}

#[test]
fn every_address() {
    for address in 0..=255 {
        let as_own = encode(address, 0x1d, &PACKET_A, 10, true);
        let as_dest = encode(0x20, address, &PACKET_A, 10, true);
        if address > 127 {
            assert_eq!((as_own, as_dest), (Err(4), Err(4)));
            continue;
        }
        assert_eq!(as_own, done(address, 0x1d, &PACKET_A, 10, true));
        assert_eq!(as_dest, done(0x20, address, &PACKET_A, 10, true));
        let frame = i2c_frame(address, 0x1d, &PACKET_A, true);
        assert_eq!(decode(&frame, true), Ok((address, 4, 5)));
    }
}

#[test]
fn rooms_at_their_limit() {
    for (pec, least) in [(false, 9), (true, 10)] {
        for room in 0..least {
            assert_eq!(encode(0x20, 0x1d, &PACKET_A, room, pec), Err(3));
        }
        let wanted = done(0x20, 0x1d, &PACKET_A, least, pec);
        assert_eq!(encode(0x20, 0x1d, &PACKET_A, least, pec), wanted);
    }
    let longest = filler(254);
    assert_eq!(i2c_frame(0, 0, &longest, true).len(), i2c::FRAME_MAX);
    assert_eq!(encode(0, 0, &longest, 258, true), Err(3));
    assert_eq!(
        encode(0, 0, &longest, 258, false),
        done(0, 0, &longest, 258, false)
    );
}

#[test]
fn the_address_is_tested_first() {
    assert_eq!(encode(128, 0, &filler(255), 0, true), Err(4));
    assert_eq!(encode(0, 255, &filler(255), 0, false), Err(4));
}

#[test]
fn what_decode_refuses() {
    // case I, a wrong command code, headers cut off, and no byte at all
    let refused: [&[u8]; 6] = [
        &[0x3a, 0x0f, 0x02, 0x41],
        &[0x3a, 0x0e, 0x01, 0x41],
        &[0x3a, 0x0f, 0x01],
        &[0x3a, 0x0f, 0x00, 0x41],
        &[0x3a],
        &[],
    ];
    for input in refused {
        assert_eq!(decode(input, false), Err(5));
        let with_code = [input, &[pec_from(0, input)]].concat();
        assert_eq!(decode(&with_code, true), Err(5));
    }
    assert_eq!(decode(&[], true), Err(5));
}

#[test]
fn every_wrong_code() {
    let frame = i2c_frame(0x20, 0x1d, &PACKET_A, true);
    for code in 0..=255 {
        let mut changed = frame.clone();
        changed[9] = code;
        let wanted = if code == frame[9] {
            Ok((0x20, 4, 5))
        } else {
            Err(5)
        };
        assert_eq!(decode(&changed, true), wanted);
    }
    // the code is a byte too many where none is expected, and missing where one is
    assert_eq!(decode(&frame, false), Err(5));
    assert_eq!(decode(&frame[..9], true), Err(5));
}

#[test]
fn what_decode_does_not_test() {
    assert_eq!(decode(&[0xff, 0x0f, 0x01, 0x40], false), Ok((0x20, 4, 0)));
    assert_eq!(decode(&[0x00, 0x0f, 0x01, 0xff], false), Ok((0x7f, 4, 0)));
}
