//! The frame writer.

use pulevago::{ffi, serial};

use crate::document01::{serial_frame, FRAME_A, PACKET_A};
use crate::lent::{filler, filler_with, written_or_refused, Lent, LentNumber, WIDE};

/// The frame's length and the whole output after it, or the number that refused.
fn write(packet: &[u8], room: usize) -> Result<(usize, Vec<u8>), u32> {
    let mut lent = Lent::of(packet);
    let mut out = Lent::room(room);
    let mut written = LentNumber::of(WIDE);
    let number = unsafe {
        ffi::pulevago_frame_to_serial(
            lent.pointer(),
            lent.length(),
            out.pointer(),
            out.length(),
            written.pointer(),
        )
    };
    assert_eq!(lent.bytes(), packet);

    let mut safe_out = Lent::room(room);
    let safe = serial::frame_to_serial(packet, safe_out.slice());
    written_or_refused(number, &written, &out, safe, &safe_out)
}

/// What the writer gives where it refuses nothing.
fn done(packet: &[u8], room: usize) -> Result<(usize, Vec<u8>), u32> {
    let frame = serial_frame(packet);
    Ok((frame.len(), filler_with(room, 0, &frame)))
}

#[test]
fn case_a_with_bytes_behind_it_untouched() {
    let wanted = (12, filler_with(600, 0, &FRAME_A));
    assert_eq!(write(&PACKET_A, 600), Ok(wanted));
}

#[test]
fn every_length() {
    for length in 0..=260 {
        let packet = filler(length);
        let wanted = match length {
            5..=255 => done(&packet, 516),
            _ => Err(1),
        };
        assert_eq!(write(&packet, 516), wanted);
    }
}

#[test]
fn the_longest_frame_is_all_escapes() {
    for byte in [0x7e, 0x7d] {
        let packet = [byte; 255];
        assert_eq!(serial_frame(&packet).len(), serial::FRAME_MAX);
        assert_eq!(write(&packet, 516), done(&packet, 516));
        assert_eq!(write(&packet, 515), Err(2));
    }
}

#[test]
fn every_room_below_the_frame_is_too_short() {
    for room in 0..12 {
        assert_eq!(write(&PACKET_A, room), Err(2));
    }
    assert_eq!(write(&PACKET_A, 12), done(&PACKET_A, 12));
}

#[test]
fn the_length_is_tested_before_the_room() {
    for length in [0, 4, 256, 1000] {
        assert_eq!(write(&filler(length), 0), Err(1));
    }
}
