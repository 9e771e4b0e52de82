//! The plain frame writer: a packet's serial frame into a lent output, in two ways.
use super::checks::{FRAME_START, frame_register, frame_step};
use super::wire::{ESCAPE, ESCAPE_ESCAPED, FLAG, FLAG_ESCAPED, REVISION};
use pulevago::Error;

/// Writes the frame at the output's start and returns its length. The check is computed first, then the packet is written, as
/// mctp-estack does.
pub fn frame_to_serial(packet: &[u8], out: &mut [u8]) -> Result<usize, Error> {
    let (frame, start) = begin(packet, out)?;
    let check = frame_register(start, packet);
    let mut place = 3;
    for &byte in packet {
        place = write_byte(byte, frame, place);
    }
    Ok(end(frame, place, check))
}

/// The same, with check and escaping in one pass over the packet.
pub fn frame_to_serial_in_one_pass(packet: &[u8], out: &mut [u8]) -> Result<usize, Error> {
    let (frame, mut check) = begin(packet, out)?;
    let mut place = 3;
    for &byte in packet {
        check = frame_step(check, byte);
        place = write_byte(byte, frame, place);
    }
    Ok(end(frame, place, check))
}

/// The frame's part of the output, with what stands before the packet written, and the check of that.
#[inline]
fn begin<'o>(packet: &[u8], out: &'o mut [u8]) -> Result<(&'o mut [u8], u32), Error> {
    if !(5..=255).contains(&packet.len()) {
        return Err(Error::BadLength);
    }
    let escapes = packet
        .iter()
        .filter(|&&byte| byte == FLAG || byte == ESCAPE)
        .count();
    let frame = out
        .get_mut(..packet.len() + escapes + 6)
        .ok_or(Error::ShortOutput)?;
    let count = packet.len() as u8;
    frame[..3].copy_from_slice(&[FLAG, REVISION, count]);
    Ok((frame, frame_step(frame_step(FRAME_START, REVISION), count)))
}

/// A byte of the packet, escaped. It returns the place behind it.
#[inline]
fn write_byte(byte: u8, frame: &mut [u8], place: usize) -> usize {
    let escaped = match byte {
        FLAG => FLAG_ESCAPED,
        ESCAPE => ESCAPE_ESCAPED,
        _ => {
            frame[place] = byte;
            return place + 1;
        }
    };
    frame[place..place + 2].copy_from_slice(&[ESCAPE, escaped]);
    place + 2
}

/// What stands behind the packet. It returns the frame's length.
#[inline]
fn end(frame: &mut [u8], place: usize, check: u32) -> usize {
    let [high, low] = (check as u16).to_be_bytes();
    frame[place..].copy_from_slice(&[high, low, FLAG]);
    frame.len()
}
