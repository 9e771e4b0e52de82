//! Document 01's frames and check values, written from its text: bit by bit and without tables.

pub const FLAG: u8 = 0x7e;
const ESCAPE: u8 = 0x7d;
const REVISION: u8 = 0x01;

/// Case A.
pub const PACKET_A: [u8; 5] = [0x01, 0x0a, 0x09, 0xc8, 0x7e];
pub const FRAME_A: [u8; 12] = [
    0x7e, 0x01, 0x05, 0x01, 0x0a, 0x09, 0xc8, 0x7d, 0x5e, 0x2d, 0xba, 0x7e,
];

/// The digits over which document 01 gives both check values.
pub const DIGITS: &[u8] = b"123456789";

/// Each byte enters low bit first, polynomial 0x8408 in reflected form; a fresh register is 0xffff.
pub fn frame_check_from(before: u16, bytes: &[u8]) -> u16 {
    let mut register = before;
    for byte in bytes {
        for bit in 0..8 {
            let feedback = (register ^ u16::from(byte >> bit)) & 1;
            register >>= 1;
            if feedback == 1 {
                register ^= 0x8408;
            }
        }
    }
    register
}

/// Each byte enters high bit first, polynomial 0x07; a fresh register is 0.
pub fn pec_from(before: u8, bytes: &[u8]) -> u8 {
    let mut register = before;
    for byte in bytes {
        for bit in (0..8).rev() {
            let feedback = (register >> 7) ^ (byte >> bit & 1);
            register <<= 1;
            if feedback == 1 {
                register ^= 0x07;
            }
        }
    }
    register
}

/// 0x7e, 0x01, the count, the packet escaped, two check bytes, 0x7e. The check covers 0x01, the count and the unescaped packet.
pub fn serial_frame(packet: &[u8]) -> Vec<u8> {
    let count = u8::try_from(packet.len()).expect("a packet of at most 255 bytes");
    let covered = [&[REVISION, count], packet].concat();
    let check = frame_check_from(0xffff, &covered);
    let mut frame = vec![FLAG, REVISION, count];
    for &byte in packet {
        match byte {
            FLAG => frame.extend([ESCAPE, 0x5e]),
            ESCAPE => frame.extend([ESCAPE, 0x5d]),
            other => frame.push(other),
        }
    }
    frame.extend(check.to_be_bytes());
    frame.push(FLAG);
    frame
}

/// Destination times 2; 0x0f; payload length + 1; own address times 2 plus 1; payload; PEC over everything before it, if wanted.
pub fn i2c_frame(own: u8, dest: u8, payload: &[u8], pec: bool) -> Vec<u8> {
    let count = u8::try_from(payload.len() + 1).expect("a payload of at most 254 bytes");
    let mut frame = [&[dest * 2, 0x0f, count, own * 2 + 1], payload].concat();
    if pec {
        frame.push(pec_from(0, &frame));
    }
    frame
}

/// Header 1a b4 00, then packet length + 4; the packet.
pub fn usb_packet(packet: &[u8]) -> Vec<u8> {
    let length = u8::try_from(packet.len() + 4).expect("a packet of at most 251 bytes");
    [&[0x1a, 0xb4, 0x00, length], packet].concat()
}

#[test]
fn the_reading_agrees_with_the_values_that_document_01_prints() {
    assert_eq!(frame_check_from(0xffff, DIGITS), 0x6f91);
    assert_eq!(pec_from(0, DIGITS), 0xf4);
    assert_eq!(serial_frame(&PACKET_A), FRAME_A);
    assert_eq!(
        i2c_frame(0x20, 0x1d, &PACKET_A, false),
        [0x3a, 0x0f, 0x06, 0x41, 0x01, 0x0a, 0x09, 0xc8, 0x7e]
    );
    assert_eq!(usb_packet(&[]), [0x1a, 0xb4, 0x00, 0x04]);
}
