//! The marked cases A to N of document 01, through the safe crate.

use pulevago::serial::{frame_to_serial, Receiver, FRAME_MAX};
use pulevago::{checks, i2c, usb, Error};

use crate::document01::{FRAME_A, PACKET_A};

/// What a fresh receiver hands out, and the receiver after it.
fn fed(stream: &[u8]) -> (Vec<Vec<u8>>, Receiver) {
    let mut receiver = Receiver::new();
    let mut packets = Vec::new();
    for &byte in stream {
        packets.extend(receiver.step(byte).map(<[u8]>::to_vec));
    }
    (packets, receiver)
}

/// In FrameSearch a byte that is no flag changes nothing, and case A's frame is heard.
fn is_in_frame_search(mut receiver: Receiver) -> bool {
    let before = receiver.clone();
    let stays = receiver.step(0x01).is_none() && receiver == before;
    for byte in &FRAME_A[..11] {
        receiver.step(*byte);
    }
    stays && receiver.step(FRAME_A[11]) == Some(&PACKET_A[..])
}

#[test]
fn a_and_d_the_frame_of_a_packet_and_its_room() {
    let mut out = [0xee; FRAME_MAX];
    assert_eq!(
        frame_to_serial(&PACKET_A, &mut out[..11]),
        Err(Error::ShortOutput)
    );
    assert_eq!(out, [0xee; FRAME_MAX]);
    assert_eq!(frame_to_serial(&PACKET_A, &mut out[..12]), Ok(12));
    assert_eq!(out[..12], FRAME_A);
    assert_eq!(fed(&FRAME_A).0, [PACKET_A]);
}

#[test]
fn b_a_wrong_check() {
    let mut stream = FRAME_A;
    assert_eq!(stream[10], 0xba);
    stream[10] = 0xbb;
    let (packets, receiver) = fed(&stream);
    assert!(packets.is_empty());
    assert!(is_in_frame_search(receiver));
}

#[test]
fn c_the_lengths_of_packets_to_send() {
    let mut out = [0; 516];
    assert_eq!(frame_to_serial(&[0x7e; 4], &mut out), Err(Error::BadLength));
    assert_eq!(
        frame_to_serial(&[0x7e; 256], &mut out),
        Err(Error::BadLength)
    );
    assert_eq!(frame_to_serial(&[0x7e; 5], &mut out), Ok(16));
    assert_eq!(frame_to_serial(&[0x7e; 255], &mut out), Ok(516));
}

#[test]
fn e_a_zero_count() {
    let (packets, receiver) = fed(&[0x7e, 0x01, 0x00]);
    assert!(packets.is_empty());
    assert!(is_in_frame_search(receiver));
}

#[test]
fn f_a_bad_escape() {
    let (packets, receiver) = fed(&[0x7e, 0x01, 0x05, 0x7d, 0x41]);
    assert!(packets.is_empty());
    assert!(is_in_frame_search(receiver));
}

#[test]
fn g_an_i2c_frame() {
    let mut out = [0; 9];
    assert_eq!(i2c::encode(0x20, 0x1d, &PACKET_A, &mut out, false), Ok(9));
    assert_eq!(out, [0x3a, 0x0f, 0x06, 0x41, 0x01, 0x0a, 0x09, 0xc8, 0x7e]);
}

#[test]
fn h_and_i_i2c_frames_without_a_payload() {
    let decoded = i2c::decode(&[0x3a, 0x0f, 0x01, 0x41], false).expect("case H");
    assert_eq!((decoded.source, decoded.payload), (0x20, &[][..]));
    let refused = i2c::decode(&[0x3a, 0x0f, 0x02, 0x41], false);
    assert_eq!(refused.map_err(Error::number), Err(5));
}

#[test]
fn j_and_k_usb_headers() {
    let decoded = usb::decode(&[0x1a, 0xb4, 0x00, 0x04]);
    assert_eq!(decoded, Ok((&[][..], &[][..])));
    let refused = usb::decode(&[0x1a, 0xb4, 0x00, 0x03]);
    assert_eq!(refused.map_err(Error::number), Err(7));
}

#[test]
fn l_the_longest_usb_packet() {
    let mut header = [0; 4];
    assert_eq!(usb::header(251, &mut header), Ok(()));
    assert_eq!(header, [0x1a, 0xb4, 0x00, 0xff]);
    assert_eq!(usb::header(252, &mut header).map_err(Error::number), Err(6));
}

#[test]
fn m_both_check_values() {
    assert_eq!(checks::frame_check(b"123456789"), 0x6f91);
    assert_eq!(checks::pec(b"123456789"), 0xf4);
}

#[test]
fn n_the_losing_history() {
    let history = [0x7e, 0x01, 0x05, 0x01, 0x0a, 0x09, 0xc8, 0x00];
    let with_flags = |flags: &[u8]| fed(&[&history[..], flags, &FRAME_A[..]].concat()).0;
    assert!(with_flags(&[0x7e, 0x7e]).is_empty());
    // with three it is heard
    assert_eq!(with_flags(&[0x7e, 0x7e, 0x7e]), [PACKET_A]);
}
