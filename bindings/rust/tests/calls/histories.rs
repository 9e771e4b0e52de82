//! Demand 3 on random histories: whatever was on the line before, three flags and then frames hand out exactly the frames' packets,
//! each on its frame's last byte. The frames are document 01's, not the frame writer's.

use pulevago::serial::{Reason, Receiver, PACKET_MAX};

use crate::document01::{serial_frame, FLAG};
use crate::random::Random;

const HISTORIES: usize = 600;

/// Packets, each with the index of the byte that ended it.
type Heard = Vec<(usize, Vec<u8>)>;

fn by_step(mut receiver: Receiver, stream: &[u8]) -> (Heard, Receiver) {
    let mut heard = Vec::new();
    for (index, &byte) in stream.iter().enumerate() {
        if let Some(packet) = receiver.step(byte) {
            heard.push((index, packet.to_vec()));
        }
    }
    (heard, receiver)
}

fn by_take(mut receiver: Receiver, stream: &[u8]) -> (Heard, Receiver) {
    let mut heard = Vec::new();
    let mut input = stream;
    let mut out = [0; PACKET_MAX];
    while let Some(packet) = receiver.take(&mut input, &mut out) {
        heard.push((stream.len() - input.len() - 1, packet.to_vec()));
    }
    (heard, receiver)
}

/// In pieces of 0 to 19 bytes and with allowances of 0 to 9, so that calls end in every way.
fn by_pieces(mut receiver: Receiver, stream: &[u8], random: &mut Random) -> (Heard, Receiver) {
    let mut heard = Vec::new();
    let mut fed = 0;
    while fed < stream.len() {
        let piece = &stream[fed..stream.len().min(fed + random.below(20))];
        let mut out = [0; PACKET_MAX];
        let took = receiver
            .take_at_most(piece, random.below(10), &mut out)
            .expect("room for a packet");
        fed += took.taken;
        if took.reason == Reason::Packet {
            heard.push((fed - 1, out[..took.length].to_vec()));
        }
    }
    (heard, receiver)
}

/// Line bytes of every kind, in part cut off from frames.
fn history(random: &mut Random) -> Vec<u8> {
    let mut bytes = Vec::new();
    for _ in 0..random.below(4) {
        let size = random.below(60);
        bytes.extend(random.line_bytes(size));
        let packet = some_packet(random);
        let frame = serial_frame(&packet);
        bytes.extend(&frame[..random.below(frame.len() + 1)]);
    }
    bytes
}

fn some_packet(random: &mut Random) -> Vec<u8> {
    let longest = [8, 40, 255][random.below(3)];
    let size = 1 + random.below(longest);
    random.line_bytes(size)
}

/// Frames of one to four packets, and what is heard of them where all are heard.
fn some_frames(random: &mut Random) -> (Vec<u8>, Heard) {
    let mut stream = Vec::new();
    let mut heard = Vec::new();
    for _ in 0..1 + random.below(4) {
        let packet = some_packet(random);
        stream.extend(serial_frame(&packet));
        heard.push((stream.len() - 1, packet));
    }
    (stream, heard)
}

#[test]
fn three_flags_and_then_every_packet() {
    let mut random = Random::new(1);
    let mut lost_behind = [0; 3];
    for _ in 0..HISTORIES {
        let history = history(&mut random);
        let (frames, wanted) = some_frames(&mut random);
        let behind = |flags: usize| {
            let before = [&history[..], &vec![FLAG; flags]].concat();
            by_step(Receiver::new(), &before).1
        };
        let by_step_heard = by_step(behind(3), &frames);
        assert_eq!(by_step_heard.0, wanted, "history {history:02x?}");
        assert_eq!(by_take(behind(3), &frames), by_step_heard);
        assert_eq!(by_pieces(behind(3), &frames, &mut random), by_step_heard);
        for (flags, lost) in lost_behind.iter_mut().enumerate() {
            *lost += usize::from(by_step(behind(flags), &frames).0 != wanted);
        }
    }
    // the histories are such that fewer flags lose packets
    assert!(lost_behind.iter().all(|lost| *lost > 0), "{lost_behind:?}");
}

#[test]
fn any_cutting_of_any_stream_gives_the_same() {
    let mut random = Random::new(3);
    let mut heard = 0;
    for _ in 0..HISTORIES {
        let mut stream = history(&mut random);
        stream.extend(some_frames(&mut random).0);
        let by_step_heard = by_step(Receiver::new(), &stream);
        heard += by_step_heard.0.len();
        assert_eq!(by_take(Receiver::new(), &stream), by_step_heard);
        assert_eq!(
            by_pieces(Receiver::new(), &stream, &mut random),
            by_step_heard
        );
    }
    assert!(heard > HISTORIES / 2, "{heard} packets were heard");
}
