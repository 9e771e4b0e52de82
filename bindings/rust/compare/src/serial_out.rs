//! Serial packets out: the frame, its length, and the output's bytes behind it.

use crate::answers::{hex, outcome};
use crate::generator::Generator;
use crate::streams::{Streams, ESCAPE, FLAG};
use crate::tally::Tally;
use crate::{port_side, rust_side};
use pulevago::serial::FRAME_MAX;

/// The shortest and the longest packet that is sent.
const SHORTEST: usize = 5;
const LONGEST: usize = 255;

/// Every length, all escapes, all short packets over the bytes that matter, then packets at random: about so many calls in all.
pub fn compare(calls: usize, random: &mut Generator) -> Tally {
    let mut tally = Tally::new("serial out");
    for length in SHORTEST..=LONGEST {
        for fill in [
            &[FLAG][..],
            &[ESCAPE],
            &[FLAG, ESCAPE],
            &[0x5e, 0x5d],
            &[0x00],
            &[0xff],
        ] {
            let packet: Vec<u8> = fill.iter().cycle().take(length).copied().collect();
            in_each_room(&mut tally, &packet);
        }
        in_each_room(&mut tally, &random.bytes(length));
    }
    all_packets(
        &mut tally,
        &mut Vec::new(),
        &[FLAG, ESCAPE, 0x5e, 0x5d, 0x01],
    );
    for _ in 0..calls {
        let packet = Streams {
            random,
            zero_counts: true,
        }
        .packet();
        if packet.len() >= SHORTEST {
            let room = random.between(packet.len(), 2 * packet.len() + 10);
            one(&mut tally, &packet, random.one_of(&[room, FRAME_MAX]));
        }
    }
    tally
}

/// Every packet of 5 of the letters.
fn all_packets(tally: &mut Tally, packet: &mut Vec<u8>, letters: &[u8]) {
    if packet.len() == SHORTEST {
        return one(tally, packet, FRAME_MAX);
    }
    for letter in letters {
        packet.push(*letter);
        all_packets(tally, packet, letters);
        packet.pop();
    }
}

/// The packet into outputs around its frame's length.
fn in_each_room(tally: &mut Tally, packet: &[u8]) {
    let length = rust_side::send(packet, usize::MAX).0.len();
    for room in [
        0,
        1,
        packet.len() + 6,
        length - 1,
        length,
        length + 1,
        FRAME_MAX,
        FRAME_MAX + 1,
    ] {
        one(tally, packet, room);
    }
}

fn one(tally: &mut Tally, packet: &[u8], room: usize) {
    let rust = outcome(|| rust_side::frame(packet, room));
    let port = outcome(|| port_side::frame(packet, room));
    tally.call(
        packet.len(),
        || format!("{} into {room}", hex(packet)),
        &rust,
        &port,
    );
}
