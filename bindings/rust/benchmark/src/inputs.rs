//! What is measured on: packets, and serial lines that carry their frames among noise and damage. The same at each run.
use crate::plain::wire::{ESCAPE, ESCAPE_ESCAPED, FLAG, FLAG_ESCAPED, REVISION};
use crate::plain::writer::frame_to_serial;
use pulevago::serial::FRAME_MAX;

/// Numbers that look random (splitmix64), the same from the same start.
pub struct Random(pub u64);

impl Random {
    pub fn next(&mut self) -> u64 {
        self.0 = self.0.wrapping_add(0x9e37_79b9_7f4a_7c15);
        let mut mixed = self.0;
        mixed = (mixed ^ (mixed >> 30)).wrapping_mul(0xbf58_476d_1ce4_e5b9);
        mixed = (mixed ^ (mixed >> 27)).wrapping_mul(0x94d0_49bb_1331_11eb);
        mixed ^ (mixed >> 31)
    }

    /// A number from `least` to `most`.
    pub fn between(&mut self, least: usize, most: usize) -> usize {
        least + (self.next() % (most - least + 1) as u64) as usize
    }

    pub fn bytes(&mut self, length: usize) -> Vec<u8> {
        (0..length).map(|_| self.next() as u8).collect()
    }
}

/// Which packets a line or a list is made of.
#[derive(Clone, Copy)]
pub struct Mix {
    pub name: &'static str,
    pub shortest: usize,
    pub longest: usize,
    /// only flags and escapes, each of which is escaped in a frame; else random bytes
    pub all_escapes: bool,
}

const fn mix(name: &'static str, shortest: usize, longest: usize) -> Mix {
    Mix {
        name,
        shortest,
        longest,
        all_escapes: false,
    }
}

pub const MIXED: Mix = mix("packets of 5 to 255 bytes", 5, 255);
pub const MIXES: [Mix; 4] = [
    MIXED,
    mix("packets of 255 bytes", 255, 255),
    mix("packets of 64 bytes", 64, 64),
    mix("packets of 5 to 9 bytes", 5, 9),
];
pub const ALL_ESCAPES: Mix = Mix {
    name: "packets of 5 to 255 bytes, all to be escaped",
    shortest: 5,
    longest: 255,
    all_escapes: true,
};

pub fn packet(mix: Mix, random: &mut Random) -> Vec<u8> {
    let length = random.between(mix.shortest, mix.longest);
    let mut packet = random.bytes(length);
    if mix.all_escapes {
        packet
            .iter_mut()
            .for_each(|byte| *byte = if *byte & 1 == 0 { FLAG } else { ESCAPE });
    }
    packet
}

/// Packets of at least `total` bytes together.
pub fn packets(mix: Mix, total: usize) -> Vec<Vec<u8>> {
    let mut random = Random(1);
    let mut made = 0;
    let mut packets = Vec::new();
    while made < total {
        let packet = packet(mix, &mut random);
        made += packet.len();
        packets.push(packet);
    }
    packets
}

/// A serial line of exactly `size` bytes: frames without a gap; of each 32 about one comes behind noise, and one is damaged in
/// one byte. Where that may have put a receiver out of step, three flags follow.
pub fn line(mix: Mix, size: usize) -> Vec<u8> {
    let mut random = Random(2);
    let mut line = Vec::with_capacity(size + 2 * FRAME_MAX);
    while line.len() < size {
        let mut frame = frame(mix, &mut random);
        match random.next() % 32 {
            0 => {
                let noise = random.between(1, 40);
                line.extend(random.bytes(noise));
                line.extend([FLAG; 3]);
                line.extend(frame);
            }
            1 => {
                let place = random.between(0, frame.len() - 1);
                frame[place] ^= random.between(1, 255) as u8;
                line.extend(frame);
                line.extend([FLAG; 3]);
            }
            _ => line.extend(frame),
        }
    }
    line.truncate(size);
    line
}

/// A line of `size` bytes that are mostly those that the receiver's table names, and small counts, with frames among them: every
/// row of the table is gone through again and again. Of some frames the closing flag is another byte, and the next frame has no
/// opening flag: its 01 opens it all the same. Others are cut off, and the next frame follows at once.
pub fn crowded_line(size: usize) -> Vec<u8> {
    const NAMED: [u8; 8] = [
        FLAG,
        ESCAPE,
        FLAG_ESCAPED,
        ESCAPE_ESCAPED,
        REVISION,
        0,
        1,
        2,
    ];
    const SHORT: Mix = Mix {
        name: "short, all to be escaped",
        shortest: 5,
        longest: 12,
        all_escapes: true,
    };
    let mut random = Random(3);
    let mut line = line(MIXES[3], size / 2);
    while line.len() < size {
        match random.next() % 64 {
            0 => {
                line.extend([FLAG; 3]);
                line.extend(frame(SHORT, &mut random));
            }
            1 => {
                line.extend([FLAG; 3]);
                line.extend(frame(SHORT, &mut random));
                line.pop();
                line.push(random.next() as u8);
                line.extend_from_slice(&frame(SHORT, &mut random)[1..]);
            }
            2 => {
                line.extend([FLAG; 3]);
                let cut_off = frame(SHORT, &mut random);
                let length = random.between(1, cut_off.len() - 1);
                line.extend_from_slice(&cut_off[..length]);
                line.extend(frame(SHORT, &mut random));
            }
            3 => line.push(random.next() as u8),
            _ => line.push(NAMED[random.between(0, NAMED.len() - 1)]),
        }
    }
    line.truncate(size);
    line
}

/// The frame of a packet.
fn frame(mix: Mix, random: &mut Random) -> Vec<u8> {
    let mut frame = [0; FRAME_MAX];
    let length = frame_to_serial(&packet(mix, random), &mut frame)
        .expect("a packet of 5 to 255 bytes, and room");
    frame[..length].to_vec()
}
