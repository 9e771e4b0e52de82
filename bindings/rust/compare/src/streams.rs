//! Serial streams to feed: frames good and damaged, noise, and what lies between.

use crate::generator::Generator;

pub const FLAG: u8 = 0x7e;
pub const ESCAPE: u8 = 0x7d;

/// The bytes that the receiver's table names, and some that it does not.
const BYTES_THAT_MATTER: [u8; 10] = [FLAG, ESCAPE, 0x01, 0x5e, 0x5d, 0x00, 0x02, 0x05, 0x41, 0xff];

/// The packet of document 01's case A.
pub const CASE_A: [u8; 5] = [0x01, 0x0a, 0x09, 0xc8, 0x7e];

/// The history of document 01's case N, with its two flags: behind it a frame is missed.
pub const CASE_N_HISTORY: [u8; 10] = [FLAG, 0x01, 0x05, 0x01, 0x0a, 0x09, 0xc8, 0x00, FLAG, FLAG];

/// A packet's frame by document 01, whatever the packet's length up to 255.
pub fn frame_of(packet: &[u8]) -> Vec<u8> {
    let mut frame = vec![FLAG, 0x01, packet.len() as u8];
    for byte in packet {
        match *byte {
            FLAG => frame.extend([ESCAPE, 0x5e]),
            ESCAPE => frame.extend([ESCAPE, 0x5d]),
            other => frame.push(other),
        }
    }
    frame.extend(check_of(packet).to_be_bytes());
    frame.push(FLAG);
    frame
}

/// The frame check of a packet.
pub fn check_of(packet: &[u8]) -> u16 {
    let mut digest = crc::Crc::<u16>::new(&crc::CRC_16_IBM_SDLC).digest();
    digest.update(&[0x01, packet.len() as u8]);
    digest.update(packet);
    !digest.finalize()
}

/// Makes streams.
pub struct Streams<'r> {
    pub random: &'r mut Generator,
    /// Whether zero counts come: some are put in, and a 00 may follow a 01.
    pub zero_counts: bool,
}

impl Streams<'_> {
    /// A stream of some kind, of about this many bytes or fewer.
    pub fn stream(&mut self, length: usize) -> Vec<u8> {
        let mut stream = Vec::new();
        let kind = self.random.below(10);
        if kind == 0 {
            stream.extend(CASE_N_HISTORY);
        }
        while stream.len() < length {
            if self.zero_counts && self.random.once_in(20) {
                stream.extend([FLAG, 0x01, 0x00]);
            }
            let piece = match kind {
                0..=2 => self.good_frame(),
                3..=5 => self.damaged_frame(),
                6 => self.noise(),
                7 => self.marked_noise(),
                _ => self.any_piece(),
            };
            stream.extend(piece);
        }
        stream.truncate(length);
        stream
    }

    fn any_piece(&mut self) -> Vec<u8> {
        match self.random.below(8) {
            0..=2 => self.good_frame(),
            3..=5 => self.damaged_frame(),
            6 => self.noise(),
            _ => self.marked_noise(),
        }
    }

    /// A frame, sometimes with flags before it.
    fn good_frame(&mut self) -> Vec<u8> {
        let packet = if self.random.once_in(20) {
            self.packet_with_marked_check()
        } else {
            self.packet()
        };
        let mut frame = vec![FLAG; self.random.one_of(&[0, 0, 0, 1, 2, 3])];
        frame.extend(frame_of(&packet));
        frame
    }

    /// A packet of 1 to 255 bytes.
    pub fn packet(&mut self) -> Vec<u8> {
        let length = match self.random.below(8) {
            0 => self.random.between(1, 4),
            1 => self.random.one_of(&[5, 6, 124, 125, 126, 127, 254, 255]),
            2 => self.random.between(1, 255),
            _ => self.random.between(5, 40),
        };
        let packet = if self.random.once_in(3) {
            self.random.bytes_of(&BYTES_THAT_MATTER, length)
        } else {
            self.random.bytes(length)
        };
        self.allowed(packet)
    }

    /// A packet with a flag or an escape among the two bytes of its check.
    fn packet_with_marked_check(&mut self) -> Vec<u8> {
        let length = self.random.between(1, 20);
        loop {
            let bytes = self.random.bytes(length);
            let packet = self.allowed(bytes);
            if check_of(&packet)
                .to_be_bytes()
                .iter()
                .any(|byte| [FLAG, ESCAPE].contains(byte))
            {
                return packet;
            }
        }
    }

    fn noise(&mut self) -> Vec<u8> {
        let length = self.random.between(1, 300);
        let bytes = self.random.bytes(length);
        self.allowed(bytes)
    }

    /// Noise of the bytes that matter.
    fn marked_noise(&mut self) -> Vec<u8> {
        let length = self.random.between(1, 60);
        let bytes = self.random.bytes_of(&BYTES_THAT_MATTER, length);
        self.allowed(bytes)
    }

    /// The bytes, where zero counts are avoided with a 02 for each 00 behind a 01.
    fn allowed(&self, mut bytes: Vec<u8>) -> Vec<u8> {
        if !self.zero_counts {
            for at in 1..bytes.len() {
                if bytes[at - 1..=at] == [0x01, 0x00] {
                    bytes[at] = 0x02;
                }
            }
        }
        bytes
    }

    /// A frame with one thing wrong, sometimes with flags behind it.
    fn damaged_frame(&mut self) -> Vec<u8> {
        let packet = self.packet();
        let mut frame = damaged(frame_of(&packet), self.random);
        frame.extend(vec![FLAG; self.random.one_of(&[0, 0, 1, 2, 3])]);
        self.allowed(frame)
    }
}

/// The frame with one thing wrong.
fn damaged(mut frame: Vec<u8>, random: &mut Generator) -> Vec<u8> {
    let at = random.below(frame.len());
    let check_at = frame.len() - 3;
    match random.below(10) {
        0 => frame[at] ^= 1 << random.below(8),
        1 => frame[at] = random.byte(),
        2 => frame[at] = random.one_of(&BYTES_THAT_MATTER),
        3 => {
            frame.remove(at);
        }
        4 => frame.insert(at, frame[at]),
        5 => frame.insert(at, random.one_of(&BYTES_THAT_MATTER)),
        6 => frame.truncate(at),
        7 => frame[check_at + random.below(2)] ^= 1 << random.below(8),
        8 => frame.swap(check_at, check_at + 1),
        _ => change_escape(&mut frame, random),
    }
    frame
}

/// Changes the byte behind an escape; where there is none, the count.
fn change_escape(frame: &mut [u8], random: &mut Generator) {
    let escape = frame.iter().position(|byte| *byte == ESCAPE).unwrap_or(1);
    frame[escape + 1] = random.one_of(&[0x5d, 0x5e, 0x7d, 0x7e, 0x41, 0x5c, 0x5f, 0x01, 0x03]);
}
