//! The plain serial receiver: a byte at a time into a `&mut` struct, by document 01's table. The check is computed at the frame's
//! end, or kept byte by byte: that is its parameter.
use super::checks::{FRAME_START, frame_check, frame_step};
use super::wire::{ESCAPE, ESCAPE_ESCAPED, FLAG, FLAG_ESCAPED, PACKET_AT, REVISION, STORED_MAX};
use pulevago::Error;
use pulevago::serial::{PACKET_MAX, Reason, Taken};

/// When the frame check of revision, count and packet is computed.
pub trait Checking {
    const NEW: Self;
    /// The frame begins.
    fn begin(&mut self);
    /// A byte that the check covers was stored.
    fn add(&mut self, byte: u8);
    /// The check of the covered bytes, all of which were added.
    fn check(&self, covered: &[u8]) -> u16;
}

/// All at once, when the closing flag has come.
pub struct AtEnd;

impl Checking for AtEnd {
    const NEW: Self = AtEnd;
    #[inline]
    fn begin(&mut self) {}
    #[inline]
    fn add(&mut self, _byte: u8) {}
    #[inline]
    fn check(&self, covered: &[u8]) -> u16 {
        frame_check(covered)
    }
}

/// With each byte.
pub struct Kept {
    register: u32,
}

impl Checking for Kept {
    const NEW: Self = Kept {
        register: FRAME_START,
    };
    #[inline]
    fn begin(&mut self) {
        self.register = FRAME_START;
    }
    #[inline]
    fn add(&mut self, byte: u8) {
        self.register = frame_step(self.register, byte);
    }
    #[inline]
    fn check(&self, _covered: &[u8]) -> u16 {
        self.register as u16
    }
}

#[derive(Clone, Copy)]
enum Position {
    FrameSearch,
    SerialRevision,
    ByteCount,
    Data,
    DataEscaped,
    Check,
    FrameEnd,
}

pub struct Receiver<C> {
    position: Position,
    count: usize,
    length: usize,
    stored: [u8; STORED_MAX],
    checking: C,
}

impl<C: Checking> Receiver<C> {
    pub const fn new() -> Self {
        Receiver {
            position: Position::FrameSearch,
            count: 0,
            length: 0,
            stored: [0; STORED_MAX],
            checking: C::NEW,
        }
    }

    /// Feeds one byte. It returns the packet that the byte ended.
    #[inline]
    pub fn step(&mut self, byte: u8) -> Option<&[u8]> {
        match self.position {
            Position::FrameSearch => {
                if byte == FLAG {
                    self.position = Position::SerialRevision;
                }
            }
            Position::SerialRevision => {
                self.length = 0;
                self.count = 0;
                self.checking.begin();
                self.store_covered(byte);
                self.position = match byte {
                    REVISION => Position::ByteCount,
                    FLAG => Position::SerialRevision,
                    _ => Position::FrameSearch,
                };
            }
            Position::ByteCount => {
                if byte == 0 {
                    self.position = Position::FrameSearch;
                } else {
                    self.store_covered(byte);
                    self.count = usize::from(byte);
                    self.position = Position::Data;
                }
            }
            Position::Data => match byte {
                FLAG => self.position = Position::SerialRevision,
                ESCAPE => self.position = Position::DataEscaped,
                _ => self.store_data(byte),
            },
            Position::DataEscaped => match byte {
                FLAG_ESCAPED => self.store_data(FLAG),
                ESCAPE_ESCAPED => self.store_data(ESCAPE),
                _ => self.position = Position::FrameSearch,
            },
            Position::Check => {
                self.store(byte);
                if self.length == self.count + 4 {
                    self.position = Position::FrameEnd;
                }
            }
            Position::FrameEnd => {
                if byte != FLAG {
                    self.position = Position::SerialRevision;
                    return None;
                }
                self.position = Position::FrameSearch;
                if self.agrees() {
                    return Some(&self.stored[PACKET_AT..PACKET_AT + self.count]);
                }
            }
        }
        None
    }

    /// Feeds bytes of the input, at most `allowance` of them, until one ends a packet, which is copied to the output's start.
    pub fn take_at_most(
        &mut self,
        input: &[u8],
        allowance: usize,
        out: &mut [u8],
    ) -> Result<Taken, Error> {
        if out.len() < PACKET_MAX {
            return Err(Error::ShortOutput);
        }
        let offered = input.len().min(allowance);
        for (i, &byte) in input[..offered].iter().enumerate() {
            if let Some(packet) = self.step(byte) {
                out[..packet.len()].copy_from_slice(packet);
                return Ok(Taken {
                    reason: Reason::Packet,
                    taken: i + 1,
                    length: packet.len(),
                });
            }
        }
        let reason = if offered == input.len() {
            Reason::InputEnded
        } else {
            Reason::AllowanceSpent
        };
        Ok(Taken {
            reason,
            taken: offered,
            length: 0,
        })
    }

    #[inline]
    fn store(&mut self, byte: u8) {
        self.stored[self.length] = byte;
        self.length += 1;
    }

    #[inline]
    fn store_covered(&mut self, byte: u8) {
        self.store(byte);
        self.checking.add(byte);
    }

    /// A packet's byte; Check once the count is reached.
    #[inline]
    fn store_data(&mut self, byte: u8) {
        self.store_covered(byte);
        self.position = if self.length == self.count + PACKET_AT {
            Position::Check
        } else {
            Position::Data
        };
    }

    /// Whether the two stored check bytes are the check of what is stored before them.
    #[inline]
    fn agrees(&self) -> bool {
        let (covered, sent) = self.stored[..self.count + 4].split_at(self.count + PACKET_AT);
        self.checking.check(covered).to_be_bytes() == sent
    }
}
