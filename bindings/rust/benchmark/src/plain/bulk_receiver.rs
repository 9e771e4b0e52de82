//! The bulk serial receiver, the limit of what one can ask for: it looks for flags and escapes eight bytes at a time, copies runs
//! of packet bytes, and computes the check eight bytes at a time.
use super::checks::{FRAME_START, frame_register, frame_table};
use super::wire::{ESCAPE, ESCAPE_ESCAPED, FLAG, FLAG_ESCAPED, PACKET_AT, REVISION, STORED_MAX};
use pulevago::Error;
use pulevago::serial::{PACKET_MAX, Reason, Taken};

#[derive(Clone, Copy)]
enum Position {
    FrameSearch,
    SerialRevision,
    ByteCount,
    Data,
    DataEscaped,
    Check,
    FrameEnd,
}

pub struct BulkReceiver {
    position: Position,
    count: usize,
    length: usize,
    stored: [u8; STORED_MAX],
}

impl BulkReceiver {
    pub const fn new() -> Self {
        BulkReceiver {
            position: Position::FrameSearch,
            count: 0,
            length: 0,
            stored: [0; STORED_MAX],
        }
    }

    /// Feeds bytes of the input, at most `allowance` of them, until one ends a packet, which is copied to the output's start.
    pub fn take_at_most(
        &mut self,
        input: &[u8],
        allowance: usize,
        out: &mut [u8],
    ) -> Result<Taken, Error> {
        if out.len() < PACKET_MAX {
            return Err(Error::ShortOutput);
        }
        let offered = &input[..input.len().min(allowance)];
        let mut taken = 0;
        while taken < offered.len() {
            let rest = &offered[taken..];
            let byte = rest[0];
            taken += 1;
            match self.position {
                Position::FrameSearch => match find(rest, |word| equal_bytes(word, FLAG)) {
                    Some(place) => {
                        taken += place;
                        self.position = Position::SerialRevision;
                    }
                    None => taken = offered.len(),
                },
                Position::SerialRevision => {
                    self.stored[0] = byte;
                    self.length = 1;
                    self.count = 0;
                    self.position = match byte {
                        REVISION => Position::ByteCount,
                        FLAG => Position::SerialRevision,
                        _ => Position::FrameSearch,
                    };
                }
                Position::ByteCount => {
                    if byte == 0 {
                        self.position = Position::FrameSearch;
                    } else {
                        self.store(&[byte]);
                        self.count = usize::from(byte);
                        self.position = Position::Data;
                    }
                }
                Position::Data => match byte {
                    FLAG => self.position = Position::SerialRevision,
                    ESCAPE => self.position = Position::DataEscaped,
                    _ => {
                        let wanted = &rest[..rest.len().min(self.count + PACKET_AT - self.length)];
                        let run = find(wanted, |word| {
                            equal_bytes(word, FLAG) | equal_bytes(word, ESCAPE)
                        })
                        .unwrap_or(wanted.len());
                        self.store_data(&wanted[..run]);
                        taken += run - 1;
                    }
                },
                Position::DataEscaped => match byte {
                    FLAG_ESCAPED => self.store_data(&[FLAG]),
                    ESCAPE_ESCAPED => self.store_data(&[ESCAPE]),
                    _ => self.position = Position::FrameSearch,
                },
                Position::Check => {
                    self.store(&[byte]);
                    if self.length == self.count + 4 {
                        self.position = Position::FrameEnd;
                    }
                }
                Position::FrameEnd => {
                    if byte != FLAG {
                        self.position = Position::SerialRevision;
                        continue;
                    }
                    self.position = Position::FrameSearch;
                    if self.agrees() {
                        let packet = &self.stored[PACKET_AT..PACKET_AT + self.count];
                        out[..packet.len()].copy_from_slice(packet);
                        return Ok(Taken {
                            reason: Reason::Packet,
                            taken,
                            length: packet.len(),
                        });
                    }
                }
            }
        }
        let reason = if taken == input.len() {
            Reason::InputEnded
        } else {
            Reason::AllowanceSpent
        };
        Ok(Taken {
            reason,
            taken,
            length: 0,
        })
    }

    #[inline]
    fn store(&mut self, bytes: &[u8]) {
        self.stored[self.length..self.length + bytes.len()].copy_from_slice(bytes);
        self.length += bytes.len();
    }

    /// Bytes of the packet; Check once the count is reached.
    #[inline]
    fn store_data(&mut self, bytes: &[u8]) {
        self.store(bytes);
        self.position = if self.length == self.count + PACKET_AT {
            Position::Check
        } else {
            Position::Data
        };
    }

    /// Whether the two stored check bytes are the check of what is stored before them.
    fn agrees(&self) -> bool {
        let (covered, sent) = self.stored[..self.count + 4].split_at(self.count + PACKET_AT);
        frame_check_by_eight(covered).to_be_bytes() == sent
    }
}

/// The place of the first byte that the test marks with its high bit, eight bytes at a time; what the test marks behind that one
/// does not count.
#[inline]
fn find(bytes: &[u8], marks: impl Fn(u64) -> u64) -> Option<usize> {
    let (words, last) = bytes.as_chunks::<8>();
    for (i, word) in words.iter().enumerate() {
        let marked = marks(u64::from_le_bytes(*word));
        if marked != 0 {
            return Some(i * 8 + marked.trailing_zeros() as usize / 8);
        }
    }
    let behind = words.len() * 8;
    last.iter()
        .position(|&byte| marks(u64::from(byte)) & 0x80 != 0)
        .map(|place| behind + place)
}

/// The high bit of the first byte that is equal; a byte behind it may be marked though it is not.
#[inline]
fn equal_bytes(word: u64, byte: u8) -> u64 {
    const ONES: u64 = 0x0101_0101_0101_0101;
    let zero_where_equal = word ^ (ONES * u64::from(byte));
    zero_where_equal.wrapping_sub(ONES) & !zero_where_equal & (ONES << 7)
}

/// Table k is what a byte does to the register when k bytes follow it.
static TABLES: [[u16; 256]; 8] = tables();

const fn tables() -> [[u16; 256]; 8] {
    let mut tables = [frame_table(); 8];
    let mut k = 1;
    while k < 8 {
        let mut i = 0;
        while i < 256 {
            let before = tables[k - 1][i];
            tables[k][i] = (before >> 8) ^ tables[0][(before & 0xff) as usize];
            i += 1;
        }
        k += 1;
    }
    tables
}

/// The frame check, eight bytes at a time.
fn frame_check_by_eight(bytes: &[u8]) -> u16 {
    let (words, last) = bytes.as_chunks::<8>();
    let register = words.iter().fold(FRAME_START, |register, word| {
        let [low, high, ..] = register.to_le_bytes();
        let [a, b, rest @ ..] = *word;
        let first = TABLES[7][usize::from(a ^ low)] ^ TABLES[6][usize::from(b ^ high)];
        let all = rest
            .iter()
            .zip((0..6).rev())
            .fold(first, |sum, (&byte, k)| sum ^ TABLES[k][usize::from(byte)]);
        u32::from(all)
    });
    frame_register(register, last) as u16
}
