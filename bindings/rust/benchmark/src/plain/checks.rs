//! Frame check and packet error code, a byte at a time by a table of 256 entries.

static FRAME_TABLE: [u16; 256] = frame_table();
static PEC_TABLE: [u8; 256] = pec_table();

/// The register before any byte. It is held in 32 bits, which the processor handles better than 16.
pub const FRAME_START: u32 = 0xffff;

pub fn frame_check(bytes: &[u8]) -> u16 {
    frame_register(FRAME_START, bytes) as u16
}

/// The register after the bytes.
pub fn frame_register(register: u32, bytes: &[u8]) -> u32 {
    bytes
        .iter()
        .fold(register, |register, &byte| frame_step(register, byte))
}

/// The register after one byte more.
#[inline]
pub fn frame_step(register: u32, byte: u8) -> u32 {
    (register >> 8) ^ u32::from(FRAME_TABLE[usize::from(register as u8 ^ byte)])
}

pub fn pec(bytes: &[u8]) -> u8 {
    bytes
        .iter()
        .fold(0, |register, &byte| PEC_TABLE[usize::from(register ^ byte)])
}

/// Entry i is eight bit steps of i, low bit first.
pub const fn frame_table() -> [u16; 256] {
    let mut table = [0; 256];
    let mut i = 0;
    while i < 256 {
        let mut register = i as u16;
        let mut bit = 0;
        while bit < 8 {
            register = if register & 1 == 1 {
                register >> 1 ^ 0x8408
            } else {
                register >> 1
            };
            bit += 1;
        }
        table[i] = register;
        i += 1;
    }
    table
}

/// Entry i is eight bit steps of i, high bit first.
const fn pec_table() -> [u8; 256] {
    let mut table = [0; 256];
    let mut i = 0;
    while i < 256 {
        let mut register = i as u8;
        let mut bit = 0;
        while bit < 8 {
            register = if register & 0x80 != 0 {
                register << 1 ^ 0x07
            } else {
                register << 1
            };
            bit += 1;
        }
        table[i] = register;
        i += 1;
    }
    table
}
