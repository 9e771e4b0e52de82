//! The bytes that DSP0253 gives a meaning on the serial line, and the sizes of a frame.
pub const FLAG: u8 = 0x7e;
pub const ESCAPE: u8 = 0x7d;
pub const FLAG_ESCAPED: u8 = 0x5e;
pub const ESCAPE_ESCAPED: u8 = 0x5d;
pub const REVISION: u8 = 0x01;

/// Revision, count, the longest packet and two check bytes.
pub const STORED_MAX: usize = 259;
/// What stands before the packet in the stored bytes: revision and count.
pub const PACKET_AT: usize = 2;
