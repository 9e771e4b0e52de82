//! The numbers that refuse.

use core::fmt;

use crate::ffi;

/// Why a call refused. Its number is the one of the header `pulevago.h`.
#[derive(Clone, Copy, Debug, PartialEq, Eq, Hash)]
#[repr(u32)]
pub enum Error {
    /// A serial packet to send is under 5 or over 255 bytes.
    BadLength = ffi::PULEVAGO_BAD_LENGTH,
    /// The output is shorter than the frame; for a receiver's `take_at_most`, shorter than 255 bytes.
    ShortOutput = ffi::PULEVAGO_SHORT_OUTPUT,
    /// An I2C payload is over 254 bytes, or the output shorter than the frame.
    BadArgument = ffi::PULEVAGO_BAD_ARGUMENT,
    /// An I2C address, our own or the destination's, is over 127.
    BadAddress = ffi::PULEVAGO_BAD_ADDRESS,
    /// The input is no I2C frame.
    InvalidInput = ffi::PULEVAGO_INVALID_INPUT,
    /// A USB packet is over 251 bytes, or a lent header has not 4.
    BadPacket = ffi::PULEVAGO_BAD_PACKET,
    /// No USB packet stands there, or the place is beyond the transfer.
    RxFailure = ffi::PULEVAGO_RX_FAILURE,
    /// A USB transfer has no room for header and packet.
    NoRoom = ffi::PULEVAGO_NO_ROOM,
    /// The bytes given as a receiver's state are none.
    Inconsistent = ffi::PULEVAGO_INCONSISTENT,
}

const ALL: [Error; 9] = [
    Error::BadLength,
    Error::ShortOutput,
    Error::BadArgument,
    Error::BadAddress,
    Error::InvalidInput,
    Error::BadPacket,
    Error::RxFailure,
    Error::NoRoom,
    Error::Inconsistent,
];

impl Error {
    /// Its number, from 1 to 9.
    ///
    /// ```
    /// assert_eq!(pulevago::Error::BadLength.number(), 1);
    /// assert_eq!(pulevago::Error::Inconsistent.number(), 9);
    /// ```
    pub fn number(self) -> u32 {
        self as u32
    }

    /// The error with this number; none for 0, which is done, and for what is no number of the header.
    ///
    /// ```
    /// use pulevago::Error;
    ///
    /// assert_eq!(Error::from_number(5), Some(Error::InvalidInput));
    /// assert_eq!(Error::from_number(0), None);
    /// assert_eq!(Error::from_number(10), None);
    /// ```
    pub fn from_number(n: u32) -> Option<Error> {
        ALL.into_iter().find(|error| error.number() == n)
    }
}

impl fmt::Display for Error {
    fn fmt(&self, f: &mut fmt::Formatter<'_>) -> fmt::Result {
        f.write_str(match self {
            Error::BadLength => "serial packet under 5 or over 255 bytes",
            Error::ShortOutput => "output shorter than the frame or the longest packet",
            Error::BadArgument => "I2C payload over 254 bytes, or output shorter than the frame",
            Error::BadAddress => "I2C address over 127",
            Error::InvalidInput => "no I2C frame",
            Error::BadPacket => "USB packet over 251 bytes, or header not 4 bytes",
            Error::RxFailure => "no USB packet there",
            Error::NoRoom => "no room in the USB transfer for header and packet",
            Error::Inconsistent => "bytes that are no receiver's state",
        })
    }
}

impl core::error::Error for Error {}
