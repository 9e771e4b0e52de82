//! I2C: frames written and read, with or without a packet error code (PEC). Addresses are the 7 bits, 0 to 127, not shifted.

use crate::answers::{part, result};
use crate::{ffi, Error};

/// The longest frame, with its packet error code.
pub const FRAME_MAX: usize = ffi::PULEVAGO_I2C_FRAME_MAX;

/// Writes the payload's frame, from our own address to a destination, at the output's start and gives its length: 4 bytes more than
/// the payload, 5 with a packet error code.
///
/// [`Error::BadAddress`]: an address is over 127. Then [`Error::BadArgument`]: the payload is over 254 bytes, or the output shorter
/// than the frame.
///
/// ```
/// use pulevago::i2c::{encode, FRAME_MAX};
/// use pulevago::Error;
///
/// let payload = [0x01, 0x0a, 0x09, 0xc8, 0x7e];
/// let mut out = [0; FRAME_MAX];
/// let length = encode(0x20, 0x1d, &payload, &mut out, false)?;
/// assert_eq!(out[..length], [0x3a, 0x0f, 0x06, 0x41, 0x01, 0x0a, 0x09, 0xc8, 0x7e]);
///
/// assert_eq!(encode(0x80, 0x1d, &payload, &mut out, false), Err(Error::BadAddress));
/// assert_eq!(encode(0x20, 0x1d, &[0; 255], &mut out, false), Err(Error::BadArgument));
/// # Ok::<(), Error>(())
/// ```
pub fn encode(
    own: u8,
    dest: u8,
    payload: &[u8],
    out: &mut [u8],
    pec: bool,
) -> Result<usize, Error> {
    let mut written = 0;
    // SAFETY: pointers and lengths are those of two slices, of which `out` is borrowed for us alone; `written` is our own.
    let number = unsafe {
        ffi::pulevago_i2c_encode(
            own,
            dest,
            payload.as_ptr(),
            payload.len(),
            out.as_mut_ptr(),
            out.len(),
            pec,
            &mut written,
        )
    };
    result(number, &[Error::BadAddress, Error::BadArgument])?;
    Ok(written)
}

/// The source address and the payload of a frame. With `pec` its last byte is the packet error code.
///
/// [`Error::InvalidInput`]: the code is wrong, the header is cut off, its byte count is not that of the input, or its command code is
/// not 0f. The destination is not looked at: whether a frame is for you is for you to ask, by its first byte.
///
/// ```
/// use pulevago::i2c::{decode, Decoded};
/// use pulevago::Error;
///
/// assert_eq!(decode(&[0x3a, 0x0f, 0x01, 0x41], false), Ok(Decoded { source: 0x20, payload: &[] }));
/// assert_eq!(decode(&[0x3a, 0x0f, 0x02, 0x41], false), Err(Error::InvalidInput));
/// ```
pub fn decode(input: &[u8], pec: bool) -> Result<Decoded<'_>, Error> {
    let (mut source, mut place, mut length) = (0, 0, 0);
    // SAFETY: pointer and length are a slice's, and the three numbers are our own.
    let number = unsafe {
        ffi::pulevago_i2c_decode(
            input.as_ptr(),
            input.len(),
            pec,
            &mut source,
            &mut place,
            &mut length,
        )
    };
    result(number, &[Error::InvalidInput])?;
    Ok(Decoded {
        source,
        payload: part(input, place, length),
    })
}

/// What a frame says.
#[derive(Clone, Copy, Debug, PartialEq, Eq)]
pub struct Decoded<'a> {
    /// The sender's address.
    pub source: u8,
    /// The payload, a part of the input.
    pub payload: &'a [u8],
}
