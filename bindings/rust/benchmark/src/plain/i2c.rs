//! The plain I2C encapsulation (DSP0237), with and without the packet error code.
use super::checks::pec as pec_of;
use pulevago::Error;
use pulevago::i2c::Decoded;

const COMMAND_CODE: u8 = 0x0f;
const HEADER_SIZE: usize = 4;
const PAYLOAD_MAX: usize = 254;

pub fn encode(
    own: u8,
    dest: u8,
    payload: &[u8],
    out: &mut [u8],
    pec: bool,
) -> Result<usize, Error> {
    if own > 127 || dest > 127 {
        return Err(Error::BadAddress);
    }
    if payload.len() > PAYLOAD_MAX {
        return Err(Error::BadArgument);
    }
    let end = HEADER_SIZE + payload.len();
    let length = end + usize::from(pec);
    let frame = out.get_mut(..length).ok_or(Error::BadArgument)?;
    frame[..HEADER_SIZE].copy_from_slice(&[
        dest << 1,
        COMMAND_CODE,
        payload.len() as u8 + 1,
        own << 1 | 1,
    ]);
    frame[HEADER_SIZE..end].copy_from_slice(payload);
    if pec {
        frame[end] = pec_of(&frame[..end]);
    }
    Ok(length)
}

pub fn decode(mut input: &[u8], pec: bool) -> Result<Decoded<'_>, Error> {
    if pec {
        let (&sent, covered) = input.split_last().ok_or(Error::InvalidInput)?;
        if pec_of(covered) != sent {
            return Err(Error::InvalidInput);
        }
        input = covered;
    }
    let (header, payload) = input
        .split_first_chunk::<HEADER_SIZE>()
        .ok_or(Error::InvalidInput)?;
    if usize::from(header[2]) != payload.len() + 1 || header[1] != COMMAND_CODE {
        return Err(Error::InvalidInput);
    }
    Ok(Decoded {
        source: header[3] >> 1,
        payload,
    })
}
