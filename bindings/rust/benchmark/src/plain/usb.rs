//! The plain USB binding (DSP0283): header, decode, a walk over a transfer, and append.
use pulevago::Error;
use pulevago::usb::{HEADER_SIZE, TRANSFER_MAX};

const PACKET_MAX: usize = 251;

pub fn header(size: usize, out: &mut [u8]) -> Result<(), Error> {
    if out.len() != HEADER_SIZE || size > PACKET_MAX {
        return Err(Error::BadPacket);
    }
    out.copy_from_slice(&[0x1a, 0xb4, 0, (size + HEADER_SIZE) as u8]);
    Ok(())
}

/// The packet, and what is behind it.
pub fn decode(input: &[u8]) -> Result<(&[u8], &[u8]), Error> {
    let &[0x1a, 0xb4, _, length, ..] = input else {
        return Err(Error::RxFailure);
    };
    let length = usize::from(length);
    if length < HEADER_SIZE || length > input.len() {
        return Err(Error::RxFailure);
    }
    let (framed, remainder) = input.split_at(length);
    Ok((&framed[HEADER_SIZE..], remainder))
}

/// The packets of a transfer, one after the other; after a refusal it ends.
pub struct Walker<'a> {
    rest: &'a [u8],
}

impl<'a> Walker<'a> {
    pub fn new(transfer: &'a [u8]) -> Self {
        Walker { rest: transfer }
    }
}

impl<'a> Iterator for Walker<'a> {
    type Item = Result<&'a [u8], Error>;

    #[inline]
    fn next(&mut self) -> Option<Self::Item> {
        if self.rest.is_empty() {
            return None;
        }
        let decoded = decode(self.rest);
        self.rest = decoded.map_or(&[], |(_, remainder)| remainder);
        Some(decoded.map(|(packet, _)| packet))
    }
}

pub fn append(packet: &[u8], out: &mut [u8], used: &mut usize) -> Result<(), Error> {
    if packet.len() > PACKET_MAX {
        return Err(Error::BadPacket);
    }
    let limit = out.len().min(TRANSFER_MAX);
    let left = out[..limit].get_mut(*used..).ok_or(Error::NoRoom)?;
    let framed = left
        .get_mut(..HEADER_SIZE + packet.len())
        .ok_or(Error::NoRoom)?;
    let (head, body) = framed.split_at_mut(HEADER_SIZE);
    header(packet.len(), head)?;
    body.copy_from_slice(packet);
    *used += HEADER_SIZE + packet.len();
    Ok(())
}
