//! USB: packets behind headers of four bytes, several in a transfer.

use core::iter::FusedIterator;

use crate::answers::{part, result, unexpected};
use crate::{ffi, Error};

/// The largest transfer.
pub const TRANSFER_MAX: usize = ffi::PULEVAGO_USB_TRANSFER_MAX;

/// The size of a header.
pub const HEADER_SIZE: usize = ffi::PULEVAGO_USB_HEADER_SIZE;

/// Writes the header of a packet of `size` bytes.
///
/// [`Error::BadPacket`]: the packet is over 251 bytes, or the lent header has not [`HEADER_SIZE`].
///
/// ```
/// use pulevago::usb::{header, HEADER_SIZE};
/// use pulevago::Error;
///
/// let mut out = [0; HEADER_SIZE];
/// header(251, &mut out)?;
/// assert_eq!(out, [0x1a, 0xb4, 0x00, 0xff]);
/// assert_eq!(header(252, &mut out), Err(Error::BadPacket));
/// # Ok::<(), Error>(())
/// ```
pub fn header(size: usize, out: &mut [u8]) -> Result<(), Error> {
    // SAFETY: pointer and length are those of a slice that is borrowed for us alone.
    let number = unsafe { ffi::pulevago_usb_header(size, out.as_mut_ptr(), out.len()) };
    result(number, &[Error::BadPacket])
}

/// The packet behind the header at the input's start, and what is behind it.
///
/// [`Error::RxFailure`]: the header is cut off, does not begin with 1a b4, or its length byte is under 4 or over the input's length.
///
/// ```
/// use pulevago::usb::decode;
/// use pulevago::Error;
///
/// assert_eq!(decode(&[0x1a, 0xb4, 0x00, 0x04]), Ok((&[][..], &[][..])));
/// assert_eq!(decode(&[0x1a, 0xb4, 0x00, 0x05, 0x77, 0x1a]), Ok((&[0x77][..], &[0x1a][..])));
/// assert_eq!(decode(&[0x1a, 0xb4, 0x00, 0x03]), Err(Error::RxFailure));
/// ```
pub fn decode(input: &[u8]) -> Result<(&[u8], &[u8]), Error> {
    let (mut place, mut length, mut rest_place, mut rest_length) = (0, 0, 0, 0);
    // SAFETY: pointer and length are a slice's, and the four numbers are our own.
    let number = unsafe {
        ffi::pulevago_usb_decode(
            input.as_ptr(),
            input.len(),
            &mut place,
            &mut length,
            &mut rest_place,
            &mut rest_length,
        )
    };
    result(number, &[Error::RxFailure])?;
    Ok((
        part(input, place, length),
        part(input, rest_place, rest_length),
    ))
}

/// A walk over the packets of a transfer.
///
/// As an iterator it yields each packet, at a failure one error, and then nothing more.
///
/// ```
/// use pulevago::usb::Walker;
/// use pulevago::Error;
///
/// let transfer = [0x1a, 0xb4, 0x00, 0x05, 0x77, 0x1a, 0xb4, 0x00, 0x04, 0x1a, 0xb4, 0x00, 0x03];
/// let packets: Vec<_> = Walker::new(&transfer).collect();
/// assert_eq!(packets, [Ok(&[0x77][..]), Ok(&[][..]), Err(Error::RxFailure)]);
/// ```
#[derive(Clone, Debug, PartialEq, Eq)]
pub struct Walker<'a> {
    transfer: &'a [u8],
    place: usize,
    /// The iterator has yielded its error.
    failed: bool,
}

impl<'a> Walker<'a> {
    /// A walk from the transfer's start.
    ///
    /// ```
    /// use pulevago::usb::Walker;
    ///
    /// assert_eq!(Walker::new(&[]).next_packet(), Ok(None));
    /// ```
    pub const fn new(transfer: &'a [u8]) -> Walker<'a> {
        Walker::at(transfer, 0)
    }

    /// A walk from a place on. What stands there is read as a header; a place beyond the transfer fails.
    ///
    /// ```
    /// use pulevago::usb::Walker;
    /// use pulevago::Error;
    ///
    /// let transfer = [0x1a, 0xb4, 0x00, 0x05, 0x77, 0x1a, 0xb4, 0x00, 0x04];
    /// assert_eq!(Walker::at(&transfer, 5).next_packet(), Ok(Some(&[][..])));
    /// assert_eq!(Walker::at(&transfer, 9).next_packet(), Ok(None));
    /// assert_eq!(Walker::at(&transfer, 10).next_packet(), Err(Error::RxFailure));
    /// ```
    pub const fn at(transfer: &'a [u8], place: usize) -> Walker<'a> {
        Walker {
            transfer,
            place,
            failed: false,
        }
    }

    /// Where in the transfer it stands: behind the last packet that it gave.
    ///
    /// ```
    /// use pulevago::usb::Walker;
    ///
    /// let mut walker = Walker::new(&[0x1a, 0xb4, 0x00, 0x05, 0x77]);
    /// assert_eq!(walker.place(), 0);
    /// walker.next_packet()?;
    /// assert_eq!(walker.place(), 5);
    /// # Ok::<(), pulevago::Error>(())
    /// ```
    pub const fn place(&self) -> usize {
        self.place
    }

    /// The next packet, or none at the transfer's end.
    ///
    /// [`Error::RxFailure`]: no packet stands there, or the place is beyond the transfer; the place stays, so each later call says the
    /// same.
    ///
    /// ```
    /// use pulevago::usb::Walker;
    /// use pulevago::Error;
    ///
    /// let mut walker = Walker::new(&[0x1a, 0xb4, 0x00, 0x05, 0x77, 0x1a]);
    /// assert_eq!(walker.next_packet(), Ok(Some(&[0x77][..])));
    /// assert_eq!(walker.next_packet(), Err(Error::RxFailure));
    /// assert_eq!(walker.next_packet(), Err(Error::RxFailure));
    /// ```
    pub fn next_packet(&mut self) -> Result<Option<&'a [u8]>, Error> {
        let (mut found, mut place, mut length) = (0, 0, 0);
        // SAFETY: pointer and length are a slice's; the walker's place is borrowed for us alone, and the other three numbers are our
        // own.
        let number = unsafe {
            ffi::pulevago_usb_walk(
                self.transfer.as_ptr(),
                self.transfer.len(),
                &mut self.place,
                &mut found,
                &mut place,
                &mut length,
            )
        };
        result(number, &[Error::RxFailure])?;
        match found {
            0 => Ok(None),
            1 => Ok(Some(part(self.transfer, place, length))),
            _ => unexpected(found.into()),
        }
    }
}

impl<'a> Iterator for Walker<'a> {
    type Item = Result<&'a [u8], Error>;

    fn next(&mut self) -> Option<Self::Item> {
        if self.failed {
            return None;
        }
        let packet = self.next_packet();
        self.failed = packet.is_err();
        packet.transpose()
    }
}

impl FusedIterator for Walker<'_> {}

/// Appends the packet behind its header to the `used` bytes of a transfer in the output, and adds them to `used`.
///
/// [`Error::BadPacket`]: the packet is over 251 bytes. Then [`Error::NoRoom`]: `used` is over the output's length or over
/// [`TRANSFER_MAX`], or fewer bytes are left below the smaller of the two than header and packet have.
///
/// ```
/// use pulevago::usb::{append, TRANSFER_MAX};
/// use pulevago::Error;
///
/// let mut transfer = [0; TRANSFER_MAX];
/// let mut used = 0;
/// append(&[0x77], &mut transfer, &mut used)?;
/// append(&[], &mut transfer, &mut used)?;
/// assert_eq!(transfer[..used], [0x1a, 0xb4, 0x00, 0x05, 0x77, 0x1a, 0xb4, 0x00, 0x04]);
///
/// assert_eq!(append(&[0; 252], &mut transfer, &mut used), Err(Error::BadPacket));
/// assert_eq!(append(&[0x77], &mut transfer[..13], &mut used), Err(Error::NoRoom));
/// assert_eq!(used, 9);
/// # Ok::<(), Error>(())
/// ```
pub fn append(packet: &[u8], out: &mut [u8], used: &mut usize) -> Result<(), Error> {
    // SAFETY: pointers and lengths are those of two slices; `out` and `used` are borrowed for us alone, each for itself.
    let number = unsafe {
        ffi::pulevago_usb_append(
            packet.as_ptr(),
            packet.len(),
            out.as_mut_ptr(),
            out.len(),
            used,
        )
    };
    result(number, &[Error::BadPacket, Error::NoRoom])
}
