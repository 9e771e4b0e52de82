//! The serial line: the frame writer, and the receiver.

use crate::answers::{done, part, result, unexpected};
use crate::{ffi, Error};

/// The longest frame.
pub const FRAME_MAX: usize = ffi::PULEVAGO_FRAME_MAX;

/// The longest packet that a receiver hands out.
pub const PACKET_MAX: usize = ffi::PULEVAGO_PACKET_MAX;

/// The size of a receiver's state as bytes.
pub const RECEIVER_SIZE: usize = ffi::PULEVAGO_RECEIVER_SIZE;

/// Writes the packet's frame at the output's start and gives its length.
///
/// [`Error::BadLength`]: the packet is under 5 or over 255 bytes. Then [`Error::ShortOutput`]: the output is shorter than the frame,
/// which has at most [`FRAME_MAX`] bytes.
///
/// A sender that wants to be heard after noise sends three flags (7e) before the frame.
///
/// ```
/// use pulevago::serial::{frame_to_serial, FRAME_MAX};
/// use pulevago::Error;
///
/// let packet = [0x01, 0x0a, 0x09, 0xc8, 0x7e];
/// let mut out = [0; FRAME_MAX];
/// let length = frame_to_serial(&packet, &mut out)?;
/// assert_eq!(out[..length], [0x7e, 0x01, 0x05, 0x01, 0x0a, 0x09, 0xc8, 0x7d, 0x5e, 0x2d, 0xba, 0x7e]);
///
/// assert_eq!(frame_to_serial(&packet[..4], &mut out), Err(Error::BadLength));
/// assert_eq!(frame_to_serial(&packet, &mut out[..11]), Err(Error::ShortOutput));
/// # Ok::<(), Error>(())
/// ```
pub fn frame_to_serial(packet: &[u8], out: &mut [u8]) -> Result<usize, Error> {
    let mut written = 0;
    // SAFETY: pointers and lengths are those of two slices, of which `out` is borrowed for us alone; `written` is our own.
    let number = unsafe {
        ffi::pulevago_frame_to_serial(
            packet.as_ptr(),
            packet.len(),
            out.as_mut_ptr(),
            out.len(),
            &mut written,
        )
    };
    result(number, &[Error::BadLength, Error::ShortOutput])?;
    Ok(written)
}

/// A receiver: bytes of the line go in, packets come out. Its state is [`RECEIVER_SIZE`] bytes that can be saved and loaded.
#[derive(Clone, Debug, PartialEq, Eq)]
pub struct Receiver {
    /// A consistent state at all times: fresh, tested by `from_bytes`, or left by a call of the archive.
    state: [u8; RECEIVER_SIZE],
}

impl Receiver {
    /// A fresh receiver, which searches for a frame.
    ///
    /// ```
    /// use pulevago::serial::{Receiver, RECEIVER_SIZE};
    ///
    /// assert_eq!(Receiver::new().as_bytes(), &[0; RECEIVER_SIZE]);
    /// ```
    pub const fn new() -> Receiver {
        Receiver {
            state: [0; RECEIVER_SIZE],
        }
    }

    /// The receiver whose state was saved by [`as_bytes`](Receiver::as_bytes). [`Error::Inconsistent`]: the bytes are no state, or not
    /// [`RECEIVER_SIZE`] many.
    ///
    /// ```
    /// use pulevago::serial::Receiver;
    /// use pulevago::Error;
    ///
    /// let mut receiver = Receiver::new();
    /// receiver.step(0x7e);
    /// let saved = *receiver.as_bytes();
    /// assert_eq!(Receiver::from_bytes(&saved), Ok(receiver));
    /// assert_eq!(Receiver::from_bytes(&saved[1..]), Err(Error::Inconsistent));
    /// assert_eq!(Receiver::from_bytes(&[0xff; 263]), Err(Error::Inconsistent));
    /// ```
    pub fn from_bytes(bytes: &[u8]) -> Result<Receiver, Error> {
        // SAFETY: pointer and length are a slice's, and the call writes nothing.
        let number = unsafe { ffi::pulevago_receiver_consistent(bytes.as_ptr(), bytes.len()) };
        result(number, &[Error::Inconsistent])?;
        match bytes.try_into() {
            Ok(state) => Ok(Receiver { state }),
            Err(_) => unexpected(number),
        }
    }

    /// The state, to be saved.
    ///
    /// ```
    /// use pulevago::serial::Receiver;
    ///
    /// let mut receiver = Receiver::new();
    /// receiver.step(0x7e);
    /// let saved: [u8; 263] = *receiver.as_bytes();
    /// assert_ne!(saved, [0; 263]);
    /// ```
    pub fn as_bytes(&self) -> &[u8; RECEIVER_SIZE] {
        &self.state
    }

    /// Makes it a fresh one again.
    ///
    /// ```
    /// use pulevago::serial::Receiver;
    ///
    /// let mut receiver = Receiver::new();
    /// receiver.step(0x7e);
    /// receiver.reset();
    /// assert_eq!(receiver, Receiver::new());
    /// ```
    pub fn reset(&mut self) {
        // SAFETY: pointer and length are those of our own array, which is borrowed for us alone.
        done(unsafe { ffi::pulevago_receiver_fresh(self.state.as_mut_ptr(), self.state.len()) });
    }

    /// Feeds one byte, and gives the packet that it ended, of 1 to 255 bytes.
    ///
    /// ```
    /// use pulevago::serial::Receiver;
    ///
    /// let mut receiver = Receiver::new();
    /// for byte in [0x7e, 0x01, 0x05, 0x01, 0x0a, 0x09, 0xc8, 0x7d, 0x5e, 0x2d, 0xba] {
    ///     assert_eq!(receiver.step(byte), None);
    /// }
    /// assert_eq!(receiver.step(0x7e), Some(&[0x01, 0x0a, 0x09, 0xc8, 0x7e][..]));
    /// ```
    pub fn step(&mut self, byte: u8) -> Option<&[u8]> {
        let (mut place, mut length) = (0, 0);
        // SAFETY: pointer and length are those of our own array, which is borrowed for us alone; the two numbers are our own.
        done(unsafe {
            ffi::pulevago_receiver_step(
                self.state.as_mut_ptr(),
                self.state.len(),
                byte,
                &mut place,
                &mut length,
            )
        });
        match length {
            0 => None,
            _ => Some(part(&self.state, place, length)),
        }
    }

    /// Feeds bytes of the input until one ends a packet, and gives that packet, copied to the output. `input` moves on behind the
    /// bytes that were fed. None: the input has ended, and all of it was fed.
    ///
    /// ```
    /// use pulevago::serial::{Receiver, PACKET_MAX};
    ///
    /// let line = [0x00, 0x7e, 0x01, 0x05, 0x01, 0x0a, 0x09, 0xc8, 0x7d, 0x5e, 0x2d, 0xba, 0x7e, 0x7e];
    /// let mut input = &line[..];
    /// let mut out = [0; PACKET_MAX];
    /// let mut receiver = Receiver::new();
    /// let mut packets = 0;
    /// while let Some(packet) = receiver.take(&mut input, &mut out) {
    ///     assert_eq!(packet, [0x01, 0x0a, 0x09, 0xc8, 0x7e]);
    ///     packets += 1;
    /// }
    /// assert_eq!(packets, 1);
    /// assert!(input.is_empty());
    /// ```
    pub fn take<'o>(
        &mut self,
        input: &mut &[u8],
        out: &'o mut [u8; PACKET_MAX],
    ) -> Option<&'o [u8]> {
        let whole = *input;
        let took = match self.take_at_most(whole, whole.len(), out) {
            Ok(took) => took,
            Err(error) => unexpected(error.number()),
        };
        *input = part(whole, took.taken, whole.len().saturating_sub(took.taken));
        match took.reason {
            Reason::Packet => Some(part(out, 0, took.length)),
            Reason::InputEnded => None,
            Reason::AllowanceSpent => unexpected(ffi::PULEVAGO_ALLOWANCE_SPENT.into()),
        }
    }

    /// Feeds bytes of the input, at most `allowance` of them, until one ends a packet, the input ends or the allowance is spent. A
    /// packet is copied to the output's start; without one the output is unchanged. Go on with the input from [`Taken::taken`] on.
    ///
    /// [`Error::ShortOutput`]: the output is under [`PACKET_MAX`] bytes; the receiver is unchanged.
    ///
    /// ```
    /// use pulevago::serial::{Reason, Receiver, Taken, PACKET_MAX};
    /// use pulevago::Error;
    ///
    /// let frame = [0x7e, 0x01, 0x05, 0x01, 0x0a, 0x09, 0xc8, 0x7d, 0x5e, 0x2d, 0xba, 0x7e];
    /// let mut out = [0; PACKET_MAX];
    /// let mut receiver = Receiver::new();
    /// let first = receiver.take_at_most(&frame, 10, &mut out)?;
    /// assert_eq!(first, Taken { reason: Reason::AllowanceSpent, taken: 10, length: 0 });
    /// let second = receiver.take_at_most(&frame[10..], 10, &mut out)?;
    /// assert_eq!(second, Taken { reason: Reason::Packet, taken: 2, length: 5 });
    /// assert_eq!(out[..5], [0x01, 0x0a, 0x09, 0xc8, 0x7e]);
    /// assert_eq!(receiver.take_at_most(&frame, 10, &mut out[1..]), Err(Error::ShortOutput));
    /// # Ok::<(), Error>(())
    /// ```
    pub fn take_at_most(
        &mut self,
        input: &[u8],
        allowance: usize,
        out: &mut [u8],
    ) -> Result<Taken, Error> {
        let (mut reason, mut taken, mut length) = (0, 0, 0);
        // SAFETY: pointers and lengths are those of our own array and of two slices; array and `out` are borrowed for us alone, and
        // the three numbers are our own.
        let number = unsafe {
            ffi::pulevago_receiver_take(
                self.state.as_mut_ptr(),
                self.state.len(),
                input.as_ptr(),
                input.len(),
                allowance,
                out.as_mut_ptr(),
                out.len(),
                &mut reason,
                &mut taken,
                &mut length,
            )
        };
        result(number, &[Error::ShortOutput])?;
        Ok(Taken {
            reason: Reason::of(reason),
            taken,
            length,
        })
    }
}

impl Default for Receiver {
    fn default() -> Receiver {
        Receiver::new()
    }
}

/// Why [`Receiver::take_at_most`] stopped; if several hold, the first of these.
#[derive(Clone, Copy, Debug, PartialEq, Eq)]
pub enum Reason {
    /// A byte ended a packet.
    Packet,
    /// All of the input was fed.
    InputEnded,
    /// As many bytes were fed as were allowed.
    AllowanceSpent,
}

impl Reason {
    fn of(number: u8) -> Reason {
        match number {
            ffi::PULEVAGO_TOOK_PACKET => Reason::Packet,
            ffi::PULEVAGO_INPUT_ENDED => Reason::InputEnded,
            ffi::PULEVAGO_ALLOWANCE_SPENT => Reason::AllowanceSpent,
            _ => unexpected(number.into()),
        }
    }
}

/// What [`Receiver::take_at_most`] did.
#[derive(Clone, Copy, Debug, PartialEq, Eq)]
pub struct Taken {
    /// Why it stopped.
    pub reason: Reason,
    /// How many bytes were fed.
    pub taken: usize,
    /// The length of the packet; 0 without one.
    pub length: usize,
}
