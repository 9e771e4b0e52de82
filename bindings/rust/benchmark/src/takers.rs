//! The serial receivers under one name, so that one loop drives all of them.
use crate::plain::bulk_receiver::BulkReceiver;
use crate::plain::receiver::{AtEnd, Kept, Receiver};
use pulevago::Error;
use pulevago::serial::{PACKET_MAX, Taken};

/// How many bytes of the line a call is given.
pub const PIECE: usize = 4096;

pub trait Taker {
    fn take_at_most(
        &mut self,
        input: &[u8],
        allowance: usize,
        out: &mut [u8],
    ) -> Result<Taken, Error>;
}

/// Each has the function under the same name already.
macro_rules! taker {
    ($($receiver:ty),*) => {$(
        impl Taker for $receiver {
            fn take_at_most(
                &mut self,
                input: &[u8],
                allowance: usize,
                out: &mut [u8],
            ) -> Result<Taken, Error> {
                self.take_at_most(input, allowance, out)
            }
        }
    )*};
}

taker!(
    pulevago::serial::Receiver,
    Receiver<AtEnd>,
    Receiver<Kept>,
    BulkReceiver
);

/// Gives the line to the taker in pieces, and `each` packet with the place on the line behind its last byte.
pub fn take_line(
    taker: &mut impl Taker,
    line: &[u8],
    piece: usize,
    mut each: impl FnMut(usize, &[u8]),
) {
    let mut out = [0; PACKET_MAX];
    for (i, piece_bytes) in line.chunks(piece).enumerate() {
        let mut at = 0;
        loop {
            let taken = taker
                .take_at_most(&piece_bytes[at..], usize::MAX, &mut out)
                .expect("a state of its own, and room for any packet");
            at += taken.taken;
            if taken.length == 0 {
                break;
            }
            each(i * piece + at, &out[..taken.length]);
        }
    }
}
