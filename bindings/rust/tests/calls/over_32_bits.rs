//! Lengths over 32 bits: cut to their low half, each of these calls would answer otherwise. The memory is asked for and hardly
//! touched, so that it takes room in the address space alone. The four check values are left out: they would read all of it.

use std::alloc::{alloc_zeroed, dealloc, Layout};

use pulevago::serial::{self, Reason, Receiver, Taken, RECEIVER_SIZE};
use pulevago::{i2c, usb, Error};

const LOW_HALF: usize = 1 << 32;
const SIZE: usize = LOW_HALF + 4096;

/// So many zeros, where the system gives them.
struct Large {
    start: *mut u8,
}

impl Large {
    const LAYOUT: Layout = match Layout::from_size_align(SIZE, 1) {
        Ok(layout) => layout,
        Err(_) => panic!("SIZE is a size"),
    };

    fn new() -> Option<Large> {
        // SAFETY: the layout is not empty.
        let start = unsafe { alloc_zeroed(Large::LAYOUT) };
        (!start.is_null()).then_some(Large { start })
    }

    fn bytes(&mut self) -> &mut [u8] {
        // SAFETY: so many bytes were given, they are zeros, and they are borrowed with `self`.
        unsafe { std::slice::from_raw_parts_mut(self.start, SIZE) }
    }
}

impl Drop for Large {
    fn drop(&mut self) {
        // SAFETY: given by `alloc_zeroed` with this layout.
        unsafe { dealloc(self.start, Large::LAYOUT) }
    }
}

#[test]
fn lengths_over_32_bits() {
    let Some(mut large) = Large::new() else {
        eprintln!("left out: the system gives no 4 GiB of address space");
        return;
    };
    let large = large.bytes();
    let five = LOW_HALF + 5;
    let mut out = [0xee; 600];

    assert_eq!(
        serial::frame_to_serial(&large[..five], &mut out),
        Err(Error::BadLength)
    );
    let state = &large[..LOW_HALF + RECEIVER_SIZE];
    assert_eq!(Receiver::from_bytes(state), Err(Error::Inconsistent));
    assert_eq!(
        i2c::encode(0, 0, &large[..five], &mut out, false),
        Err(Error::BadArgument)
    );
    assert_eq!(
        usb::header(5, &mut large[..LOW_HALF + 4]),
        Err(Error::BadPacket)
    );
    let mut used = 0;
    assert_eq!(
        usb::append(&large[..five], &mut out, &mut used),
        Err(Error::BadPacket)
    );
    assert_eq!((out, used), ([0xee; 600], 0));

    // an output so long is long enough, an input so long does not end
    let packet = [0; 5];
    assert_eq!(
        serial::frame_to_serial(&packet, &mut large[..LOW_HALF]),
        Ok(11)
    );
    assert_eq!(
        i2c::encode(0, 0, &packet, &mut large[..LOW_HALF], true),
        Ok(10)
    );
    assert_eq!(
        usb::append(&packet, &mut large[..LOW_HALF], &mut used),
        Ok(())
    );
    let spent = Taken {
        reason: Reason::AllowanceSpent,
        taken: 3,
        length: 0,
    };
    let took = Receiver::new().take_at_most(&large[..LOW_HALF], 3, &mut out);
    assert_eq!(took, Ok(spent));
    let took = Receiver::new().take_at_most(&[0; 4], 3, &mut large[..LOW_HALF]);
    assert_eq!(took, Ok(spent));
}

#[test]
fn frames_and_places_over_32_bits() {
    let Some(mut large) = Large::new() else {
        eprintln!("left out: the system gives no 4 GiB of address space");
        return;
    };
    let large = large.bytes();

    large[..4].copy_from_slice(&[0x3a, 0x0f, 0x01, 0x41]);
    assert_eq!(
        i2c::decode(&large[..LOW_HALF + 4], false),
        Err(Error::InvalidInput)
    );

    large[..4].copy_from_slice(&[0x1a, 0xb4, 0x00, 0x05]);
    let (packet, rest) = usb::decode(large).expect("a packet");
    assert_eq!((packet.len(), rest.len()), (1, SIZE - 5));

    // a header at the start, which a place cut to its low half would find, and another one at 2^32 + 8
    let place = LOW_HALF + 8;
    assert_eq!(
        usb::Walker::at(large, LOW_HALF).next_packet(),
        Err(Error::RxFailure)
    );
    large[place..place + 7].copy_from_slice(&[0x1a, 0xb4, 0x00, 0x07, 1, 2, 3]);
    let mut walker = usb::Walker::at(large, place);
    assert_eq!(walker.next_packet(), Ok(Some(&[1, 2, 3][..])));
    assert_eq!(walker.place(), place + 7);
    assert_eq!(usb::Walker::at(large, SIZE).next_packet(), Ok(None));
}
