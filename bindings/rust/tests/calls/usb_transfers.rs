//! USB transfers: the walk over one, and the builder.

use pulevago::usb::{self, Walker, TRANSFER_MAX};
use pulevago::{ffi, Error};

use crate::document01::usb_packet;
use crate::lent::{filler, filler_with, Lent, LentNumber, NARROW, WIDE};

/// What stands at a place: the packet's place and length or none, and the place after it; or the number that refused.
type Walked = Result<(Option<(usize, usize)>, usize), u32>;

fn walk(transfer: &[u8], start: usize) -> Walked {
    let mut lent = Lent::of(transfer);
    let mut at = LentNumber::of(start);
    let mut found = LentNumber::of(NARROW);
    let mut place = LentNumber::of(WIDE);
    let mut length = LentNumber::of(WIDE);
    let number = unsafe {
        ffi::pulevago_usb_walk(
            lent.pointer(),
            lent.length(),
            at.pointer(),
            found.pointer(),
            place.pointer(),
            length.pointer(),
        )
    };
    assert_eq!(lent.bytes(), transfer);

    let mut walker = Walker::at(transfer, start);
    let safe = walker.next_packet();
    assert_eq!(walker.place(), at.value());

    if number == 0 {
        let (place, length) = (place.value(), length.value());
        let packet = match found.value() {
            0 => {
                assert_eq!(length, 0);
                None
            }
            1 => Some((place, length)),
            other => panic!("found is {other}"),
        };
        let part = packet.map(|(place, length)| &transfer[place..place + length]);
        assert_eq!(safe, Ok(part));
        return Ok((packet, at.value()));
    }
    assert_eq!(safe.map_err(Error::number), Err(number));
    at.assert_unchanged();
    found.assert_unchanged();
    place.assert_unchanged();
    length.assert_unchanged();
    Err(number)
}

/// The used count and the whole output after it, or the number that refused.
fn append(packet: &[u8], room: usize, start: usize) -> Result<(usize, Vec<u8>), u32> {
    let mut lent = Lent::of(packet);
    let mut out = Lent::room(room);
    let mut used = LentNumber::of(start);
    let number = unsafe {
        ffi::pulevago_usb_append(
            lent.pointer(),
            lent.length(),
            out.pointer(),
            out.length(),
            used.pointer(),
        )
    };
    assert_eq!(lent.bytes(), packet);

    let mut safe_out = Lent::room(room);
    let mut safe_used = start;
    let safe = usb::append(packet, safe_out.slice(), &mut safe_used);
    assert_eq!(safe_out.bytes(), out.bytes());
    assert_eq!(safe_used, used.value());

    if number == 0 {
        assert_eq!(safe, Ok(()));
        return Ok((used.value(), out.bytes().to_vec()));
    }
    assert_eq!(safe.map_err(Error::number), Err(number));
    used.assert_unchanged();
    assert_eq!(out.bytes(), filler(room));
    Err(number)
}

/// What append gives where it refuses nothing.
fn done(packet: &[u8], room: usize, start: usize) -> Result<(usize, Vec<u8>), u32> {
    let appended = usb_packet(packet);
    let out = filler_with(room, start, &appended);
    Ok((start + appended.len(), out))
}

#[test]
fn a_transfer_of_three_packets() {
    let transfer = [
        usb_packet(&filler(251)),
        usb_packet(&[]),
        usb_packet(&[7, 8]),
    ]
    .concat();
    assert_eq!(walk(&transfer, 0), Ok((Some((4, 251)), 255)));
    assert_eq!(walk(&transfer, 255), Ok((Some((259, 0)), 259)));
    assert_eq!(walk(&transfer, 259), Ok((Some((263, 2)), 265)));
    assert_eq!(walk(&transfer, 265), Ok((None, 265)));
}

#[test]
fn an_empty_transfer_is_at_its_end() {
    assert_eq!(walk(&[], 0), Ok((None, 0)));
    assert_eq!(walk(&[], 1), Err(7));
}

#[test]
fn places_beyond_the_transfer() {
    let transfer = usb_packet(&[7, 8]);
    for place in [7, 8, 1 << 32, (1 << 32) + 6, 1 << 63, usize::MAX] {
        assert_eq!(walk(&transfer, place), Err(7));
    }
    // inside a packet stands no header
    for place in 1..6 {
        assert_eq!(walk(&transfer, place), Err(7));
    }
}

#[test]
fn a_failure_stays_and_ends_the_iterator() {
    let transfer = [usb_packet(&[7, 8]), vec![0x1a, 0xb4, 0x00, 0x03]].concat();
    let mut walker = Walker::new(&transfer);
    assert_eq!(walker.next(), Some(Ok(&[7, 8][..])));
    assert_eq!(walker.next_packet(), Err(Error::RxFailure));
    assert_eq!(walker.next_packet(), Err(Error::RxFailure));
    assert_eq!(walker.next(), Some(Err(Error::RxFailure)));
    assert_eq!(walker.next(), None);
    assert_eq!(walker.next(), None);
    assert_eq!(walker.next_packet(), Err(Error::RxFailure));
    assert_eq!(walker.place(), 6);
}

#[test]
fn the_end_stays() {
    let transfer = usb_packet(&[7, 8]);
    let mut walker = Walker::new(&transfer);
    assert_eq!(walker.next(), Some(Ok(&[7, 8][..])));
    for _ in 0..3 {
        assert_eq!(walker.next(), None);
        assert_eq!(walker.next_packet(), Ok(None));
    }
}

#[test]
fn packets_of_every_size_are_appended() {
    for size in 0..=251 {
        let packet = filler(size);
        for start in [0, 1, 257] {
            assert_eq!(append(&packet, 600, start), done(&packet, 600, start));
        }
    }
    for size in [252, 253, 256, 600] {
        assert_eq!(append(&filler(size), 600, 0), Err(6));
    }
}

#[test]
fn room_is_left_up_to_512_and_no_further() {
    let packet = filler(251);
    for room in [512, 513, 600] {
        assert_eq!(append(&packet, room, 257), done(&packet, room, 257));
        assert_eq!(append(&packet, room, 258), Err(8));
        assert_eq!(append(&[], room, 508), done(&[], room, 508));
        assert_eq!(append(&[], room, 509), Err(8));
        assert_eq!(append(&[], room, 512), Err(8));
        assert_eq!(append(&[], room, 513), Err(8));
    }
}

#[test]
fn outputs_under_512() {
    assert_eq!(append(&[7], 5, 0), done(&[7], 5, 0));
    assert_eq!(append(&[7], 6, 1), done(&[7], 6, 1));
    for room in 0..5 {
        assert_eq!(append(&[7], room, 0), Err(8));
    }
    assert_eq!(append(&[7], 5, 1), Err(8));
    assert_eq!(append(&[7], 5, 5), Err(8));
    assert_eq!(append(&[7], 5, 6), Err(8));
}

#[test]
fn used_counts_over_32_bits() {
    for start in [1 << 32, (1 << 32) + 5, 1 << 63, usize::MAX - 4, usize::MAX] {
        assert_eq!(append(&[7], 512, start), Err(8));
    }
}

#[test]
fn the_packet_is_tested_first() {
    assert_eq!(append(&filler(252), 0, 0), Err(6));
    assert_eq!(append(&filler(252), 512, usize::MAX), Err(6));
}

#[test]
fn what_was_built_is_walked() {
    let packets = [filler(251), vec![], filler(100), filler(1), filler(140)];
    let mut transfer = [0; TRANSFER_MAX];
    let mut used = 0;
    for packet in &packets {
        usb::append(packet, &mut transfer, &mut used).expect("room");
    }
    assert_eq!(used, TRANSFER_MAX);
    let full = usb::append(&[], &mut transfer, &mut used);
    assert_eq!(full, Err(Error::NoRoom));
    let walked: Result<Vec<&[u8]>, Error> = Walker::new(&transfer).collect();
    assert_eq!(walked.expect("packets"), packets);
}
