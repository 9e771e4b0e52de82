//! The four functions of the check values. None refuses.

use pulevago::{checks, ffi};

use crate::document01::{self, DIGITS};
use crate::lent::{filler, Lent, LentNumber, NARROW, SHORT};

fn frame_check(input: &[u8]) -> u16 {
    let mut lent = Lent::of(input);
    let mut check = LentNumber::of(SHORT);
    let number =
        unsafe { ffi::pulevago_frame_check(lent.pointer(), lent.length(), check.pointer()) };
    assert_eq!(number, 0);
    assert_eq!(lent.bytes(), input);
    assert_eq!(checks::frame_check(input), check.value());
    check.value()
}

fn frame_check_from(before: u16, input: &[u8]) -> u16 {
    let mut lent = Lent::of(input);
    let mut check = LentNumber::of(SHORT);
    let number = unsafe {
        ffi::pulevago_frame_check_from(before, lent.pointer(), lent.length(), check.pointer())
    };
    assert_eq!(number, 0);
    assert_eq!(lent.bytes(), input);
    assert_eq!(checks::frame_check_from(before, input), check.value());
    check.value()
}

fn pec(input: &[u8]) -> u8 {
    let mut lent = Lent::of(input);
    let mut check = LentNumber::of(NARROW);
    let number = unsafe { ffi::pulevago_pec(lent.pointer(), lent.length(), check.pointer()) };
    assert_eq!(number, 0);
    assert_eq!(lent.bytes(), input);
    assert_eq!(checks::pec(input), check.value());
    check.value()
}

fn pec_from(before: u8, input: &[u8]) -> u8 {
    let mut lent = Lent::of(input);
    let mut check = LentNumber::of(NARROW);
    let number =
        unsafe { ffi::pulevago_pec_from(before, lent.pointer(), lent.length(), check.pointer()) };
    assert_eq!(number, 0);
    assert_eq!(lent.bytes(), input);
    assert_eq!(checks::pec_from(before, input), check.value());
    check.value()
}

#[test]
fn over_the_digits() {
    assert_eq!(frame_check(DIGITS), 0x6f91);
    assert_eq!(frame_check_from(0xffff, DIGITS), 0x6f91);
    assert_eq!(pec(DIGITS), 0xf4);
    assert_eq!(pec_from(0, DIGITS), 0xf4);
}

#[test]
fn over_nothing_the_register_stays() {
    assert_eq!(frame_check(&[]), 0xffff);
    assert_eq!(pec(&[]), 0);
    for before in [0, 1, 0xff, 0x100, 0x6f91, 0xff00, 0xffff] {
        assert_eq!(frame_check_from(before, &[]), before);
    }
    for before in 0..=255 {
        assert_eq!(pec_from(before, &[]), before);
    }
}

#[test]
fn over_the_digits_in_two_pieces() {
    for cut in 0..=DIGITS.len() {
        let (first, second) = DIGITS.split_at(cut);
        assert_eq!(frame_check_from(frame_check(first), second), 0x6f91);
        assert_eq!(pec_from(pec(first), second), 0xf4);
    }
}

#[test]
fn over_every_byte_from_registers_of_every_width() {
    for byte in 0..=255 {
        for before in [0, 0x00ff, 0xff00, 0x8408, 0xffff] {
            let wanted = document01::frame_check_from(before, &[byte]);
            assert_eq!(frame_check_from(before, &[byte]), wanted);
        }
        for before in [0, 1, 0x80, 0xff] {
            let wanted = document01::pec_from(before, &[byte]);
            assert_eq!(pec_from(before, &[byte]), wanted);
        }
    }
}

#[test]
fn over_a_thousand_bytes() {
    let bytes = filler(1000);
    let wanted = document01::frame_check_from(0xffff, &bytes);
    assert_eq!(frame_check(&bytes), wanted);
    assert_eq!(pec(&bytes), document01::pec_from(0, &bytes));
}
