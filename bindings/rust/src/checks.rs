//! The two check values: the frame check of the serial line, and the packet error code (PEC) of SMBus.

use crate::answers::done;
use crate::ffi;

/// The frame check of DSP0253 over the input. On the line its high byte is sent first.
///
/// ```
/// assert_eq!(pulevago::checks::frame_check(b"123456789"), 0x6f91);
/// ```
pub fn frame_check(input: &[u8]) -> u16 {
    let mut check = 0;
    // SAFETY: pointer and length are a slice's, and `check` is a number of our own that nothing else refers to.
    done(unsafe { ffi::pulevago_frame_check(input.as_ptr(), input.len(), &mut check) });
    check
}

/// The same, going on from the check of what came before; 0xffff where nothing did.
///
/// ```
/// use pulevago::checks::frame_check_from;
///
/// let before = frame_check_from(0xffff, b"1234");
/// assert_eq!(frame_check_from(before, b"56789"), 0x6f91);
/// ```
pub fn frame_check_from(before: u16, input: &[u8]) -> u16 {
    let mut check = 0;
    // SAFETY: pointer and length are a slice's, and `check` is a number of our own that nothing else refers to.
    done(unsafe {
        ffi::pulevago_frame_check_from(before, input.as_ptr(), input.len(), &mut check)
    });
    check
}

/// The packet error code of SMBus over the input.
///
/// ```
/// assert_eq!(pulevago::checks::pec(b"123456789"), 0xf4);
/// ```
pub fn pec(input: &[u8]) -> u8 {
    let mut check = 0;
    // SAFETY: pointer and length are a slice's, and `check` is a number of our own that nothing else refers to.
    done(unsafe { ffi::pulevago_pec(input.as_ptr(), input.len(), &mut check) });
    check
}

/// The same, going on from the code of what came before; 0 where nothing did.
///
/// ```
/// use pulevago::checks::pec_from;
///
/// let before = pec_from(0, b"1234");
/// assert_eq!(pec_from(before, b"56789"), 0xf4);
/// ```
pub fn pec_from(before: u8, input: &[u8]) -> u8 {
    let mut check = 0;
    // SAFETY: pointer and length are a slice's, and `check` is a number of our own that nothing else refers to.
    done(unsafe { ffi::pulevago_pec_from(before, input.as_ptr(), input.len(), &mut check) });
    check
}
