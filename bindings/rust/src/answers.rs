//! What an answer of the archive becomes in Rust: a result, a part of an input, or, where the contract excludes it, a panic.

use crate::{ffi, Error};

/// The answer of a call that refuses with these errors only.
pub(crate) fn result(number: u32, refusals: &[Error]) -> Result<(), Error> {
    if number == ffi::PULEVAGO_DONE {
        return Ok(());
    }
    match Error::from_number(number) {
        Some(error) if refusals.contains(&error) => Err(error),
        _ => unexpected(number),
    }
}

/// The answer of a call that does not refuse.
pub(crate) fn done(number: u32) {
    if number != ffi::PULEVAGO_DONE {
        unexpected(number)
    }
}

/// A number that the called function's contract excludes: archive and crate don't belong together.
pub(crate) fn unexpected(number: u32) -> ! {
    panic!("pulevago: the archive answered {number}, which its contract excludes")
}

/// The part of the input that has this place and length. It panics where that is not inside the input, which contracts exclude.
pub(crate) fn part(input: &[u8], place: usize, length: usize) -> &[u8] {
    let inside = place
        .checked_add(length)
        .and_then(|end| input.get(place..end));
    match inside {
        Some(part) => part,
        None => panic!(
            "pulevago: the archive answered a part of {length} bytes at {place}, and there are {} bytes",
            input.len()
        ),
    }
}

#[cfg(test)]
mod tests {
    use super::*;

    #[test]
    fn numbers_of_the_contract_are_results() {
        let refusals = [Error::BadLength, Error::ShortOutput];
        assert_eq!(result(0, &refusals), Ok(()));
        assert_eq!(result(1, &refusals), Err(Error::BadLength));
        assert_eq!(result(2, &refusals), Err(Error::ShortOutput));
        done(0);
    }

    #[test]
    #[should_panic(expected = "answered 3, which its contract excludes")]
    fn an_error_that_the_contract_excludes() {
        let _ = result(3, &[Error::BadLength, Error::ShortOutput]);
    }

    #[test]
    #[should_panic(expected = "answered 10, which its contract excludes")]
    fn a_number_of_no_error() {
        let _ = result(10, &[Error::BadLength]);
    }

    #[test]
    #[should_panic(expected = "answered 9, which its contract excludes")]
    fn a_refusal_of_a_call_that_does_not_refuse() {
        done(9);
    }

    #[test]
    fn parts_inside() {
        assert_eq!(part(&[1, 2, 3], 1, 2), [2, 3]);
        assert_eq!(part(&[1, 2, 3], 3, 0), []);
        assert_eq!(part(&[], 0, 0), []);
    }

    #[test]
    #[should_panic(expected = "a part of 3 bytes at 1, and there are 3 bytes")]
    fn a_part_that_ends_outside() {
        part(&[1, 2, 3], 1, 3);
    }

    #[test]
    #[should_panic(expected = "a part of 0 bytes at 4")]
    fn a_part_that_begins_outside() {
        part(&[1, 2, 3], 4, 0);
    }

    #[test]
    #[should_panic(expected = "at 18446744073709551615")]
    fn a_part_whose_end_is_no_number() {
        part(&[1, 2, 3], usize::MAX, 2);
    }
}
