//! Memory to lend: bytes and single numbers with neighbours that no call may touch, filled so that every write shows.

use pulevago::Error;

/// How many bytes stand guard on each side, and what they hold.
const GUARD: usize = 64;
const GUARD_BYTE: u8 = 0xc5;

/// What a lent number holds before a call: a value that no call answers, with no half or byte of zeros.
pub const WIDE: usize = 0xdead_beef_0bad_cafe;
pub const SHORT: u16 = 0xa5b6;
pub const NARROW: u8 = 0xd7;

/// Bytes of no meaning, each different from its neighbours.
pub fn filler(length: usize) -> Vec<u8> {
    (0..length).map(|i| (160 + i % 256) as u8).collect()
}

/// An output of `room` bytes of filler, with `bytes` written at `place`.
pub fn filler_with(room: usize, place: usize, bytes: &[u8]) -> Vec<u8> {
    let mut whole = filler(room);
    whole[place..place + bytes.len()].copy_from_slice(bytes);
    whole
}

/// Bytes with guards on both sides.
pub struct Lent {
    whole: Vec<u8>,
}

impl Lent {
    pub fn of(bytes: &[u8]) -> Lent {
        let guard = [GUARD_BYTE; GUARD];
        Lent {
            whole: [&guard[..], bytes, &guard[..]].concat(),
        }
    }

    /// An output of this many bytes of filler.
    pub fn room(length: usize) -> Lent {
        Lent::of(&filler(length))
    }

    /// It may be written through, guards too, so that a call that does so is seen and not undefined.
    pub fn pointer(&mut self) -> *mut u8 {
        self.whole.as_mut_ptr().wrapping_add(GUARD)
    }

    pub fn length(&self) -> usize {
        self.whole.len() - 2 * GUARD
    }

    pub fn slice(&mut self) -> &mut [u8] {
        let length = self.length();
        &mut self.whole[GUARD..GUARD + length]
    }

    /// The bytes after a call, once the guards are seen unchanged.
    pub fn bytes(&self) -> &[u8] {
        let (before, rest) = self.whole.split_at(GUARD);
        let (bytes, behind) = rest.split_at(self.length());
        assert_eq!(before, [GUARD_BYTE; GUARD], "written before the lent bytes");
        assert_eq!(behind, [GUARD_BYTE; GUARD], "written behind the lent bytes");
        bytes
    }
}

/// A number between two neighbours of the same width.
pub struct LentNumber<T> {
    three: [T; 3],
    before: T,
}

impl<T: Copy + PartialEq + std::fmt::Debug> LentNumber<T> {
    pub fn of(value: T) -> LentNumber<T> {
        LentNumber {
            three: [value; 3],
            before: value,
        }
    }

    /// It may be written through, neighbours too, so that a call that does so is seen and not undefined.
    pub fn pointer(&mut self) -> *mut T {
        self.three.as_mut_ptr().wrapping_add(1)
    }

    /// The number after a call, once its neighbours are seen unchanged.
    pub fn value(&self) -> T {
        assert_eq!(self.three[0], self.before, "written before a lent number");
        assert_eq!(self.three[2], self.before, "written behind a lent number");
        self.three[1]
    }

    pub fn assert_unchanged(&self) {
        assert_eq!(self.value(), self.before, "a refusal wrote a lent number");
    }
}

/// What a writer's call gave, and the safe wrapper the same: the length and the whole output after it, or the number that refused,
/// with nothing written.
pub fn written_or_refused(
    number: u32,
    written: &LentNumber<usize>,
    out: &Lent,
    safe: Result<usize, Error>,
    safe_out: &Lent,
) -> Result<(usize, Vec<u8>), u32> {
    assert_eq!(safe_out.bytes(), out.bytes());
    if number == 0 {
        assert_eq!(safe, Ok(written.value()));
        return Ok((written.value(), out.bytes().to_vec()));
    }
    assert_eq!(safe.map_err(Error::number), Err(number));
    written.assert_unchanged();
    assert_eq!(out.bytes(), filler(out.length()));
    Err(number)
}
