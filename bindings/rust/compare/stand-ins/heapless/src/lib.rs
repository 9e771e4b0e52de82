//! A stand-in for the crate heapless: of it, the vector of a fixed capacity that `serial.rs` stores a frame in.

use std::fmt;
use std::ops::Deref;

/// At most `N` values.
pub struct Vec<T, const N: usize> {
    values: [T; N],
    length: usize,
}

impl<T: Copy + Default, const N: usize> Vec<T, N> {
    pub fn new() -> Self {
        Vec {
            values: [T::default(); N],
            length: 0,
        }
    }

    /// Appends a value, or hands it back where there is no room.
    pub fn push(&mut self, value: T) -> Result<(), T> {
        if self.length == N {
            return Err(value);
        }
        self.values[self.length] = value;
        self.length += 1;
        Ok(())
    }

    pub fn clear(&mut self) {
        self.length = 0;
    }
}

impl<T, const N: usize> Deref for Vec<T, N> {
    type Target = [T];

    fn deref(&self) -> &[T] {
        &self.values[..self.length]
    }
}

impl<T: fmt::Debug, const N: usize> fmt::Debug for Vec<T, N> {
    fn fmt(&self, f: &mut fmt::Formatter<'_>) -> fmt::Result {
        fmt::Debug::fmt(&**self, f)
    }
}
