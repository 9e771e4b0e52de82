//! A stand-in for the crate embedded-io-async: of it, what `serial.rs` calls.

#![allow(async_fn_in_trait)]

/// How reading or writing can fail.
pub trait ErrorType {
    type Error;
}

pub trait Read: ErrorType {
    /// Reads some bytes, and says how many: 0 at the end.
    async fn read(&mut self, room: &mut [u8]) -> Result<usize, Self::Error>;
}

pub trait Write: ErrorType {
    /// Writes some of the bytes, and says how many.
    async fn write(&mut self, bytes: &[u8]) -> Result<usize, Self::Error>;

    /// Writes all of the bytes.
    async fn write_all(&mut self, bytes: &[u8]) -> Result<(), Self::Error> {
        let mut left = bytes;
        while !left.is_empty() {
            let written = self.write(left).await?;
            assert!(written > 0, "a writer wrote nothing");
            left = &left[written..];
        }
        Ok(())
    }
}
