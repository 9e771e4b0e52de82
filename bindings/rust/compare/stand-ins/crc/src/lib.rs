//! A stand-in for the crate crc: of it, what `serial.rs` names. The register goes bit by bit, by document 01's rule.

/// What sets one check value apart from others, for registers whose bytes enter low bit first.
pub struct Algorithm<W> {
    polynomial: W,
    start: W,
    complement: W,
}

/// The frame check of RFC 1662: the library complements its result.
pub const CRC_16_IBM_SDLC: Algorithm<u16> = Algorithm {
    polynomial: 0x8408,
    start: 0xffff,
    complement: 0xffff,
};

/// A check value of one algorithm.
pub struct Crc<W: 'static> {
    algorithm: &'static Algorithm<W>,
}

/// A check value under way.
pub struct Digest {
    algorithm: &'static Algorithm<u16>,
    register: u16,
}

impl Crc<u16> {
    pub const fn new(algorithm: &'static Algorithm<u16>) -> Self {
        Crc { algorithm }
    }

    pub fn digest(&self) -> Digest {
        Digest {
            algorithm: self.algorithm,
            register: self.algorithm.start,
        }
    }

    pub fn checksum(&self, bytes: &[u8]) -> u16 {
        let mut digest = self.digest();
        digest.update(bytes);
        digest.finalize()
    }
}

impl Digest {
    pub fn update(&mut self, bytes: &[u8]) {
        for byte in bytes {
            self.register ^= u16::from(*byte);
            for _ in 0..8 {
                let low = self.register & 1;
                self.register >>= 1;
                if low == 1 {
                    self.register ^= self.algorithm.polynomial;
                }
            }
        }
    }

    pub fn finalize(self) -> u16 {
        self.register ^ self.algorithm.complement
    }
}
