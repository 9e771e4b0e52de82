//! A stand-in for the crate smbus-pec: the packet error code, bit by bit, by document 01's rule.

pub fn pec(bytes: &[u8]) -> u8 {
    let mut register = 0u8;
    for byte in bytes {
        register ^= byte;
        for _ in 0..8 {
            let high = register & 0x80;
            register <<= 1;
            if high != 0 {
                register ^= 0x07;
            }
        }
    }
    register
}
