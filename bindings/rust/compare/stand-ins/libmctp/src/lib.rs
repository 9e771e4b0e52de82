//! A stand-in for the crate libmctp: of it, the header that `i2c.rs` writes and reads.

pub mod smbus_proto {
    /// The four bytes of a header: destination address and a low bit, command code, byte count, source address and a low bit. An
    /// address is a field of seven bits: of a longer number the setters keep the low seven.
    pub struct MCTPSMBusHeader<T>(pub T);

    impl MCTPSMBusHeader<[u8; 4]> {
        pub fn new() -> Self {
            MCTPSMBusHeader([0; 4])
        }

        pub fn new_from_buf(bytes: [u8; 4]) -> Self {
            MCTPSMBusHeader(bytes)
        }

        pub fn set_dest_slave_addr(&mut self, address: u8) {
            self.0[0] = with_address(self.0[0], address);
        }

        pub fn command_code(&self) -> u8 {
            self.0[1]
        }

        pub fn set_command_code(&mut self, code: u8) {
            self.0[1] = code;
        }

        pub fn byte_count(&self) -> u8 {
            self.0[2]
        }

        pub fn set_byte_count(&mut self, count: u8) {
            self.0[2] = count;
        }

        pub fn source_slave_addr(&self) -> u8 {
            self.0[3] >> 1
        }

        pub fn set_source_slave_addr(&mut self, address: u8) {
            self.0[3] = with_address(self.0[3], address);
        }

        pub fn set_source_read_write(&mut self, bit: u8) {
            self.0[3] = self.0[3] & 0xfe | bit & 1;
        }
    }

    /// The byte with its high seven bits set to the address.
    fn with_address(byte: u8, address: u8) -> u8 {
        address << 1 | byte & 1
    }
}
