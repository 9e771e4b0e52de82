//! Writes a list of the published text's answers, in the form of docs/VECTORS.md. The port is not asked.

use crate::answers::{hex, Walked, Written};
use crate::generator::Generator;
use crate::rust_side::{self, Listener};
use crate::streams::{frame_of, Streams, CASE_A, ESCAPE, FLAG};
use crate::vector_text::{bytes_at, given, joined, packets, pec_word, state};

const SEED: u64 = 1;

const FIRST_LINES: &str = "# What the published Rust text of mctp-estack 0.1.0 answers.
# Made by bindings/rust/compare, `pulevago-compare sample`, from the Rust's answers alone.
# What rests on stand-ins for other crates, as the check values do, is in docs/DIFFERENCES.md.";

/// The list under way.
struct List {
    random: Generator,
    lines: Vec<String>,
}

/// Prints the list.
pub fn write() {
    let mut list = List {
        random: Generator::new(SEED),
        lines: Vec::new(),
    };
    list.frames();
    list.feeds();
    list.i2c_encodes();
    list.i2c_decodes();
    list.usb_headers();
    list.usb_decodes();
    list.usb_walks();
    println!("{FIRST_LINES}\n{}", list.lines.join("\n"));
}

impl List {
    fn title(&mut self, words: &str) {
        self.lines.push(format!("# {words}"));
    }

    /// Appends a vector, unless it is there already.
    fn vector(&mut self, call: &str, arguments: String, results: String) {
        let line = format!("{call} {arguments} = {results}");
        if !self.lines.contains(&line) {
            self.lines.push(line);
        }
    }

    fn frames(&mut self) {
        self.title("the frame writer: lengths 5 to 255, escapes, room for the frame and up to 3 bytes more");
        for length in (5..=40).chain([77, 124, 125, 126, 127, 128, 200, 253, 254, 255]) {
            let any = self.random.bytes(length);
            self.frame(&any);
            let marked = self
                .random
                .bytes_of(&[FLAG, ESCAPE, 0x5e, 0x5d], length.min(30));
            self.frame(&marked);
        }
        self.frame(&[FLAG; 255]);
    }

    fn frame(&mut self, packet: &[u8]) {
        let room = rust_side::send(packet, usize::MAX).0.len() + self.random.below(4);
        let Written { answer, out } = rust_side::frame(packet, room);
        let results = format!("{} {}", given(answer), hex(&out));
        self.vector("frame", format!("{} {room}", hex(packet)), results);
    }

    fn feeds(&mut self) {
        self.title("a fresh receiver fed one frame");
        for length in (1..=12).chain([60, 125, 126, 255]) {
            let packet = self.random.bytes(length);
            self.feed(&frame_of(&packet));
        }
        self.title("frames, damaged frames and noise, up to a zero count");
        for _ in 0..110 {
            let zero_counts = self.random.once_in(3);
            let stream = self.stream(zero_counts);
            self.feed(&stream);
        }
        self.title("the same without a zero count, then three flags and a long frame");
        for _ in 0..30 {
            let stream = self.stream(false);
            let frame = frame_of(&self.random.bytes(200));
            self.feed(&[&stream[..], &[FLAG; 3], &frame].concat());
        }
    }

    fn stream(&mut self, zero_counts: bool) -> Vec<u8> {
        let length = self.random.between(5, 150);
        Streams {
            random: &mut self.random,
            zero_counts,
        }
        .stream(length)
    }

    /// A line, where the Rust can tell it: a list has the stored bytes beyond the stored length too, which a cleared vector has
    /// not. So a stream is left out where the vector has been longer than at the end.
    fn feed(&mut self, stream: &[u8]) {
        let (heard, followed) = rust_side::hear(stream);
        let stream = &stream[..followed];
        if longest_stored(stream) == heard.state.stored.len() {
            let results = format!("{} {}", packets(&heard.packets), state(&heard.state));
            self.vector("feed", hex(stream), results);
        }
    }

    fn i2c_encodes(&mut self) {
        self.title("i2c-encode: addresses, payloads and rooms around each limit");
        for (own, dest) in [(0, 0), (0x20, 0x1d), (1, 127), (127, 126), (127, 127)] {
            for pec in [false, true] {
                self.i2c_encode(own, dest, pec, &CASE_A, 10);
            }
        }
        for length in [0, 1, 5, 33, 253, 254, 255] {
            let payload = self.random.bytes(length);
            for pec in [false, true] {
                let need = 4 + length + usize::from(pec);
                for room in [need - 1, need, need + 2] {
                    self.i2c_encode(0x20, 0x1d, pec, &payload, room);
                }
            }
        }
    }

    fn i2c_encode(&mut self, own: u8, dest: u8, pec: bool, payload: &[u8], room: usize) {
        let Written { answer, out } = rust_side::i2c_encode(own, dest, payload, room, pec);
        let arguments = format!(
            "{own:02x} {dest:02x} {} {} {room}",
            pec_word(pec),
            hex(payload)
        );
        self.vector(
            "i2c-encode",
            arguments,
            format!("{} {}", given(answer), hex(&out)),
        );
    }

    fn i2c_decodes(&mut self) {
        self.title("i2c-decode: frames whole, cut and with a byte changed");
        for length in [0, 1, 5, 254] {
            let payload = self.random.bytes(length);
            for pec in [false, true] {
                let room = 4 + length + usize::from(pec);
                let frame = rust_side::i2c_encode(0x20, 0x1d, &payload, room, pec).out;
                self.i2c_decode(pec, &frame);
                self.i2c_decode(!pec, &frame);
                self.i2c_decode(pec, &frame[..room - 1]);
                for at in 0..room.min(10) {
                    let mut damaged = frame.clone();
                    damaged[at] ^= 1 << self.random.below(8);
                    self.i2c_decode(pec, &damaged);
                }
            }
        }
        self.i2c_decode(true, &[]);
        self.i2c_decode(false, &[]);
    }

    fn i2c_decode(&mut self, pec: bool, input: &[u8]) {
        let results = match rust_side::i2c_decode(input, pec) {
            Ok((source, payload)) => format!("0 {source:02x} {}", hex(bytes_at(input, payload))),
            Err(number) => format!("{number} - -"),
        };
        self.vector(
            "i2c-decode",
            format!("{} {}", pec_word(pec), hex(input)),
            results,
        );
    }

    fn usb_headers(&mut self) {
        self.title("usb-header: sizes and lent headers around their limits");
        for size in [0, 1, 5, 250, 251, 252, 255, 256, 507] {
            for room in [0, 3, 4, 5] {
                let Written { answer, out } = rust_side::usb_header(size, room);
                let results = format!("{} {}", answer.err().unwrap_or(0), hex(&out));
                self.vector("usb-header", format!("{size} {room}"), results);
            }
        }
    }

    fn usb_decodes(&mut self) {
        self.title(
            "usb-decode: length bytes and inputs around them, and each byte of a header changed",
        );
        for length_byte in [0, 3, 4, 5, 9, 64, 255] {
            let said = usize::from(length_byte);
            for length in [3, 4, 5, said.max(1) - 1, said, 300] {
                let header = [0x1a, 0xb4, 0x00, length_byte];
                let input = [&header[..], &self.random.bytes(300)].concat();
                self.usb_decode(&input[..length]);
            }
        }
        for at in 0..4 {
            let mut input = [0x1a, 0xb4, 0x00, 0x06, 0x41, 0x42, 0x43];
            input[at] ^= 1 << self.random.below(3);
            self.usb_decode(&input);
        }
    }

    fn usb_decode(&mut self, input: &[u8]) {
        let results = match rust_side::usb_decode(input) {
            Ok((packet, remainder)) => {
                let length = packet.length;
                let parts = [packet, remainder].map(|part| hex(bytes_at(input, part)));
                format!("0 {length} {}", parts.join(" "))
            }
            Err(number) => format!("{number} - - -"),
        };
        self.vector("usb-decode", hex(input), results);
    }

    fn usb_walks(&mut self) {
        self.title("usb-walk: one decode after another");
        for packets in 0..8 {
            let mut transfer = Vec::new();
            for _ in 0..packets {
                let packet = self.random.bytes(packets * 4 % 13);
                transfer.extend([0x1a, 0xb4, 0x00, packet.len() as u8 + 4]);
                transfer.extend(packet);
            }
            self.usb_walk(&transfer);
            self.usb_walk(&[&transfer[..], &[0x1a, 0xb4, 0x00]].concat());
            self.usb_walk(&transfer[..transfer.len() / 2]);
        }
    }

    /// Each packet with its header's place.
    fn usb_walk(&mut self, transfer: &[u8]) {
        let Walked {
            packets,
            number,
            place,
        } = rust_side::usb_walk(transfer);
        let walked = joined(packets.iter().map(|packet| {
            let header_place = packet.place - 4;
            format!("{header_place}:{}", hex(bytes_at(transfer, *packet)))
        }));
        self.vector(
            "usb-walk",
            format!("{} 0", hex(transfer)),
            format!("{walked} {number} {place}"),
        );
    }
}

/// The longest that the Rust's vector is on the stream.
fn longest_stored(stream: &[u8]) -> usize {
    let mut listener = Listener::new();
    let after_each = stream.iter().map(|byte| {
        listener.feed(&[*byte]);
        listener.state().stored.len()
    });
    after_each.max().unwrap_or(0)
}
