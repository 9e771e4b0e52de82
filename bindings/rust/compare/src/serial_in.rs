//! Serial bytes in: packets, the places at which they came, and the whole state.

use crate::answers::{hex, outcome, Outcome};
use crate::generator::Generator;
use crate::port_side::{self, Way};
use crate::rust_side::{self, Listener};
use crate::streams::{check_of, Streams, ESCAPE, FLAG};
use crate::tally::Tally;
use pulevago::serial::Receiver;

/// So many streams, less one, lie between two whose states are compared after each byte.
const EACH_BYTE_IN: usize = 50;

/// Streams at random, until so many bytes have been compared.
pub fn random(bytes: u64, random: &mut Generator) -> Tally {
    let mut tally = Tally::new("serial in, random streams");
    while tally.bytes < bytes {
        let zero_counts = random.once_in(4);
        let length = random.one_of(&[20, 100, 600, 2000, 4000]);
        let length = random.between(0, length);
        let stream = Streams {
            random,
            zero_counts,
        }
        .stream(length);
        let way = if random.once_in(4) {
            Way::Takes
        } else {
            Way::Pieces(random.number())
        };
        compare(&mut tally, &stream, &[Way::Steps, way]);
        if random.once_in(EACH_BYTE_IN) {
            compare_each_byte(&mut tally, &stream);
        }
    }
    tally
}

/// All strings up to this length over the bytes that matter, from a fresh receiver and, one shorter, behind prefixes that lead into
/// each position.
pub fn exhaustive(length: usize) -> Tally {
    let mut tally = Tally::new("serial in, all short strings");
    // 44 is a packet of one byte whose check is 7e 17.
    let letters = [FLAG, 0x01, 0x00, ESCAPE, 0x5e, 0x5d, 0x02, 0x44, 0x17];
    all_strings(&mut tally, &mut Vec::new(), &letters, length);
    for packet in [&[0x41][..], &[FLAG], &[ESCAPE], &[0x01, FLAG]] {
        let [high, low] = check_of(packet).to_be_bytes();
        let letters = [FLAG, 0x01, 0x00, ESCAPE, 0x5e, 0x5d, 0x41, high, low];
        let count = packet.len() as u8;
        for prefix in prefixes(count, high, low) {
            all_strings(&mut tally, &mut prefix.clone(), &letters, length - 1);
        }
    }
    tally
}

/// Prefixes that end in SerialRevision, ByteCount, Data, DataEscaped, Check and FrameEnd.
fn prefixes(count: u8, high: u8, low: u8) -> [Vec<u8>; 8] {
    let data = [vec![FLAG, 0x01, count], vec![0x41; usize::from(count) - 1]].concat();
    let behind_data = |bytes: &[u8]| [&data[..], bytes].concat();
    [
        vec![FLAG],
        vec![FLAG, 0x01],
        data.clone(),
        behind_data(&[ESCAPE]),
        behind_data(&[0x41]),
        behind_data(&[ESCAPE, 0x5e]),
        behind_data(&[0x41, high]),
        behind_data(&[0x41, high, low]),
    ]
}

/// Compares every string that begins so and goes on with up to so many of the letters. What is behind a zero count is left out.
fn all_strings(tally: &mut Tally, string: &mut Vec<u8>, letters: &[u8], length: usize) {
    let followed = compare(tally, string, &[Way::Steps, Way::Takes]);
    if length == 0 || followed < string.len() {
        return;
    }
    for letter in letters {
        string.push(*letter);
        all_strings(tally, string, letters, length - 1);
        string.pop();
    }
}

/// Compares what fresh receivers give on the stream. The port's are fed in each of these ways, which must leave the same 263 bytes of
/// the state. Gives how many bytes were followed.
fn compare(tally: &mut Tally, stream: &[u8], ways: &[Way]) -> usize {
    let (rust, followed) = match outcome(|| rust_side::hear(stream)) {
        Outcome::Given((heard, followed)) => (Outcome::Given(heard), followed),
        Outcome::Panicked(message) => (Outcome::Panicked(message), stream.len()),
    };
    tally.count(followed, &rust);
    tally.zero_counts += u64::from(followed < stream.len());
    let stream = &stream[..followed];
    let mut first: Option<Receiver> = None;
    for way in ways {
        let port = outcome(|| {
            let (heard, receiver) = port_side::hear(stream, *way);
            let first = first.get_or_insert_with(|| receiver.clone());
            assert!(*first == receiver, "another way leaves another state");
            heard
        });
        tally.compare(|| format!("{way:?} {}", hex(stream)), &rust, &port);
    }
    followed
}

/// Compares the two states after each byte.
fn compare_each_byte(tally: &mut Tally, stream: &[u8]) {
    let Outcome::Given((_, followed)) = outcome(|| rust_side::hear(stream)) else {
        return;
    };
    let mut listener = Listener::new();
    let mut receiver = Receiver::new();
    for (at, byte) in stream[..followed].iter().enumerate() {
        let rust = outcome(|| {
            listener.feed(&[*byte]);
            listener.state()
        });
        let port = outcome(|| {
            receiver.step(*byte);
            port_side::state(&receiver)
        });
        tally.compare(
            || format!("state after {}", hex(&stream[..=at])),
            &rust,
            &port,
        );
    }
}
