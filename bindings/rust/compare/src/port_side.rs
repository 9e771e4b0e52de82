//! The port's answers, in the common form. What the published text has no counterpart of is asserted here: a panic is then the
//! answer, and differs.

use crate::answers::{part_of, room_of, Heard, I2cDecoded, Packet, State, UsbDecoded};
use crate::answers::{Walked, Written, POSITIONS};
use crate::generator::Generator;
use pulevago::serial::{Reason, Receiver, PACKET_MAX};
use pulevago::usb::Walker;
use pulevago::{i2c, serial, usb, Error};

/// How a stream is fed.
#[derive(Clone, Copy, Debug, PartialEq, Eq)]
pub enum Way {
    /// By `step`.
    Steps,
    /// By `take`, to the input's end.
    Takes,
    /// By `take_at_most`, in pieces and with allowances that the seed decides.
    Pieces(u64),
}

pub fn frame(packet: &[u8], room: usize) -> Written {
    let mut out = room_of(room);
    let answer = serial::frame_to_serial(packet, &mut out).map_err(Error::number);
    Written { answer, out }
}

/// The state in the bytes that the library keeps it in: position, count, stored length in two bytes, the high one first, and 259
/// stored bytes.
pub fn state(receiver: &Receiver) -> State {
    let bytes = receiver.as_bytes();
    let length = usize::from(u16::from_be_bytes([bytes[2], bytes[3]]));
    State {
        position: POSITIONS[usize::from(bytes[0])],
        count: bytes[1].into(),
        stored: bytes[4..][..length].to_vec(),
    }
}

/// What a fresh receiver gives on the stream, and the receiver.
pub fn hear(stream: &[u8], way: Way) -> (Heard, Receiver) {
    let mut receiver = Receiver::new();
    let packets = match way {
        Way::Steps => by_steps(&mut receiver, stream),
        Way::Takes => by_takes(&mut receiver, stream),
        Way::Pieces(seed) => in_pieces(&mut receiver, stream, Generator::new(seed)),
    };
    let state = state(&receiver);
    (Heard { packets, state }, receiver)
}

fn by_steps(receiver: &mut Receiver, stream: &[u8]) -> Vec<Packet> {
    let mut packets = Vec::new();
    for (at, byte) in stream.iter().enumerate() {
        if let Some(packet) = receiver.step(*byte) {
            packets.push(Packet {
                fed: at + 1,
                bytes: packet.to_vec(),
            });
        }
    }
    packets
}

fn by_takes(receiver: &mut Receiver, stream: &[u8]) -> Vec<Packet> {
    let mut packets = Vec::new();
    let mut left = stream;
    let mut out = [0; PACKET_MAX];
    while let Some(packet) = receiver.take(&mut left, &mut out) {
        packets.push(Packet {
            fed: stream.len() - left.len(),
            bytes: packet.to_vec(),
        });
    }
    assert!(left.is_empty(), "take left a byte");
    packets
}

fn in_pieces(receiver: &mut Receiver, stream: &[u8], mut random: Generator) -> Vec<Packet> {
    let mut packets = Vec::new();
    let mut fed = 0;
    let longest = random.one_of(&[1, 2, 7, 30, 300]);
    while fed < stream.len() {
        let piece = &stream[fed..][..random.between(0, longest).min(stream.len() - fed)];
        let allowance = if random.once_in(2) {
            random.below(40)
        } else {
            usize::MAX
        };
        let untouched = room_of(random.between(PACKET_MAX, PACKET_MAX + 5));
        let mut out = untouched.clone();
        let took = receiver
            .take_at_most(piece, allowance, &mut out)
            .expect("room for a packet");
        fed += took.taken;
        let reason = if took.length > 0 {
            packets.push(Packet {
                fed,
                bytes: out[..took.length].to_vec(),
            });
            Reason::Packet
        } else if took.taken == piece.len() {
            Reason::InputEnded
        } else {
            assert!(took.taken == allowance, "take stopped too soon");
            Reason::AllowanceSpent
        };
        assert!(took.reason == reason, "take names another reason");
        assert!(took.taken <= allowance, "take took more than its allowance");
        assert!(
            out[took.length..] == untouched[took.length..],
            "take changed its output behind the packet"
        );
    }
    packets
}

pub fn i2c_encode(own: u8, dest: u8, payload: &[u8], room: usize, pec: bool) -> Written {
    let mut out = room_of(room);
    let answer = i2c::encode(own, dest, payload, &mut out, pec).map_err(Error::number);
    Written { answer, out }
}

pub fn i2c_decode(input: &[u8], pec: bool) -> I2cDecoded {
    let decoded = i2c::decode(input, pec).map_err(Error::number)?;
    Ok((decoded.source, part_of(input, decoded.payload)))
}

pub fn usb_header(size: usize, room: usize) -> Written {
    let mut out = room_of(room);
    let answer = usb::header(size, &mut out)
        .map(|()| usb::HEADER_SIZE)
        .map_err(Error::number);
    Written { answer, out }
}

pub fn usb_decode(input: &[u8]) -> UsbDecoded {
    let (packet, remainder) = usb::decode(input).map_err(Error::number)?;
    Ok((part_of(input, packet), part_of(input, remainder)))
}

pub fn usb_walk(transfer: &[u8]) -> Walked {
    let mut walker = Walker::new(transfer);
    let mut packets = Vec::new();
    let stopped = loop {
        match walker.next_packet() {
            Ok(Some(packet)) => packets.push(part_of(transfer, packet)),
            stopped => break stopped,
        }
    };
    let place = walker.place();
    assert!(
        walker.next_packet() == stopped && walker.place() == place,
        "a later answer is another"
    );
    let number = stopped.map_or_else(Error::number, |_| 0);
    Walked {
        packets,
        number,
        place,
    }
}

pub fn usb_append(packet: &[u8], used: usize, room: usize) -> Written {
    let mut out = room_of(room);
    let mut now_used = used;
    let appended = usb::append(packet, &mut out, &mut now_used).map_err(Error::number);
    assert!(
        appended.is_ok() || now_used == used,
        "a refusal changed the used count"
    );
    Written {
        answer: appended.map(|()| now_used),
        out,
    }
}
