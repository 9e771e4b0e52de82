//! Shows one input and what each side makes of it, held to what docs/DIFFERENCES.md says.

use crate::answers::{outcome, Heard, Outcome, State};
use crate::port_side::{self, Way};
use crate::rust_side::Listener;
use std::fmt::Debug;

/// The packets of a stream, and the state after it.
pub type HeardAll = (Vec<Vec<u8>>, State);

/// Whether both sides gave what is wanted: each is a pair of what came and what is wanted. Prints a line, or what came instead.
pub fn both<T, U>(what: &str, rust: (T, T), port: (U, U)) -> bool
where
    T: PartialEq + Debug,
    U: PartialEq + Debug,
{
    let right = rust.0 == rust.1 && port.0 == port.1;
    if right {
        println!("  {what}");
    } else {
        println!("  NOT SO: {what}");
        println!("    rust: {:x?}\n    wanted: {:x?}", rust.0, rust.1);
        println!("    port: {:x?}\n    wanted: {:x?}", port.0, port.1);
    }
    right
}

pub fn state(position: &'static str, count: usize, stored: &[u8]) -> State {
    let stored = stored.to_vec();
    State {
        position,
        count,
        stored,
    }
}

/// What the Rust gives on all of the stream, also beyond a zero count.
pub fn rust_heard(stream: &[u8]) -> Outcome<HeardAll> {
    outcome(|| {
        let mut listener = Listener::new();
        listener.feed(stream);
        without_places(listener.heard())
    })
}

/// The same of the port.
pub fn port_heard(stream: &[u8]) -> Outcome<HeardAll> {
    outcome(|| without_places(port_side::hear(stream, Way::Steps).0))
}

fn without_places(heard: Heard) -> HeardAll {
    let packets = heard.packets.into_iter().map(|packet| packet.bytes);
    (packets.collect(), heard.state)
}
