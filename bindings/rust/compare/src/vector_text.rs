//! How answers are written in a list of vectors: docs/VECTORS.md.

use crate::answers::{hex, Packet, Part, State};

/// A length that is not given at a refusal.
pub fn given(answer: Result<usize, u32>) -> String {
    match answer {
        Ok(length) => format!("0 {length}"),
        Err(number) => format!("{number} -"),
    }
}

pub fn pec_word(pec: bool) -> &'static str {
    if pec {
        "pec"
    } else {
        "plain"
    }
}

pub fn bytes_at(input: &[u8], part: Part) -> &[u8] {
    &input[part.place..][..part.length]
}

/// Each with the index of the byte on which it came.
pub fn packets(packets: &[Packet]) -> String {
    joined(
        packets
            .iter()
            .map(|packet| format!("{}:{}", packet.fed - 1, hex(&packet.bytes))),
    )
}

/// Entries parted by commas; `-` for none.
pub fn joined(entries: impl Iterator<Item = String>) -> String {
    let entries: Vec<String> = entries.collect();
    if entries.is_empty() {
        return String::from("-");
    }
    entries.join(",")
}

/// The stored bytes are written without the zeros at their end.
pub fn state(state: &State) -> String {
    let end = state
        .stored
        .iter()
        .rposition(|byte| *byte != 0)
        .map_or(0, |last| last + 1);
    let stored = hex(&state.stored[..end]);
    format!(
        "{} {} {} {stored}",
        state.position,
        state.count,
        state.stored.len()
    )
}
