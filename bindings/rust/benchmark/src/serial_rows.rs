//! What is measured of the serial line: the taker, `step` alone, and the frame writer.
use crate::inputs::{ALL_ESCAPES, MIXED, MIXES, Mix, line, packets};
use crate::plain::bulk_receiver::BulkReceiver;
use crate::plain::receiver::{AtEnd, Kept, Receiver};
use crate::plain::writer;
use crate::table::{Other, Table, Unit};
use crate::takers::{PIECE, Taker, take_line};
use crate::timing::{sum_over, weight};
use pulevago::Error;
use pulevago::serial::FRAME_MAX;
use std::hint::black_box;

const MIB: usize = 1 << 20;
const LINE: usize = 16 * MIB;

pub fn measure_all(table: &mut Table) {
    for mix in MIXES {
        measure_take(table, mix.name, &line(mix, LINE));
    }
    measure_step(table);
    for mix in MIXES.into_iter().chain([ALL_ESCAPES]) {
        measure_writer(table, mix);
    }
}

/// How the taker grows with the input.
pub fn measure_growth(table: &mut Table) {
    for size in [1, 4, 16, 64] {
        measure_take(
            table,
            &format!("{}, {size} MiB", MIXED.name),
            &line(MIXED, size * MIB),
        );
    }
}

fn measure_take(table: &mut Table, input: &str, line: &[u8]) {
    // a short line several times, so that a round is long enough to be measured
    let times = LINE.div_ceil(line.len());
    let others: Vec<Other> = vec![
        (
            "plain, check at the end",
            Box::new(|| sum_taken(Receiver::<AtEnd>::new, line, times)),
        ),
        (
            "plain, check kept",
            Box::new(|| sum_taken(Receiver::<Kept>::new, line, times)),
        ),
        (
            "bulk",
            Box::new(|| sum_taken(BulkReceiver::new, line, times)),
        ),
    ];
    let ours = Box::new(|| sum_taken(pulevago::serial::Receiver::new, line, times));
    table.measure(
        "take",
        input,
        (line.len() * times, Unit::Megabytes),
        ours,
        others,
    );
}

/// Takes the whole line, `times` times, each time with a new taker.
fn sum_taken<T: Taker>(new: fn() -> T, line: &[u8], times: usize) -> u64 {
    let mut sum = 0_u64;
    for _ in 0..times {
        take_line(&mut new(), black_box(line), PIECE, |_, packet| {
            sum = sum.wrapping_add(weight(packet))
        });
    }
    sum
}

fn measure_step(table: &mut Table) {
    let line = &line(MIXED, MIB);
    let ours = Box::new(|| {
        let mut receiver = pulevago::serial::Receiver::new();
        sum_stepped(line, |byte| receiver.step(byte).map_or(0, weight))
    });
    let others: Vec<Other> = vec![
        (
            "plain, not inlined",
            Box::new(|| {
                let mut receiver = Receiver::<AtEnd>::new();
                sum_stepped(line, |byte| {
                    step_by_call(&mut receiver, byte).map_or(0, weight)
                })
            }),
        ),
        (
            "plain, inlined",
            Box::new(|| {
                let mut receiver = Receiver::<AtEnd>::new();
                sum_stepped(line, |byte| receiver.step(byte).map_or(0, weight))
            }),
        ),
    ];
    table.measure(
        "step",
        MIXED.name,
        (line.len(), Unit::Megabytes),
        ours,
        others,
    );
}

fn sum_stepped(line: &[u8], mut step: impl FnMut(u8) -> u64) -> u64 {
    black_box(line)
        .iter()
        .fold(0_u64, |sum, &byte| sum.wrapping_add(step(byte)))
}

#[inline(never)]
fn step_by_call(receiver: &mut Receiver<AtEnd>, byte: u8) -> Option<&[u8]> {
    receiver.step(byte)
}

fn measure_writer(table: &mut Table, mix: Mix) {
    const TIMES: usize = 16;
    let packets = &packets(mix, MIB);
    let amount = TIMES * packets.iter().map(Vec::len).sum::<usize>();
    let others: Vec<Other> = vec![
        (
            "plain, check first",
            Box::new(|| sum_written(writer::frame_to_serial, packets, TIMES)),
        ),
        (
            "plain, one pass",
            Box::new(|| sum_written(writer::frame_to_serial_in_one_pass, packets, TIMES)),
        ),
    ];
    let ours = Box::new(|| sum_written(pulevago::serial::frame_to_serial, packets, TIMES));
    table.measure(
        "frame_to_serial",
        mix.name,
        (amount, Unit::Megabytes),
        ours,
        others,
    );
}

fn sum_written(
    write: impl Fn(&[u8], &mut [u8]) -> Result<usize, Error>,
    packets: &[Vec<u8>],
    times: usize,
) -> u64 {
    let mut out = [0; FRAME_MAX];
    sum_over(packets, times, |packet| match write(packet, &mut out) {
        Ok(length) => weight(&out[..length - 1]),
        Err(error) => u64::from(error.number()),
    })
}
