//! Compares the port with the published text of mctp-estack 0.1.0. Both get the same inputs, and every result is compared.

mod answers;
mod fmt;
mod generator;
mod i2c_calls;
mod kept;
mod partings;
mod port_side;
mod rust_side;
mod sample;
mod serial_in;
mod serial_out;
mod shown;
mod streams;
mod tally;
mod usb_calls;
mod vector_text;

/// The published text: see build.rs.
mod published {
    include!(concat!(env!("OUT_DIR"), "/published.rs"));
}

use generator::Generator;
use std::process::{exit, ExitCode};
use tally::Tally;

const USE: &str = "use: pulevago-compare short|full [SEED]   compare
     pulevago-compare partings            show the inputs that docs/DIFFERENCES.md names
     pulevago-compare sample              write a list of the Rust's answers, for crates/vectors/data";

/// How much a run compares.
struct Run {
    serial_bytes: u64,
    string_length: usize,
    calls: usize,
}

const SHORT: Run = Run {
    serial_bytes: 20_000_000,
    string_length: 6,
    calls: 200_000,
};
const FULL: Run = Run {
    serial_bytes: 300_000_000,
    string_length: 7,
    calls: 3_000_000,
};

/// The seed of a run that names none.
const USUAL_SEED: u64 = 20_261_115;

fn main() -> ExitCode {
    answers::silence_panics_in_calls();
    let words: Vec<String> = std::env::args().skip(1).collect();
    let words: Vec<&str> = words.iter().map(String::as_str).collect();
    let right = match words[..] {
        ["short"] => compare(&SHORT, USUAL_SEED),
        ["short", seed] => compare(&SHORT, number(seed)),
        ["full"] => compare(&FULL, USUAL_SEED),
        ["full", seed] => compare(&FULL, number(seed)),
        ["partings"] => show(),
        ["sample"] => {
            sample::write();
            true
        }
        _ => stop_with_use(),
    };
    if right {
        ExitCode::SUCCESS
    } else {
        ExitCode::FAILURE
    }
}

fn number(word: &str) -> u64 {
    word.parse().unwrap_or_else(|_| stop_with_use())
}

fn stop_with_use() -> ! {
    eprintln!("{USE}");
    exit(2)
}

/// Shows what docs/DIFFERENCES.md says of single inputs, and says whether all of it is so.
fn show() -> bool {
    let assertions = if cfg!(debug_assertions) {
        "with"
    } else {
        "without"
    };
    println!("{assertions} debug assertions");
    partings::show() & kept::show()
}

/// Compares all kinds of calls, and says whether no difference was found.
fn compare(run: &Run, seed: u64) -> bool {
    println!("seed {seed}");
    let mut random = Generator::new(seed);
    let random = &mut random;
    let mut differences = 0;
    let mut print = |tally: Tally| {
        tally.print();
        differences += tally.differences;
    };
    print(serial_out::compare(run.calls, random));
    print(serial_in::exhaustive(run.string_length));
    print(serial_in::random(run.serial_bytes, random));
    i2c_calls::compare(run.calls, random)
        .into_iter()
        .for_each(&mut print);
    print(usb_calls::headers(run.calls, random));
    print(usb_calls::decodes(run.calls, random));
    print(usb_calls::walks(run.calls, random));
    print(usb_calls::appends(run.calls, random));
    differences == 0
}
