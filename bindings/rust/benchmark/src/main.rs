//! Measures the functions of the crate `pulevago` against plain Rust, all in one process. First all sides are compared on the
//! same inputs, and where one differs nothing is measured. Then it prints two tables in Markdown; what it is doing it says on
//! standard error. A ratio is our rate divided by the other side's, so 1.00 is equally fast and more is faster. An argument is a
//! part of a function's name: only those functions are measured.
mod call_rows;
mod comparing;
mod inputs;
mod plain;
mod serial_rows;
mod table;
mod takers;
mod timing;

use table::Table;

fn main() {
    eprintln!("comparing all sides");
    comparing::compare_all();
    let wanted = std::env::args().nth(1).unwrap_or_default();
    let mut functions = Table::new(&wanted);
    serial_rows::measure_all(&mut functions);
    call_rows::measure_all(&mut functions);
    let mut growth = Table::new(&wanted);
    serial_rows::measure_growth(&mut growth);

    println!(
        "Best of {} rounds; packets, places, output bytes and refusals of all sides were compared before and are equal.",
        timing::ROUNDS
    );
    functions.print("The functions");
    growth.print("The taker, as the input grows");
}
