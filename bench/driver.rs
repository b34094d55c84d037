//! The benchmark: our loops and upstream's, on the same inputs, in one run.
//!
//!   driver count             under callgrind: a file of instruction counts for each side of each row
//!   driver measure COUNTS    times and stacks, and the tables; COUNTS has a line for each of those files
//!   driver rows TEXT         times alone, of the rows whose names contain TEXT
//!   driver dearest           the dearest containment that is found by time, a line for each; it takes a minute and a half
//!   driver dearest PREFIX    under callgrind, whose files have that prefix: by instructions
//!
//! Nothing here asserts a time. That both sides answer the same is asserted.

mod callgrind;
mod dearest;
mod inputs;
mod measure;
mod ours;
mod report;
mod rows;
mod stack;
mod upstream_loops;

use std::process::ExitCode;

fn main() -> ExitCode {
    let arguments: Vec<String> = std::env::args().skip(1).collect();
    let words: Vec<&str> = arguments.iter().map(String::as_str).collect();
    if let ["dearest", prefix @ ..] = words.as_slice() {
        dearest::find(prefix.first().copied());
        return ExitCode::SUCCESS;
    }
    let sections = rows::sections();
    measure::compare(&sections);
    match words.as_slice() {
        ["count"] => measure::count(&sections),
        ["measure", counts] => report::report(&sections, &measure::read_counts(counts)),
        ["rows", text] => report::some(&sections, text),
        _ => {
            eprintln!("usage: driver count, driver measure COUNTS, driver rows TEXT, or driver dearest [PREFIX]");
            return ExitCode::from(2);
        }
    }
    ExitCode::SUCCESS
}
