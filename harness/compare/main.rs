//! Compares the library with the second program: every answer, every count and
//! every lent byte.
//!
//!     compare [--seed N] [--only N] [--short | --long] [--faults] -- BRIDGE [ARGUMENTS...]
//!     compare --jobs N [--stored FOLDER] [--seed N] [--only N] -- PROGRAM [ARGUMENTS...]
//!
//! With --faults every call is made twice: with all that is lent right before an
//! inaccessible page, and right after one. What the call has to leave is sealed.
//!
//! With --jobs the program that reads jobs is compared: the listed jobs and N random
//! ones, each with a process of its own; before them those that a folder has stored.

mod bridge;
mod calls;
mod cases;
mod compare;
mod failing;
mod jobs;
mod options;
mod program;
mod progress;
mod random;
mod report;
mod second;
mod stored;
mod tally;

use calls::CALLS;
use options::{Options, USAGE};
use second::job::JOB;
use std::process::ExitCode;
use tally::with_commas;

fn main() -> ExitCode {
    let Some(options) = Options::read(std::env::args().skip(1)) else {
        eprintln!("{USAGE}");
        return ExitCode::from(2);
    };
    println!("seed {}", options.seed);
    match run(&options) {
        Ok(()) => ExitCode::SUCCESS,
        Err(line) => {
            println!("{line}");
            ExitCode::FAILURE
        }
    }
}

/// Prints what was compared. Every answer of the calls that are made has to come up.
fn run(options: &Options) -> Result<(), String> {
    let (tally, what) = match options.jobs {
        Some(random) => (jobs::run(options, random)?, "jobs"),
        None => (compare::run(options)?, "calls"),
    };
    println!("compared {} {what} (seed {}): all equal", with_commas(tally.calls()), options.seed);
    tally.print(CALLS);
    let made = CALLS.iter().filter(|row| options.jobs.is_none() || row.operation == JOB);
    let unseen = tally.unseen(made).filter(|_| options.only.is_none());
    unseen.map_or(Ok(()), Err)
}
