//! How far the run is, on standard error.

use crate::tally::with_commas;
use std::io::{stderr, IsTerminal};
use std::time::{Duration, Instant};

pub struct Progress {
    total: usize,
    done: usize,
    terminal: bool,
    shown: Instant,
}

impl Progress {
    pub fn new(total: usize) -> Progress {
        Progress { total, done: 0, terminal: stderr().is_terminal(), shown: Instant::now() }
    }

    pub fn step(&mut self) {
        self.done += 1;
        if self.shown.elapsed() >= Duration::from_secs(if self.terminal { 1 } else { 5 }) {
            self.shown = Instant::now();
            let line = format!("{} of {} cases", with_commas(self.done), with_commas(self.total));
            if self.terminal {
                eprint!("\r{line}");
            } else {
                eprintln!("{line}");
            }
        }
    }

    /// Clears the line that a terminal shows.
    pub fn end(&self) {
        if self.terminal {
            eprint!("\r\x1b[K");
        }
    }
}
