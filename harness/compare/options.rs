//! What the command line says.

use std::path::PathBuf;
use std::time::{SystemTime, UNIX_EPOCH};

pub const USAGE: &str = "usage: compare [--jobs N [--stored FOLDER]] [--seed N] [--only N] \
    [--short | --long] [--faults] -- COMMAND [ARGUMENTS...]";

/// How many random calls come after the listed ones.
const SHORT: usize = 13_000;
const USUAL: usize = 120_000;
const LONG: usize = 20 * USUAL;

#[derive(Default)]
pub struct Options {
    pub seed: u64,
    pub only: Option<usize>,
    pub random: usize,
    pub faults: bool,
    pub jobs: Option<usize>,
    pub stored: Option<PathBuf>,
    pub command: Vec<String>,
}

impl Options {
    pub fn read(mut words: impl Iterator<Item = String>) -> Option<Options> {
        let seed = SystemTime::now().duration_since(UNIX_EPOCH).map_or(0, |time| time.as_secs());
        let mut options = Options { seed, random: USUAL, ..Options::default() };
        while let Some(word) = words.next() {
            match word.as_str() {
                "--seed" => options.seed = words.next()?.parse().ok()?,
                "--only" => options.only = Some(words.next()?.parse().ok().filter(|&n| n > 0)?),
                "--short" => options.random = SHORT,
                "--long" => options.random = LONG,
                "--faults" => options.faults = true,
                "--jobs" => options.jobs = Some(words.next()?.parse().ok()?),
                "--stored" => options.stored = Some(words.next()?.into()),
                "--" => options.command = words.by_ref().collect(),
                _ => return None,
            }
        }
        let stored_jobs = options.stored.is_none() || options.jobs.is_some();
        Some(options).filter(|options| !options.command.is_empty() && stored_jobs)
    }
}
