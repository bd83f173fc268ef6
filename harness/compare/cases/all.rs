//! All cases of a seed. Case number N of a seed is always the same, with or without
//! --long.

use crate::cases::case::{Case, Cases, Row};
use crate::cases::fields::Room;
use crate::random::Random;
use crate::second::shapes::Second;

/// The cases of a seed: those that are listed, and after them random ones.
pub struct All<'a> {
    calls: &'static [Row],
    second: &'a Second,
    seed: u64,
    listed: Vec<Case>,
    /// Each call as often as its share says.
    shares: Vec<&'static Row>,
}

impl All<'_> {
    pub fn new<'a>(calls: &'static [Row], second: &'a Second, seed: u64) -> All<'a> {
        let mut cases = Cases { calls, second, random: Random::new(seed, 0), list: Vec::new() };
        cases.written();
        calls.iter().for_each(|row| (row.list)(&mut cases));
        cases.shelves();
        let shares = calls.iter().flat_map(|row| vec![row; row.share]).collect();
        All { calls, second, seed, listed: cases.list, shares }
    }

    pub fn listed(&self) -> usize {
        self.listed.len()
    }

    /// Case number `n`, from 1.
    pub fn case(&self, n: usize) -> Case {
        if let Some(case) = self.listed.get(n - 1) {
            return *case;
        }
        let random = Random::new(!self.seed, n as u64);
        let mut cases = Cases { calls: self.calls, second: self.second, random, list: Vec::new() };
        (self.shares[n % self.shares.len()].random)(&mut cases);
        cases.list[0]
    }

    /// The numbers of the jobs: those listed, without those that differ in room alone,
    /// and `random` random ones.
    pub fn jobs(&self, random: usize) -> Vec<usize> {
        let is_random = |n: usize| n > self.listed();
        let is_job = |&n: &usize| {
            let sent = self.case(n).sent;
            sent.is_some_and(|sent| sent.room == Room::Enough || is_random(n))
        };
        let listed = (1..=self.listed()).filter(is_job);
        listed.chain((self.listed() + 1..).filter(is_job).take(random)).collect()
    }
}
