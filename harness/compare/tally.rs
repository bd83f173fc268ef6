//! How many calls of each kind got which answer, to show that all of them came up.

use crate::cases::case::Row;
use crate::second::call::Answer;
use std::collections::BTreeMap;

/// By the call's number, and by refusal and finding.
#[derive(Default)]
pub struct Tally(BTreeMap<u64, BTreeMap<(u64, u64), usize>>);

impl Tally {
    pub fn add(&mut self, row: &Row, answer: Answer) {
        let answers = self.0.entry(row.operation.0).or_default();
        *answers.entry((answer.refusal, answer.finding)).or_default() += 1;
    }

    /// A line that names an answer of some calls that never came.
    pub fn unseen<'a>(&self, calls: impl IntoIterator<Item = &'a Row>) -> Option<String> {
        calls.into_iter().find_map(|row| {
            let done = row.findings.iter().map(|&finding| (0, finding));
            let mut all = done.chain(row.refusals.iter().map(|&refusal| (refusal, 0)));
            let came = self.0.get(&row.operation.0);
            let (refusal, finding) =
                all.find(|answer| !came.is_some_and(|came| came.contains_key(answer)))?;
            Some(format!("NEVER SEEN: {} with refusal {refusal} and finding {finding}", row.name))
        })
    }

    pub fn calls(&self) -> usize {
        self.0.values().flat_map(|answers| answers.values()).sum()
    }

    pub fn print<'a>(&self, calls: impl IntoIterator<Item = &'a Row>) {
        for row in calls {
            let Some(answers) = self.0.get(&row.operation.0) else {
                continue;
            };
            let parts: Vec<String> = answers
                .iter()
                .map(|(answer, calls)| format!("{}: {}", told(*answer), with_commas(*calls)))
                .collect();
            println!("  {} {} ({})", row.name, with_commas(answers.values().sum()), parts.join(", "));
        }
    }
}

fn told((refusal, finding): (u64, u64)) -> String {
    match (refusal, finding) {
        (0, _) => ["done", "clean", "column", "unexplained"][finding.min(3) as usize].into(),
        _ => format!("refusal {refusal}"),
    }
}

pub fn with_commas(n: usize) -> String {
    if n < 1000 {
        return n.to_string();
    }
    format!("{},{:03}", with_commas(n / 1000), n % 1000)
}
