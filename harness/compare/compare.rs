//! Compares the library with the second program, call by call.

use crate::bridge::{Bridge, Buffer};
use crate::calls::CALLS;
use crate::cases::all::All;
use crate::cases::case::{Case, Filled, Pieces};
use crate::cases::fills::Fill;
use crate::cases::loans::{Place, BUFFERS};
use crate::cases::written::WRITTEN;
use crate::options::Options;
use crate::progress::Progress;
use crate::random::Random;
use crate::report::{buffers, difference, same_answer, same_bytes};
use crate::second::call::{Answer, Lent};
use crate::second::shapes::Second;
use crate::tally::Tally;

/// Gives what was compared, or the line that says what went wrong.
pub fn run(options: &Options) -> Result<Tally, String> {
    let second = Second::new();
    let all = All::new(CALLS, &second, options.seed);
    let chosen = options.only.map_or(1..=all.listed() + options.random, |n| n..=n);
    let bridge = Bridge::start(&options.command).map_err(|error| format!("the bridge: {error}"))?;
    let mut comparison = Comparison { second: &second, bridge, tally: Tally::default() };
    let sides: &[Option<Place>] = match options.faults {
        true => &[Some(Place::BeforePage), Some(Place::AfterPage)],
        false => &[None],
    };
    let mut progress = Progress::new(chosen.clone().count() * sides.len());
    for n in chosen {
        for side in sides {
            let mut case = all.case(n);
            side.map(|side| case.press(side));
            let mut filled = case.filled(&second, options.seed, n);
            let mut random = Random::new(options.seed, n as u64);
            if let Err(found) = comparison.carry_out(&mut case, &mut filled, &mut random) {
                progress.end();
                let faults = if options.faults { " --faults" } else { "" };
                let replay = format!("harness/compare.sh{faults} --seed {} --only {n}", options.seed);
                return Err(difference(&case, &filled, &found, &replay));
            }
            progress.step();
        }
    }
    progress.end();
    comparison.bridge.end().map(|()| comparison.tally)
}

struct Comparison<'a> {
    second: &'a Second,
    bridge: Bridge,
    tally: Tally,
}

impl Comparison<'_> {
    /// Makes the call of a case, and of a run in pieces the calls that follow it, each with
    /// the spare as the library left it. At the end an encoded stripe's column is in it.
    fn carry_out(&mut self, case: &mut Case, filled: &mut Filled, random: &mut Random) -> Result<(), String> {
        loop {
            let (answer, spare) = self.compare(case, filled)?;
            self.tally.add(case.row, answer);
            filled.lent.spare = spare;
            if !case.go_on(answer.count, random) {
                break;
            }
        }
        if case.pieces != Pieces::One && case.fill == Fill::Encoded {
            same_bytes("came", "the spare at the end", case, case.column(filled), &filled.lent.spare)?;
        }
        Ok(())
    }

    /// Gives the answer and the spare, where all is equal. Unseals what the call may write.
    fn compare(&mut self, case: &mut Case, filled: &Filled) -> Result<(Answer, Vec<u8>), String> {
        let mut after = filled.lent.clone();
        let answer = (case.row.answer)(self.second, &case.call, &mut after)
            .map_err(|found| format!("the second program contradicts itself: {found}"))?;
        check_second(self.second, case, filled, answer, &after)?;
        if let Some(written) = (case.row.writes)(&answer, &filled.lent) {
            case.loans[written].sealed = false;
        }
        // The list is the one buffer that isn't bytes, and no call writes it.
        let list: Vec<u8> = filled.lent.lost.iter().flat_map(|n| n.to_le_bytes()).collect();
        let reply = self.bridge.call(&case.call, &lent(case, filled, &list));
        let reply = reply.map_err(|end| format!("expected {answer}, {end}"))?;
        for (guards, what) in reply.guards.into_iter().zip(buffers(case)) {
            if guards != 0 {
                let side = ["", "before", "after", "on both sides of"][guards as usize % 4];
                return Err(format!("memory {side} the {what} was changed"));
            }
        }
        same_answer("came", answer, reply.answer)?;
        for ((what, expected), came) in buffers(case).into_iter().zip(bytes(&after, &list)).zip(&reply.lent) {
            same_bytes("came", what, case, expected, came)?;
        }
        let [.., spare] = reply.lent;
        Ok((answer, spare))
    }
}

/// The bytes of each buffer, those of the list beside.
fn bytes<'a>(lent: &'a Lent, list: &'a [u8]) -> [&'a [u8]; BUFFERS] {
    [&lent.stripe, &lent.bytes, list, &lent.spare]
}

fn lent<'a>(case: &Case, filled: &'a Filled, list: &'a [u8]) -> [Buffer<'a>; BUFFERS] {
    let (claimed, bytes) = (case.claimed(filled), bytes(&filled.lent, list));
    std::array::from_fn(|n| {
        let (loan, claimed, bytes) = (case.loans[n], claimed[n], bytes[n]);
        Buffer { loan, claimed, reads: case.row.reads, bytes }
    })
}

/// Holds the second program to what is known beforehand: the written answers, and that
/// what is rebuilt of an encoded stripe is what was lost of it.
fn check_second(
    second: &Second,
    case: &Case,
    filled: &Filled,
    answer: Answer,
    after: &Lent,
) -> Result<(), String> {
    let who = "the second program gave";
    if let Fill::Written(n) = case.fill {
        same_answer(who, WRITTEN[n].answer, answer)?;
        same_bytes(who, "stripe", case, WRITTEN[n].after, &after.stripe)?;
        same_bytes(who, "spare", case, WRITTEN[n].spare_after, &after.spare)?;
    }
    if let Some(known) = case.known(second) {
        same_answer(who, known, answer)?;
    }
    if case.fill == Fill::Encoded && answer.refusal == 0 {
        if let Some([lost, back]) = (case.row.back)(case, filled, &answer, after) {
            same_bytes(who, "what was lost", case, lost, back)?;
        }
    }
    Ok(())
}
