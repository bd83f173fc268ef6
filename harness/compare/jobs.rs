//! Compares the program that reads jobs with the second program, a process a job; looks at
//! what it does where it can't read; and holds both to the stored jobs.

use crate::calls::CALLS;
use crate::cases::all::All;
use crate::failing;
use crate::options::Options;
use crate::program::Program;
use crate::progress::Progress;
use crate::random::Random;
use crate::second::call::Answer;
use crate::second::job;
use crate::second::shapes::Second;
use crate::stored;
use crate::tally::Tally;

/// The listed jobs and `random` random ones. Gives what was compared, or the line that says
/// what went wrong.
pub fn run(options: &Options, random: usize) -> Result<Tally, String> {
    let second = Second::new();
    let all = All::new(CALLS, &second, options.seed);
    let chosen = options.only.map_or_else(|| all.jobs(random), |n| vec![n]);
    let program = Program(&options.command);
    if options.only.is_none() {
        let failed = failing::run(&program).map_err(|found| format!("A READ OR WRITE THAT FAILS: {found}"))?;
        println!("{failed} processes had a read that failed: each said so and answered nothing;");
        println!("one could not write its answer, and said so");
        if let Some(folder) = &options.stored {
            let stored = stored::run(&program, &second, folder, options.seed);
            let count = stored.map_err(|found| format!("A STORED JOB: {found}"))?;
            println!("{count} stored jobs gave their stored outputs");
        }
    }
    let mut progress = Progress::new(chosen.len());
    let mut tally = Tally::default();
    for n in chosen {
        let case = all.case(n);
        let Some(sent) = case.sent else {
            return Err(format!("case {n} is no job"));
        };
        let job = case.filled(&second, options.seed, n).lent.bytes;
        let expected = job::answer(&second, &job).map_err(|found| format!("the second program: {found}"))?;
        if let Err(found) = program.same_answer(&job, &expected, &mut Random::new(options.seed, n as u64)) {
            progress.end();
            let replay = format!("harness/jobs.sh --seed {} --only {n}", options.seed);
            return Err(format!("DIFFERENT: job ({sent:?}): {found}\n  replay: {replay}"));
        }
        tally.add(case.row, Answer::answered(expected[3] as u64, expected.len() as u64));
        progress.step();
    }
    progress.end();
    Ok(tally)
}
