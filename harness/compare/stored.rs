//! Jobs of the form that kits send, stored with the outputs that they have to give: a folder
//! for each kit, in it the files NAME.job and NAME.output. Both programs are held to them.

use crate::program::Program;
use crate::random::Random;
use crate::second::job;
use crate::second::shapes::{Second, CODES};
use std::collections::BTreeMap;
use std::fs;
use std::path::{Path, PathBuf};

struct Stored {
    job: Vec<u8>,
    output: Vec<u8>,
}

/// By their names.
type Kit = BTreeMap<String, Stored>;
type Kits = BTreeMap<String, Kit>;

/// Gives how many stored jobs gave their stored outputs, or what went wrong.
pub fn run(program: &Program, second: &Second, folder: &Path, seed: u64) -> Result<usize, String> {
    let folders = entries(folder)?.into_iter().filter(|entry| entry.is_dir());
    let kits = folders.map(|kit| Ok((name(&kit), read(&kit)?))).collect::<Result<Kits, String>>()?;
    are_right(&kits)?;
    let mut count = 0;
    for (kit, jobs) in &kits {
        for (name, stored) in jobs {
            let held = stored.holds(program, second, &mut Random::new(seed, count));
            held.map_err(|found| format!("{kit}/{name}: {found}"))?;
            count += 1;
        }
    }
    Ok(count as usize)
}

/// The night kit's jobs are answered 0, 11 and 12. The forgetting kit's are the same without
/// field 03, and are refused with 5. The new kit's have no field 03 either, are of every code
/// with p = 3 and p = 5, and their stripes come back.
fn are_right(kits: &Kits) -> Result<(), String> {
    let of = |kit: &str| kits.get(kit).ok_or(format!("{kit} is missing"));
    let [night, forgetting, new] = [of("night-kit")?, of("forgetting-kit")?, of("new-kit")?];
    let mended = forgetting.iter().map(|(name, stored)| (name, stored.with_cell_512()));
    let jobs = night.iter().map(|(name, stored)| (name, stored.job.clone()));
    let answers = [0, 11, 12].map(|answer| night.values().any(|stored| stored.answer() == Some(answer)));
    let mut shapes = CODES.into_iter().flat_map(|code| [(code as u8, 3), (code as u8, 5)]);
    let holds = |rule: bool, broken: &str| rule.then_some(()).ok_or(broken.to_string());
    holds(answers == [true; 3], "night-kit: no job is 0, or none 11, or none 12")?;
    holds(mended.eq(jobs), "a job of forgetting-kit with field 03 = 512 is not night-kit's")?;
    holds(forgetting.values().all(|stored| stored.answer() == Some(5)), "forgetting-kit: a job is not 5")?;
    holds(new.values().all(|stored| stored.answer() == Some(0)), "new-kit: a job is not 0")?;
    holds(new.values().all(|stored| !stored.tells_cell()), "new-kit: a job has field 03")?;
    let there = |(code, p)| new.values().any(|stored| stored.is_of(code, p));
    holds(shapes.all(there), "new-kit: a code is missing with p = 3 or p = 5")
}

/// Where field 03 starts if it is there: fields 01 and 02 have four bytes each.
const CELL_AT: usize = 8;

impl Stored {
    fn read(job: &Path) -> Result<Stored, String> {
        Ok(Stored { job: bytes(job)?, output: bytes(&job.with_extension("output"))? })
    }

    /// The contents of fields 01 and 02.
    fn is_of(&self, code: u8, p: u8) -> bool {
        [self.job.get(3), self.job.get(7)] == [Some(&code), Some(&p)]
    }

    fn tells_cell(&self) -> bool {
        self.job.get(CELL_AT) == Some(&3)
    }

    fn with_cell_512(&self) -> Vec<u8> {
        let (before, after) = self.job.split_at(CELL_AT.min(self.job.len()));
        [before, &[0x03, 0x00, 0x02, 0x02, 0x00], after].concat()
    }

    /// The content of field 06, with which an output starts.
    fn answer(&self) -> Option<u8> {
        self.output.get(3).copied()
    }

    fn holds(&self, program: &Program, second: &Second, random: &mut Random) -> Result<(), String> {
        if job::answer(second, &self.job)? != self.output {
            return Err("another answer of the second program".into());
        }
        program.same_answer(&self.job, &self.output, random)
    }
}

/// The jobs of a kit: there have to be some, each with its output, and nothing else.
fn read(kit: &Path) -> Result<Kit, String> {
    let files = entries(kit)?;
    let jobs = files.iter().filter(|file| file.extension().is_some_and(|kind| kind == "job"));
    let read = jobs.map(|job| Ok((name(job), Stored::read(job)?))).collect::<Result<Kit, String>>()?;
    match read.len() {
        0 => Err(format!("{} has no job", kit.display())),
        jobs if files.len() != 2 * jobs => Err(format!("{} has a file too many", kit.display())),
        _ => Ok(read),
    }
}

fn entries(folder: &Path) -> Result<Vec<PathBuf>, String> {
    let entries = fs::read_dir(folder).and_then(|entries| entries.map(|entry| Ok(entry?.path())).collect());
    entries.map_err(|error| format!("{}: {error}", folder.display()))
}

fn bytes(file: &Path) -> Result<Vec<u8>, String> {
    fs::read(file).map_err(|error| format!("{}: {error}", file.display()))
}

fn name(path: &Path) -> String {
    path.file_stem().unwrap_or_default().to_string_lossy().into_owned()
}
