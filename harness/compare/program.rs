//! The program that reads a job on its standard input.

use crate::random::Random;
use crate::report::in_hexadecimal;
use std::io::{Read, Write};
use std::process::{Child, Command, Stdio};
use std::thread;
use std::time::Duration;

/// The words that start it.
pub struct Program<'a>(pub &'a [String]);

impl Program<'_> {
    pub fn start(&self, input: Stdio, output: Stdio, errors: Stdio) -> Result<Child, String> {
        let mut command = Command::new(&self.0[0]);
        command.args(&self.0[1..]).stdin(input).stdout(output).stderr(errors);
        command.spawn().map_err(|error| format!("the program: {error}"))
    }

    /// Gives a job to a fresh process, and has it write that answer and end well.
    pub fn same_answer(&self, job: &[u8], expected: &[u8], random: &mut Random) -> Result<(), String> {
        let mut child = self.start(Stdio::piped(), Stdio::piped(), Stdio::inherit())?;
        let mut input = child.stdin.take().expect("a pipe");
        let mut output = child.stdout.take().expect("a pipe");
        let parts = parts(job, random);
        let mut came = Vec::new();
        let read = thread::scope(|scope| {
            // A program that has seen enough needn't take the rest.
            scope.spawn(move || {
                for part in parts {
                    if input.write_all(part).is_err() {
                        return;
                    }
                    thread::sleep(Duration::from_micros(if part.len() < job.len() { 500 } else { 0 }));
                }
            });
            output.read_to_end(&mut came)
        });
        let status = child.wait();
        let at = expected.iter().zip(&came).take_while(|(expected, came)| expected == came).count();
        let told = [("job", job), ("expected", expected), ("came", &came)]
            .map(|(what, bytes)| format!("\n  {what:8} {}", in_hexadecimal(bytes)))
            .concat();
        match (read, status) {
            (Ok(_), Ok(status)) if status.success() && came == expected => Ok(()),
            (Ok(_), Ok(status)) if status.success() => Err(format!("another answer from byte {at} on{told}")),
            (read, status) => Err(format!("the program ended badly ({read:?}, {status:?}){told}")),
        }
    }
}

/// A pipe gives what it has: a job may come at once or in up to four parts.
fn parts<'a>(job: &'a [u8], random: &mut Random) -> Vec<&'a [u8]> {
    let mut rest = job;
    let mut parts = Vec::new();
    for _ in 0..random.below(4) {
        let (part, after) = rest.split_at(random.below(rest.len().min(100) + 1));
        parts.push(part);
        rest = after;
    }
    parts.push(rest);
    parts
}
