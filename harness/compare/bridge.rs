//! The pipe to the bridge, the program that makes the library's calls.

use crate::cases::loans::{Loan, Place, BUFFERS};
use crate::second::call::{Answer, Call};
use std::io::{self, Read, Write};
use std::process::{Child, ChildStdin, ChildStdout, Command, Stdio};

/// A buffer as it is lent: how, the length that the call is told, whether sealed bytes may
/// be read, and the bytes.
pub struct Buffer<'a> {
    pub loan: Loan,
    pub claimed: u64,
    pub reads: bool,
    pub bytes: &'a [u8],
}

/// What came back: which guard bytes changed (0 none, 1 before, 2 after, 3 both), the
/// answer, and the lent bytes.
pub struct Reply {
    pub guards: [u64; BUFFERS],
    pub answer: Answer,
    pub lent: [Vec<u8>; BUFFERS],
}

pub struct Bridge {
    child: Child,
    input: ChildStdin,
    output: ChildStdout,
}

impl Buffer<'_> {
    /// In the order of the bridge's `struct loan`.
    fn numbers(&self) -> [u64; 5] {
        let (place, offset) = match self.loan.place {
            Place::Middle(offset) => (0, offset),
            Place::BeforePage => (1, 0),
            Place::AfterPage => (2, 0),
            Place::Null => (3, 0),
        };
        let seal = match (self.loan.sealed, self.reads) {
            (false, _) => 0,
            (true, true) => 1,
            (true, false) => 2,
        };
        [self.bytes.len() as u64, self.claimed, place, offset, seal]
    }
}

impl Bridge {
    pub fn start(command: &[String]) -> io::Result<Bridge> {
        let mut child = Command::new(&command[0])
            .args(&command[1..])
            .stdin(Stdio::piped())
            .stdout(Stdio::piped())
            .spawn()?;
        let input = child.stdin.take().expect("a pipe");
        let output = child.stdout.take().expect("a pipe");
        Ok(Bridge { child, input, output })
    }

    /// Makes a call with what is lent. Where the bridge doesn't live to answer it, says how
    /// it ended.
    pub fn call(&mut self, call: &Call, lent: &[Buffer; BUFFERS]) -> Result<Reply, String> {
        let told = call.numbers().map(|(_, n)| n);
        let numbers = [call.operation.0].into_iter().chain(told).chain(lent.iter().flat_map(Buffer::numbers));
        let mut request: Vec<u8> = numbers.flat_map(u64::to_le_bytes).collect();
        lent.iter().for_each(|buffer| request.extend_from_slice(buffer.bytes));
        self.exchange(&request, lent).map_err(|_| {
            let status = self.child.wait().map_or("lost".into(), |status| status.to_string());
            format!("the bridge ended in the call ({status})")
        })
    }

    fn exchange(&mut self, request: &[u8], lent: &[Buffer; BUFFERS]) -> io::Result<Reply> {
        self.input.write_all(request)?;
        let guards = self.numbers()?;
        let answer = Answer::of(self.numbers()?);
        let mut lent = lent.each_ref().map(|buffer| vec![0; buffer.bytes.len()]);
        for bytes in &mut lent {
            self.output.read_exact(bytes)?;
        }
        Ok(Reply { guards, answer, lent })
    }

    fn numbers<const N: usize>(&mut self) -> io::Result<[u64; N]> {
        let mut bytes = [[0; 8]; N];
        self.output.read_exact(bytes.as_flattened_mut())?;
        Ok(bytes.map(u64::from_le_bytes))
    }

    /// Lets the bridge end, and has it end well.
    pub fn end(self) -> Result<(), String> {
        let Bridge { mut child, input, .. } = self;
        drop(input);
        match child.wait() {
            Ok(status) if status.success() => Ok(()),
            status => Err(format!("the bridge ended badly: {status:?}")),
        }
    }
}
