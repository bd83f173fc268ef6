//! Reads of standard input that fail. The program has to say so in one line on standard
//! error, to answer nothing, and to end: it never takes a part for the whole. And a write
//! of the answer that fails, which it has to say too.

use crate::cases::written::{JOB_ANSWER, JOB_BYTES};
use crate::program::Program;
use crate::report::in_hexadecimal;
use std::fs::File;
use std::hint;
use std::io::{self, pipe, PipeWriter, Write};
use std::os::fd::{AsRawFd, FromRawFd, OwnedFd};
use std::os::unix::net::UnixStream;
use std::process::{Child, Output, Stdio};
use std::sync::atomic::{AtomicBool, Ordering};
use std::thread;
use std::time::{Duration, Instant};

// Of the C library that Rust's own is linked with.
extern "C" {
    fn fcntl(file: i32, command: i32, ...) -> i32;
    fn ioctl(file: i32, request: u64, ...) -> i32;
    fn socketpair(domain: i32, kind: i32, protocol: i32, pair: *mut i32) -> i32;
}

const SET_FLAGS: i32 = 4;
const NONBLOCKING: i32 = 0o4000;
const WAITING_BYTES: u64 = 0x541B;
const LOCAL: i32 = 1;
const PACKETS: i32 = 5;

/// How often a job comes so that a failing read is likely, and bytes after it.
const RACES: usize = 100;

/// How long a program that doesn't end is left without the rest of its job.
const PATIENCE: Duration = Duration::from_secs(5);

/// Gives how many processes had a read that failed, or what went wrong.
pub fn run(program: &Program) -> Result<usize, String> {
    let mut failed = 0;
    for (what, file) in [("a directory", File::open("/")), ("a file to be written", writable())] {
        program.fails(what, Stdio::from(file.map_err(told)?))?;
        failed += 1;
    }
    for cut in 0..=JOB_BYTES.len() {
        let part = &JOB_BYTES[..cut];
        program.fails(&format!("{cut} bytes, an error, the end"), stream(part).map_err(told)?)?;
        program.drained(cut)?;
        failed += 2;
    }
    program.fails("an error, the job, the end", packets(&JOB_BYTES).map_err(told)?)?;
    failed += 1;
    for n in 0..RACES {
        failed += program.raced(n % JOB_BYTES.len())? as usize;
    }
    program.unwritten()?;
    Ok(failed)
}

fn told(error: io::Error) -> String {
    format!("can't open what it reads or writes: {error}")
}

fn writable() -> io::Result<File> {
    File::options().write(true).open("/dev/null")
}

/// A device that takes no byte.
fn full() -> io::Result<File> {
    File::options().write(true).open("/dev/full")
}

/// A connection that was cut off: its reads give the part, then fail once, then give the
/// end. It is cut off since a byte sent the other way was never read.
fn stream(part: &[u8]) -> io::Result<Stdio> {
    let (mut ours, mut theirs) = UnixStream::pair()?;
    theirs.write_all(&[0])?;
    ours.write_all(part)?;
    Ok(Stdio::from(OwnedFd::from(theirs)))
}

/// The same of packets: its reads fail once, then give the job, then the end.
fn packets(job: &[u8]) -> io::Result<Stdio> {
    let mut pair = [0; 2];
    if unsafe { socketpair(LOCAL, PACKETS, 0, pair.as_mut_ptr()) } != 0 {
        return Err(io::Error::last_os_error());
    }
    let [mut ours, mut theirs] = pair.map(|file| unsafe { File::from_raw_fd(file) });
    theirs.write_all(&[0])?;
    ours.write_all(job)?;
    Ok(Stdio::from(theirs))
}

/// A pipe that holds a part of the job. Where it is empty and not closed a read fails.
fn nonblocking(part: &[u8]) -> io::Result<(Stdio, PipeWriter)> {
    let (reader, mut writer) = pipe()?;
    if unsafe { fcntl(reader.as_raw_fd(), SET_FLAGS, NONBLOCKING) } != 0 {
        return Err(io::Error::last_os_error());
    }
    writer.write_all(part)?;
    Ok((Stdio::from(reader), writer))
}

/// How many bytes of a pipe are not read yet.
fn waiting_bytes(pipe: &PipeWriter) -> i32 {
    let mut bytes = 0;
    match unsafe { ioctl(pipe.as_raw_fd(), WAITING_BYTES, &mut bytes) } {
        0 => bytes,
        _ => 0,
    }
}

impl Program<'_> {
    /// Some read of that input fails.
    fn fails(&self, what: &str, input: Stdio) -> Result<(), String> {
        let child = self.start(input, Stdio::piped(), Stdio::piped())?;
        has_failed(&ended(child)?, "standard input").map_err(|found| format!("{what}: {found}"))
    }

    /// The job comes whole, and its answer can't be written.
    fn unwritten(&self) -> Result<(), String> {
        let (input, writer) = nonblocking(&JOB_BYTES).map_err(told)?;
        drop(writer);
        let child = self.start(input, Stdio::from(full().map_err(told)?), Stdio::piped())?;
        has_failed(&ended(child)?, "standard output").map_err(|found| format!("no room to write: {found}"))
    }

    /// The read after the first bytes of the job fails: the others come only when the
    /// program has ended, or has had the time to.
    fn drained(&self, cut: usize) -> Result<(), String> {
        let (part, rest) = JOB_BYTES.split_at(cut);
        let (input, mut writer) = nonblocking(part).map_err(told)?;
        let mut child = self.start(input, Stdio::piped(), Stdio::piped())?;
        let started = Instant::now();
        while child.try_wait().is_ok_and(|status| status.is_none()) && started.elapsed() < PATIENCE {
            thread::sleep(Duration::from_micros(200));
        }
        // There may be none to read it.
        let _ = writer.write_all(rest);
        drop(writer);
        let told = |found| format!("{cut} bytes, then none yet: {found}");
        has_failed(&ended(child)?, "standard input").map_err(told)
    }

    /// The other bytes of the job come one by one, each as soon as those before it are
    /// read: some read fails, and a byte may come right after it; or none fails, and the
    /// answer is right. Gives which.
    fn raced(&self, cut: usize) -> Result<bool, String> {
        let (part, rest) = JOB_BYTES.split_at(cut);
        let (input, mut writer) = nonblocking(part).map_err(told)?;
        let child = self.start(input, Stdio::piped(), Stdio::piped())?;
        let over = AtomicBool::new(false);
        let output = thread::scope(|scope| {
            scope.spawn(|| {
                for &byte in rest {
                    while waiting_bytes(&writer) > 0 && !over.load(Ordering::Relaxed) {
                        hint::spin_loop();
                    }
                    let _ = writer.write_all(&[byte]);
                }
                drop(writer);
            });
            let output = ended(child);
            over.store(true, Ordering::Relaxed);
            output
        })?;
        if output.stderr.is_empty() && output.stdout == JOB_ANSWER {
            return Ok(false);
        }
        has_failed(&output, "standard input")
            .map_err(|found| format!("{cut} bytes, the others one by one: {found}"))?;
        Ok(true)
    }
}

fn ended(child: Child) -> Result<Output, String> {
    child.wait_with_output().map_err(|error| format!("the program: {error}"))
}

/// 124 and more is how `timeout` tells of a program that had to be ended.
fn has_failed(output: &Output, file: &str) -> Result<(), String> {
    let errors = String::from_utf8_lossy(&output.stderr);
    let one_line = errors.ends_with('\n') && errors.lines().count() == 1 && errors.contains(file);
    let itself = output.status.code().is_some_and(|code| code < 124);
    if output.stdout.is_empty() && one_line && itself {
        return Ok(());
    }
    let came = in_hexadecimal(&output.stdout);
    Err(format!("it wrote {came}, on standard error {errors:?}, and ended with {}", output.status))
}
