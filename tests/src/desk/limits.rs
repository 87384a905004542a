//! What no list of cells can say: memory, time, many reads, and files that fail.

use super::model::Desk;
use super::program::{ended, quiet_end, start, Feeding};
use super::session::Session;
use std::fs;
use std::io::{self, BufRead, BufReader, Read, Write};
use std::os::fd::OwnedFd;
use std::os::unix::net::UnixStream;
use std::path::Path;
use std::process::{Child, Command, Stdio};
use std::time::{Duration, Instant};

const MEGABYTE: usize = 1 << 20;
const MEGABYTES: usize = 256;

/// More than 16 bits can count.
const LINES: usize = 70_000;

/// What it says on standard error when a file fails, once.
const NOT_READ: &[u8] = b"bradawlet: standard input could not be read\n";
const NOT_WRITTEN: &[u8] = b"bradawlet: standard output could not be written\n";

/// Many times what the program takes, in kB and in seconds.
const MUCH_MEMORY: u64 = 8_192;
const LONG: Duration = Duration::from_secs(30);

/// A line of a quarter of a gigabyte is one bad line, takes no memory and not long.
pub fn endless_line(program: &Path) -> io::Result<bool> {
    let mut child = start(program)?;
    let mut stdin = child.stdin.take().expect("a pipe");
    let begun = Instant::now();
    for _ in 0..MEGABYTES {
        stdin.write_all(&[b'7'; MEGABYTE])?;
    }
    let memory = peak_memory(child.id())?;
    stdin.write_all(b"\nwhen 0 0 0 0 0 0\n")?;
    drop(stdin);
    let mut written = String::new();
    child.stdout.take().expect("a pipe").read_to_string(&mut written)?;
    let took = begun.elapsed();
    quiet_end(child)?;
    println!("desk, a line of 256 MB: {memory} kB at most, {} ms", took.as_millis());
    Ok(written == "bad\nhits 0\n" && memory < MUCH_MEMORY && took < LONG)
}

/// The most memory that a process has held so far, in kB.
fn peak_memory(process: u32) -> io::Result<u64> {
    let status = fs::read_to_string(format!("/proc/{process}/status"))?;
    let peak = status.lines().find_map(|line| line.strip_prefix("VmHWM:"));
    let number = peak.and_then(|text| text.trim().trim_end_matches(" kB").parse().ok());
    number.ok_or_else(|| io::Error::other("no VmHWM"))
}

/// A talk of many reads: each line is written when the one before it has its answer, so each is a read
/// of its own. The cell of the first line is there to the last.
pub fn long_talk(program: &Path) -> bool {
    let mut desk = Desk::fresh();
    let mut session = Session::default();
    session.add(&mut desk, b"cell 7 100 200 5 -3 10 40");
    for _ in 0..LINES {
        session.add(&mut desk, b"when 20 20 150 150 170 170");
    }
    session.add(&mut desk, b"drop 7 12");
    session.agrees(program, "long talk", Feeding::Talk, 0)
}

/// Feeds it lines until it is gone, or for too long.
fn fed_until_gone(child: &mut Child) -> bool {
    let mut stdin = child.stdin.take().expect("a pipe");
    let begun = Instant::now();
    while stdin.write_all(b"when 0 0 0 0 0 0\n").is_ok() && begun.elapsed() < LONG {}
    begun.elapsed() < LONG
}

/// Its output is a device that takes nothing.
fn with_full_output(program: &Path) -> io::Result<Child> {
    let full = fs::OpenOptions::new().write(true).open("/dev/full")?;
    Command::new(program).stdin(Stdio::piped()).stdout(full).stderr(Stdio::piped()).spawn()
}

/// The program ends by itself, and soon, where nobody reads its output or the output takes nothing.
pub fn closed_output(program: &Path) -> io::Result<bool> {
    let mut unread = start(program)?;
    drop(unread.stdout.take());
    let ends_unread = fed_until_gone(&mut unread) && ended(unread)? == NOT_WRITTEN;
    let mut refused = with_full_output(program)?;
    let ends_refused = fed_until_gone(&mut refused);
    Ok(ends_unread && ends_refused && ended(refused)? == NOT_WRITTEN)
}

/// The last line has no line feed, so its answer comes at the end of the input, and the output refuses it.
pub fn refused_last_answer(program: &Path) -> io::Result<bool> {
    let mut refused = with_full_output(program)?;
    refused.stdin.take().expect("a pipe").write_all(b"when 0 0 0 0 0 0")?;
    Ok(ended(refused)? == NOT_WRITTEN)
}

/// An input that cannot be read gets no answer.
pub fn closed_input(program: &Path) -> io::Result<bool> {
    let closed = Command::new("sh").arg("-c").arg("exec \"$0\" <&-").arg(program).output()?;
    Ok(closed.status.success() && closed.stdout.is_empty() && closed.stderr == NOT_READ)
}

/// A read that fails is no end of the input: what is held of a line is not answered.
pub fn failed_read(program: &Path) -> io::Result<bool> {
    let (mut near, mut far) = UnixStream::pair()?;
    // Bytes that nobody has read when the far end is closed make the next read of the near end fail.
    near.write_all(b"unread")?;
    let stdin = Stdio::from(OwnedFd::from(near));
    let mut child =
        Command::new(program).stdin(stdin).stdout(Stdio::piped()).stderr(Stdio::piped()).spawn()?;
    let mut stdout = BufReader::new(child.stdout.take().expect("a pipe"));
    far.write_all(b"when 0 0 0 0 0 0\nwhen 0 0 0 0 0 0")?;
    let mut written = String::new();
    stdout.read_line(&mut written)?;
    drop(far);
    stdout.read_to_string(&mut written)?;
    Ok(written == "hits 0\n" && ended(child)? == NOT_READ)
}
