//! The programs `plan` and `check_list` as processes.

use std::io::{Read, Write};
use std::os::fd::AsRawFd;
use std::path::Path;
use std::process::{Child, ChildStdin, Command, Stdio};

use reference::random::Random;

#[derive(Clone, Copy, Debug)]
pub enum Program {
    Plan,
    Check,
}

/// How a book comes to a program.
#[derive(Clone, Copy, Debug)]
pub enum Arrival {
    /// In one write.
    Whole,
    /// One byte at a time, each when the one before it has been read.
    ByteByByte,
    /// In pieces of 1 to 997 bytes, each when the one before it has been read.
    InPieces,
}

impl Arrival {
    pub fn class(self) -> &'static str {
        match self {
            Arrival::Whole => "program: whole",
            Arrival::ByteByByte => "program: byte by byte",
            Arrival::InPieces => "program: in pieces",
        }
    }

    fn piece(self, random: &mut Random, left: usize) -> usize {
        let size = match self {
            Arrival::Whole => left,
            Arrival::ByteByByte => 1,
            Arrival::InPieces => random.choose(&[1, 3, 7, 13, 97, 511, 513, 997]),
        };
        size.min(left)
    }
}

/// The bytes of a pipe that nobody has read yet.
fn unread(pipe: &ChildStdin) -> i32 {
    extern "C" {
        fn ioctl(file: i32, request: u64, bytes: *mut i32) -> i32;
    }
    const BYTES_UNREAD: u64 = 0x541B;
    let mut bytes = 0;
    // Linux writes one 32-bit number.
    let status = unsafe { ioctl(pipe.as_raw_fd(), BYTES_UNREAD, &mut bytes) };
    assert_eq!(status, 0, "a pipe does not tell what is unread");
    bytes
}

/// Writes the book into the program's input and closes it. A program that has read enough may end before.
fn feed(random: &mut Random, child: &mut Child, book: &[u8], arrival: Arrival) {
    let mut input = child.stdin.take().expect("the input is a pipe");
    let mut left = book;
    while !left.is_empty() {
        let size = arrival.piece(random, left.len());
        if input.write_all(&left[..size]).is_err() {
            return;
        }
        left = &left[size..];
        while !left.is_empty() && unread(&input) > 0 {
            if child.try_wait().expect("a process can be asked").is_some() {
                return;
            }
            std::thread::yield_now();
        }
    }
}

impl Program {
    pub const ALL: [Program; 2] = [Program::Plan, Program::Check];

    pub fn name(self) -> &'static str {
        match self {
            Program::Plan => "program plan",
            Program::Check => "program check",
        }
    }

    /// What the program prints, or how else it ends.
    pub fn run(self, random: &mut Random, book: &[u8], arrival: Arrival) -> Result<String, String> {
        let folder = Path::new(env!("CARGO_MANIFEST_DIR")).join("../../../target/bin");
        let program = folder.join(match self {
            Program::Plan => "plan",
            Program::Check => "check_list",
        });
        let mut child = Command::new(program)
            .stdin(Stdio::piped())
            .stdout(Stdio::piped())
            .stderr(Stdio::piped())
            .spawn()
            .map_err(|error| format!("it cannot be run: {error}"))?;
        feed(random, &mut child, book, arrival);
        let (mut printed, mut said) = (String::new(), String::new());
        let mut output = child.stdout.take().expect("the output is a pipe");
        let mut errors = child.stderr.take().expect("the errors are a pipe");
        output
            .read_to_string(&mut printed)
            .and(errors.read_to_string(&mut said))
            .map_err(|error| format!("it prints no text: {error}"))?;
        let status = child.wait().map_err(|error| error.to_string())?;
        if status.success() && said.is_empty() {
            Ok(printed)
        } else {
            Err(format!(
                "{status}, it said {said:?} and printed {printed:?}"
            ))
        }
    }
}
