//! The programs, run on inputs that reach them through a pipe.

use crate::answers::{DONE, INPUT_TOO_LONG, INPUT_TOO_SHORT};
use crate::books::random::Random;
use crate::listing::{TOO_LONG, TOO_SHORT};
use std::env;
use std::io::{ErrorKind, Read, Write};
use std::os::fd::AsRawFd;
use std::os::unix::process::CommandExt;
use std::path::PathBuf;
use std::process::{Child, ChildStdin, Command, Stdio};
use std::thread::yield_now;

/// The environment variables that name the programs, where they stand elsewhere, and their places where none is set.
const LISTING: (&str, &str) = (
    "DRUMBOOK_LISTING",
    concat!(env!("CARGO_MANIFEST_DIR"), "/../target/bin/listing"),
);
const SHEET: (&str, &str) = (
    "DRUMBOOK_SHEET",
    concat!(env!("CARGO_MANIFEST_DIR"), "/../target/bin/sheet"),
);

/// After this many seconds a run of the program is ended.
const PATIENCE: u32 = 10;

/// The longest piece of an input.
const LONGEST_PIECE: usize = 300;

/// The request for the number of bytes in a pipe.
const FIONREAD: u64 = 0x541B;

extern "C" {
    fn alarm(seconds: u32) -> u32;
    fn ioctl(file: i32, request: u64, ...) -> i32;
}

/// How an input reaches the program.
#[derive(Clone, Copy, Debug, PartialEq, Eq)]
pub enum Delivery {
    /// In one go.
    Whole,
    /// In random pieces, by a seed, each when those before it are taken.
    Pieces(u64),
    /// A byte at a time, each when those before it are taken.
    Bytes,
}

impl Delivery {
    /// One of the three.
    pub fn any(random: &mut Random) -> Delivery {
        let seed = random.bits();
        random.pick(&[Delivery::Whole, Delivery::Pieces(seed), Delivery::Bytes])
    }

    /// The lengths of the pieces of an input.
    fn lengths(self) -> Box<dyn FnMut() -> usize> {
        match self {
            Delivery::Whole => Box::new(|| usize::MAX),
            Delivery::Bytes => Box::new(|| 1),
            Delivery::Pieces(seed) => {
                let mut random = Random::new(seed);
                Box::new(move || {
                    let most = random.pick(&[1, 4, 30, LONGEST_PIECE]);
                    random.within(1, most)
                })
            }
        }
    }
}

/// What the program printed, and its exit status, none where a signal ended it.
#[derive(Clone, Debug, PartialEq, Eq)]
pub struct Printed {
    pub output: Vec<u8>,
    pub status: Option<i32>,
}

impl Printed {
    /// The answer number that was printed, or that of the message.
    pub fn number(&self) -> u32 {
        let text = String::from_utf8_lossy(&self.output);
        let mut words = text.split_whitespace();
        match (words.next(), words.next()) {
            _ if text == TOO_LONG => INPUT_TOO_LONG,
            _ if text == TOO_SHORT => INPUT_TOO_SHORT,
            (Some("accept"), _) => DONE,
            (Some("refused"), Some(number)) => number.parse().expect("a number"),
            _ => panic!("no answer in {text}"),
        }
    }
}

/// One of the programs.
#[derive(Clone, Debug)]
pub struct Program {
    path: PathBuf,
}

impl Program {
    /// The listing program that is to be tested.
    pub fn under_test() -> Program {
        Program::at(LISTING)
    }

    /// The program `sheet` that is to be tested.
    pub fn sheet_under_test() -> Program {
        Program::at(SHEET)
    }

    /// The program that a variable names, or that stands at a place.
    fn at((variable, place): (&str, &str)) -> Program {
        let path = env::var_os(variable).map_or_else(|| PathBuf::from(place), PathBuf::from);
        assert!(path.is_file(), "no program at {}", path.display());
        Program { path }
    }

    /// Runs the program on an input.
    pub fn run(&self, input: &[u8], delivery: Delivery) -> Printed {
        let mut child = self.started();
        deliver(&mut child, input, delivery);
        let mut output = Vec::new();
        let mut from = child.stdout.take().expect("a pipe");
        from.read_to_end(&mut output).expect("the program's output");
        let status = child.wait().expect("the program's end").code();
        Printed { output, status }
    }

    /// The program, started between two pipes.
    fn started(&self) -> Child {
        let mut command = Command::new(&self.path);
        command.stdin(Stdio::piped()).stdout(Stdio::piped());
        // SAFETY: between fork and exec only the alarm is set, which exec keeps.
        unsafe {
            command.pre_exec(|| {
                alarm(PATIENCE);
                Ok(())
            });
        }
        command.spawn().expect("the program starts")
    }
}

/// Hands an input to the program, as far as it takes it, and then ends it.
fn deliver(child: &mut Child, input: &[u8], delivery: Delivery) {
    let mut pipe = child.stdin.take().expect("a pipe");
    let mut next_length = delivery.lengths();
    let mut rest = input;
    while !rest.is_empty() {
        let (piece, later) = rest.split_at(next_length().min(rest.len()));
        match pipe.write_all(piece) {
            Err(error) if error.kind() == ErrorKind::BrokenPipe => return,
            written => written.expect("the pipe takes the input"),
        }
        rest = later;
        if !rest.is_empty() {
            wait_until_taken(child, &pipe);
        }
    }
}

/// Waits until the program has taken all that is in the pipe, or has ended.
fn wait_until_taken(child: &mut Child, pipe: &ChildStdin) {
    while in_pipe(pipe) > 0 && matches!(child.try_wait(), Ok(None)) {
        yield_now();
    }
}

/// The number of bytes in the pipe.
fn in_pipe(pipe: &ChildStdin) -> i32 {
    let mut count = 0;
    // SAFETY: the request writes one number.
    let failed = unsafe { ioctl(pipe.as_raw_fd(), FIONREAD, &mut count) };
    assert!(failed == 0, "the pipe tells how full it is");
    count
}
