//! Fuzzes the proved library and the listing program against the independent implementations.
//!
//! `fuzz [--seconds N | --cases N] [--seed S] [--first N] [--calls form,compile,read,listing]`
//!
//! Prints the version and its seed first. The cases of a seed are the same at each run; all run in a child process,
//! so a crash is reported like a wrong answer. At a failure prints the smallest failing case that it finds, with both
//! answers, and exits with status 1. It also fails where, of enough cases, an answer came seldomer than the table of
//! calls says.

use host::answers::{answer_name, ANSWERS};
use host::calls::lender::Lender;
use host::calls::{Call, CALLS};
use host::fuzz::case::Case;
use host::fuzz::child::{end_after, in_child, shared_numbers, Ended};
use host::fuzz::make::case;
use host::fuzz::shrink::smallest;
use std::env;
use std::process::ExitCode;
use std::sync::atomic::{AtomicU64, Ordering::Relaxed};
use std::time::{Duration, Instant, SystemTime, UNIX_EPOCH};

/// How long the fuzzer runs where no argument says.
const SECONDS: u64 = 60;

/// After this many seconds in one case its process is ended.
const PATIENCE: u32 = 20;

/// After a failure this many cases are looked at, for this time, for the smallest that fails.
const LOOKED_AT: u64 = 2_000;
const LOOKED_FOR: Duration = Duration::from_secs(10);

/// From this many cases on, every answer must have come as often as the table of calls says.
const ENOUGH: u64 = 100_000;

/// The cases that the table's least counts are of.
const COUNTED_OF: u64 = 100_000;

/// What the arguments ask for.
struct Options {
    seed: u64,
    first: u64,
    cases: u64,
    time: Duration,
    calls: Vec<&'static Call>,
}

/// What the child process tells its parent: the case it is at, and how often each call gave each answer.
struct Progress {
    at: &'static AtomicU64,
    counts: &'static [AtomicU64],
}

/// Runs the cases and reports.
fn main() -> ExitCode {
    let options = match options() {
        Ok(options) => options,
        Err(wrong) => {
            eprintln!("fuzz: {wrong}");
            return ExitCode::from(2);
        }
    };
    println!(
        "drumbook {}, seed {}",
        env!("DRUMBOOK_VERSION"),
        options.seed
    );
    let progress = progress();
    let ended = in_child(|| run(&options, &progress));
    progress.print(&options.calls);
    if ended != Ended::Well {
        report(&options, progress.at.load(Relaxed));
        return ExitCode::FAILURE;
    }
    match progress.seldom(&options.calls) {
        Some(seldom) => {
            println!("FAILED: {seldom}");
            ExitCode::FAILURE
        }
        None => ExitCode::SUCCESS,
    }
}

/// What the arguments ask for, or what is wrong with them.
fn options() -> Result<Options, String> {
    let mut options = Options {
        seed: clock(),
        first: 0,
        cases: u64::MAX,
        time: Duration::MAX,
        calls: CALLS.to_vec(),
    };
    let mut arguments = env::args().skip(1);
    while let Some(name) = arguments.next() {
        let value = arguments.next().ok_or(format!("{name} needs a value"))?;
        match name.as_str() {
            "--seconds" => options.time = Duration::from_secs(number(&value)?),
            "--cases" => options.cases = number(&value)?,
            "--seed" => options.seed = number(&value)?,
            "--first" => options.first = number(&value)?,
            "--calls" => options.calls = calls(&value)?,
            _ => return Err(format!("no such argument: {name}")),
        }
    }
    if options.cases == u64::MAX && options.time == Duration::MAX {
        options.time = Duration::from_secs(SECONDS);
    }
    Ok(options)
}

/// A seed from the clock.
fn clock() -> u64 {
    let since = SystemTime::now().duration_since(UNIX_EPOCH);
    since.map_or(0, |time| time.as_micros() as u64)
}

/// The number that an argument has.
fn number(value: &str) -> Result<u64, String> {
    value.parse().map_err(|_| format!("no number: {value}"))
}

/// The calls that an argument names.
fn calls(value: &str) -> Result<Vec<&'static Call>, String> {
    let named = |word: &str| CALLS.into_iter().find(|call| call.name == word);
    value
        .split(',')
        .map(|word| named(word).ok_or(format!("no such call: {word}")))
        .collect()
}

/// Runs the cases until one fails or all are done; whether none failed.
fn run(options: &Options, progress: &Progress) -> bool {
    let begun = Instant::now();
    let mut lender = Lender::default();
    for number in options.first..options.first.saturating_add(options.cases) {
        if begun.elapsed() >= options.time {
            break;
        }
        progress.at.store(number, Relaxed);
        end_after(PATIENCE);
        let case = case(options.seed, number, &options.calls);
        let wanted = case.wanted();
        if case.given(&mut lender) != wanted {
            return false;
        }
        progress.count(case.call, wanted.number());
    }
    true
}

/// Nothing done yet.
fn progress() -> Progress {
    let numbers = shared_numbers(1 + CALLS.len() * ANSWERS);
    Progress {
        at: &numbers[0],
        counts: &numbers[1..],
    }
}

impl Progress {
    /// How often a call gave each answer.
    fn counts_of(&self, call: &Call) -> &[AtomicU64] {
        let place = CALLS.iter().position(|other| *other == call);
        &self.counts[place.expect("a call of the table") * ANSWERS..][..ANSWERS]
    }

    /// Counts an answer of a call.
    fn count(&self, call: &Call, number: u32) {
        self.counts_of(call)[number as usize].fetch_add(1, Relaxed);
    }

    /// How often a call gave this answer.
    fn given(&self, call: &Call, number: u32) -> u64 {
        self.counts_of(call)[number as usize].load(Relaxed)
    }

    /// How often a call was made.
    fn total(&self, call: &Call) -> u64 {
        let counts = self.counts_of(call).iter();
        counts.map(|count| count.load(Relaxed)).sum()
    }

    /// Prints how often each of these calls gave each answer.
    fn print(&self, calls: &[&Call]) {
        for call in calls {
            let each: Vec<String> = (0..ANSWERS as u32)
                .map(|number| (number, self.given(call, number)))
                .filter(|&(_, given)| given > 0)
                .map(|(number, given)| format!("{} {given} times", answer_name(number)))
                .collect();
            let (name, total) = (call.name, self.total(call));
            println!("{name}: {total} cases; answers: {}", each.join(", "));
        }
    }

    /// What one of these calls answered less often than the table says, if there were cases enough to tell.
    fn seldom(&self, calls: &[&Call]) -> Option<String> {
        let all: u64 = calls.iter().map(|call| self.total(call)).sum();
        if all < ENOUGH {
            return None;
        }
        for call in calls {
            let (name, total) = (call.name, self.total(call));
            for &(number, least) in call.answers {
                let given = self.given(call, number);
                let due = (total * least / COUNTED_OF).max(1);
                if given < due {
                    let answer = answer_name(number);
                    return Some(format!("{name} answered {answer} {given} times, not {due}"));
                }
            }
        }
        None
    }
}

/// Prints the case that failed, the smallest that still does, and both answers to that.
fn report(options: &Options, number: u64) {
    let seed = options.seed;
    let calls: Vec<&str> = options.calls.iter().map(|call| call.name).collect();
    let calls = calls.join(",");
    println!(
        "FAILED: case {number}; again: --seed {seed} --first {number} --cases 1 --calls {calls}"
    );
    let mut fails = |case: &Case| alone(case, false) != Ended::Well;
    let begun = Instant::now();
    let failed = (number..number.saturating_add(LOOKED_AT))
        .take_while(|_| begun.elapsed() < LOOKED_FOR)
        .map(|at| case(seed, at, &options.calls))
        .filter(|case| fails(case))
        .min_by_key(Case::size)
        .unwrap_or_else(|| case(seed, number, &options.calls));
    let smallest = smallest(failed, &mut fails);
    print!("the smallest case found that fails: {smallest}");
    print!("wanted: {}", smallest.call.told(&smallest.wanted()));
    match alone(&smallest, true) {
        Ended::Signal(signal) => println!("given: ended by signal {signal}"),
        Ended::Badly => (),
        Ended::Well => println!("given: as wanted when tried alone"),
    }
}

/// How a case ends in a process of its own: well if both answers agree; what is given is printed where it is to be
/// shown.
fn alone(case: &Case, show: bool) -> Ended {
    in_child(|| {
        end_after(PATIENCE);
        let given = case.given(&mut Lender::default());
        if show {
            print!("given: {}", case.call.told(&given));
        }
        given == case.wanted()
    })
}
