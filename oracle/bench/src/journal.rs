//! Times the journal program per line, by the processor's time: the Rust has none to
//! set beside it.

use std::env;
use std::fs::{self, File};
use std::io;
use std::path::{Path, PathBuf};
use std::process::{self, Command, ExitCode, Stdio};

use throttle::scope::PLACES;

const RUNS: u32 = 150;

pub fn print(program: &str) -> ExitCode {
    println!("| Lines | ns a line |");
    println!("|---|---|");
    let ratio = |window: usize| format!("R {window} 3ff0000000000000 {window} 1000 1 1\n");
    let windowed = |period: usize| format!("W 4096 {period} 1000 1 1\n");
    let rows = [
        ("admission, no list", "C 9 1000 1 1\n".into(), 0, "A"),
        ("success, Ratio, 1 outcome", ratio(1), 1, "S 0 0"),
        (
            "success, Ratio, 4,096 outcomes",
            ratio(PLACES),
            PLACES,
            "S 0 0",
        ),
        ("failure, Windowed, 1 time", windowed(0), 1, "F 0 0"),
        (
            "failure, Windowed, 4,001 times",
            windowed(4000),
            4001,
            "F 0 0",
        ),
    ];
    for (name, header, before, op) in rows {
        match per_line(program, &header, before, op) {
            Ok(ns) => println!("| {name} | {ns:.0} |"),
            Err(error) => {
                eprintln!("{program}: {error}");
                return ExitCode::FAILURE;
            }
        }
    }
    ExitCode::SUCCESS
}

/// The lines past the first ones, which fill the list: a journal with them, less
/// one without them.
fn per_line(program: &str, header: &str, before: usize, op: &str) -> io::Result<f64> {
    const MORE: usize = 1200;
    let journal = |lines: usize| {
        let line = |i: usize| format!("{} {op}\n", 1000 + i);
        header.to_owned() + &(0..lines).map(line).collect::<String>()
    };
    let (short, long) = (journal(before), journal(before + MORE));
    assert!(long.len() <= 65_536, "a journal is no longer");
    let (short, long) = (Stored::new("short", &short)?, Stored::new("long", &long)?);
    let answers = Command::new(program).stdin(File::open(&long.0)?).output()?;
    let answers = String::from_utf8_lossy(&answers.stdout).into_owned();
    let refused = answers.lines().any(|line| line.starts_with('E'));
    if refused || answers.lines().count() != before + MORE {
        return Err(io::Error::other("a line was refused, or has no answer"));
    }
    let mut least = [u64::MAX; 2];
    for _ in 0..RUNS {
        for (least, journal) in least.iter_mut().zip([&short, &long]) {
            *least = (*least).min(run(program, &journal.0)?);
        }
    }
    Ok((least[1] - least[0]) as f64 / MORE as f64)
}

/// The processor's time that a run takes, in nanoseconds. A file in and nothing
/// out, so that no pipe is waited for.
fn run(program: &str, journal: &Path) -> io::Result<u64> {
    let before = children_ns();
    let status = Command::new(program)
        .stdin(File::open(journal)?)
        .stdout(Stdio::null())
        .status()?;
    match status.success() {
        true => Ok(children_ns() - before),
        false => Err(io::Error::other(format!("it ended with {status}"))),
    }
}

/// What Linux counts of a process, in the layout of 64-bit machines.
#[repr(C)]
#[derive(Default)]
struct Usage {
    /// Seconds and microseconds.
    user: [i64; 2],
    system: [i64; 2],
    rest: [i64; 14],
}

unsafe extern "C" {
    fn getrusage(who: i32, usage: *mut Usage) -> i32;
}

/// The processor's time of all children that have ended. It has microseconds.
fn children_ns() -> u64 {
    const CHILDREN: i32 = -1;
    let mut usage = Usage::default();
    // SAFETY: it writes a usage, which is as large.
    assert_eq!(unsafe { getrusage(CHILDREN, &mut usage) }, 0);
    let micros: i64 = [usage.user, usage.system]
        .iter()
        .map(|[seconds, micros]| seconds * 1_000_000 + micros)
        .sum();
    micros as u64 * 1000
}

/// A journal in a file, for as long as it is timed.
struct Stored(PathBuf);

impl Stored {
    fn new(name: &str, journal: &str) -> io::Result<Self> {
        let name = format!("bench-{}-{name}.journal", process::id());
        let path = env::temp_dir().join(name);
        fs::write(&path, journal)?;
        Ok(Self(path))
    }
}

impl Drop for Stored {
    fn drop(&mut self) {
        // A file that is gone already is as good.
        let _ = fs::remove_file(&self.0);
    }
}
