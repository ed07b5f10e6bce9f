//! Writes and compares waits. See `USAGE`.

use std::env;
use std::io::{self, BufWriter, Write};
use std::process::ExitCode;

const USAGE: &str = "\
usage: waits sample [SEED]        a fixed sample; seed 1 if left out
       waits compare SEED COUNT   random waits, at least so many, against the archive";

fn main() -> ExitCode {
    let args: Vec<String> = env::args().skip(1).collect();
    let args: Vec<&str> = args.iter().map(String::as_str).collect();
    run(&args).unwrap_or_else(|error| {
        eprintln!("{error}");
        ExitCode::FAILURE
    })
}

fn run(args: &[&str]) -> io::Result<ExitCode> {
    match *args {
        ["sample"] => sample(1),
        ["sample", seed] => sample(number(seed)?),
        ["compare", seed, count] => compare(number(seed)?, number(count)?),
        _ => Err(io::Error::other(USAGE)),
    }
}

fn number(text: &str) -> io::Result<u64> {
    text.parse().map_err(|_| io::Error::other(USAGE))
}

/// The sample on standard output, what it holds on standard error.
fn sample(seed: u64) -> io::Result<ExitCode> {
    let mut out = BufWriter::new(io::stdout().lock());
    let tally = waits::write(seed, &mut out)?;
    out.flush()?;
    eprint!("{tally}");
    match &tally.missing()[..] {
        [] => Ok(ExitCode::SUCCESS),
        missing => Err(io::Error::other(format!("too few: {}", missing.join(", ")))),
    }
}

/// What was compared, on standard output.
#[cfg(archive)]
fn compare(seed: u64, count: u64) -> io::Result<ExitCode> {
    let mut archive = waits::archive::Archive::default();
    let outcome = waits::compare::compare(seed, count, &mut archive);
    let (runs, turns) = archive.counts;
    print!("seed: {seed}\n{outcome}");
    println!("runs: {runs}, of {turns} turns");
    Ok(ExitCode::from(u8::from(outcome.differing.is_some())))
}

#[cfg(not(archive))]
fn compare(_: u64, _: u64) -> io::Result<ExitCode> {
    let what = "built without an archive: name one in PUDVIREZ_ARCHIVE and build again";
    Err(io::Error::other(what))
}
