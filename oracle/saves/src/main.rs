//! Writes and compares saves. See `USAGE`.

use std::env;
use std::io::{self, BufWriter, Write};
use std::process::ExitCode;
use std::time::Instant;

use saves::compare::{Outcome, compare};
use saves::slip::SLIPS;
use saves::{Model, RIGHT};

const USAGE: &str = "\
usage: saves sample [SEED]         a fixed sample; seed 1 if left out
       saves draw SEED COUNT       what so many random buffers hold
       saves compare SEED COUNT    so many random buffers, each with its calls, against the archive
       saves slips SEED COUNT      each slip, until it is found
       saves lines SEED NUMBER     one of the random buffers, as lines of the sample";

fn main() -> ExitCode {
    let args: Vec<String> = env::args().skip(1).collect();
    let args: Vec<&str> = args.iter().map(String::as_str).collect();
    run(&args).unwrap_or_else(|error| {
        eprintln!("{error}");
        ExitCode::FAILURE
    })
}

fn run(args: &[&str]) -> io::Result<ExitCode> {
    match *args {
        ["sample"] => sample(1),
        ["sample", seed] => sample(number(seed)?),
        ["draw", seed, count] => against(&mut { RIGHT }, number(seed)?, number(count)?),
        ["compare", seed, count] => with_archive(number(seed)?, number(count)?),
        ["slips", seed, count] => slips(number(seed)?, number(count)?),
        ["lines", seed, buffer] => lines(number(seed)?, number(buffer)?),
        _ => Err(io::Error::other(USAGE)),
    }
}

fn number(text: &str) -> io::Result<u64> {
    text.parse().map_err(|_| io::Error::other(USAGE))
}

/// The sample on standard output, what it holds on standard error.
fn sample(seed: u64) -> io::Result<ExitCode> {
    let mut out = BufWriter::new(io::stdout().lock());
    let tally = saves::lines::write(seed, &mut out)?;
    out.flush()?;
    eprint!("{tally}");
    match &tally.missing()[..] {
        [] => Ok(ExitCode::SUCCESS),
        missing => Err(io::Error::other(format!("too few: {}", missing.join(", ")))),
    }
}

fn lines(seed: u64, buffer: u64) -> io::Result<ExitCode> {
    let mut out = BufWriter::new(io::stdout().lock());
    saves::lines::write_one(seed, buffer, &mut out)?;
    out.flush()?;
    Ok(ExitCode::SUCCESS)
}

/// What was compared, on standard output.
fn against(rival: &mut dyn saves::world::Engine, seed: u64, count: u64) -> io::Result<ExitCode> {
    let begun = Instant::now();
    let Outcome { tally, differing } = compare(seed, count, rival);
    print!("seed: {seed}\n{tally}");
    println!("seconds: {:.1}", begun.elapsed().as_secs_f64());
    match differing {
        None => {
            println!("differing: none");
            Ok(ExitCode::SUCCESS)
        }
        Some((number, what)) => {
            println!("differing: buffer {number} (saves lines {seed} {number})\n{what}");
            Ok(ExitCode::FAILURE)
        }
    }
}

#[cfg(archive)]
fn with_archive(seed: u64, count: u64) -> io::Result<ExitCode> {
    against(&mut saves::archive::Archive, seed, count)
}

#[cfg(not(archive))]
fn with_archive(_: u64, _: u64) -> io::Result<ExitCode> {
    let what = "built without an archive: name one in PUDVIREZ_ARCHIVE and build again";
    Err(io::Error::other(what))
}

/// After how many calls each slip is found, where the documents are held against it.
fn slips(seed: u64, count: u64) -> io::Result<ExitCode> {
    let mut missed = 0;
    for (number, (slip, what)) in (1..).zip(SLIPS) {
        let begun = Instant::now();
        let mut model = Model { slip: Some(slip) };
        let Outcome { tally, differing } = compare(seed, count, &mut model);
        missed += u8::from(differing.is_none());
        let how = if differing.is_some() {
            "found at"
        } else {
            "missed in"
        };
        let (calls, buffers) = (tally.calls(), tally.buffers);
        let seconds = begun.elapsed().as_secs_f64();
        println!("{number} {what}: {how} call {calls}, buffer {buffers}, {seconds:.1} s");
    }
    Ok(ExitCode::from(missed))
}
