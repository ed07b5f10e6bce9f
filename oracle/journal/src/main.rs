//! The journal's program: replays, writes and compares. See `USAGE`.

use std::env;
use std::fs;
use std::io::{self, BufWriter, Read, Write};
use std::path::Path;
use std::process::ExitCode;

use journal::compare::{Outcome, compare};
use journal::container::Case;
use journal::tally::Tally;
use journal::{LIMIT, cases, draw, replay};

const USAGE: &str = "\
usage: journal replay                           answers standard input
       journal cases                            the fixed journals
       journal past_the_limit                   a journal of 65,540 bytes
       journal random SEED COUNT [DIR]          random journals, into files if DIR is given
       journal compare SEED COUNT PROGRAM ...   runs PROGRAM on the random journals
       journal compare cases PROGRAM ...        runs PROGRAM on the fixed ones";

/// Where differing journals go, from the folder of the call.
const DIFFERING: &str = "target/differing";

fn main() -> ExitCode {
    let args: Vec<String> = env::args().skip(1).collect();
    let args: Vec<&str> = args.iter().map(String::as_str).collect();
    run(&args).unwrap_or_else(|error| {
        eprintln!("{error}");
        ExitCode::FAILURE
    })
}

fn run(args: &[&str]) -> io::Result<ExitCode> {
    match *args {
        ["replay"] => answer(),
        ["cases"] => write(cases::all().into_iter()),
        ["past_the_limit"] => past_the_limit(),
        ["random", seed, count] => write(random(seed, count)?),
        ["random", seed, count, dir] => write_files(random(seed, count)?, Path::new(dir)),
        ["compare", "cases", _, ..] => report(cases::all().into_iter(), &args[2..]),
        ["compare", seed, count, _, ..] => report(random(seed, count)?, &args[3..]),
        _ => Err(io::Error::other(USAGE)),
    }
}

/// The cases from number 0 on.
fn random(seed: &str, count: &str) -> io::Result<impl Iterator<Item = Case>> {
    let number = |text: &str| text.parse().map_err(|_| io::Error::other(USAGE));
    let (seed, count) = (number(seed)?, number(count)?);
    Ok((0..count).map(move |number| draw::case(seed, number)))
}

/// Reads one byte past the limit, and no more.
fn answer() -> io::Result<ExitCode> {
    let mut input = Vec::new();
    let most = LIMIT as u64 + 1;
    io::stdin().lock().take(most).read_to_end(&mut input)?;
    io::stdout().lock().write_all(&replay(&input))?;
    Ok(ExitCode::SUCCESS)
}

/// The journal that the gate runs crates/replay on.
fn past_the_limit() -> io::Result<ExitCode> {
    let journal = cases::past_the_limit();
    io::stdout().lock().write_all(journal.as_bytes())?;
    Ok(ExitCode::SUCCESS)
}

/// A container on standard output, what it holds on standard error.
fn write(cases: impl Iterator<Item = Case>) -> io::Result<ExitCode> {
    let mut out = BufWriter::new(io::stdout().lock());
    let mut tally = Tally::default();
    for case in cases {
        case.write(&mut out)?;
        tally.note(&case);
    }
    out.flush()?;
    eprint!("{tally}");
    Ok(ExitCode::SUCCESS)
}

fn write_files(cases: impl Iterator<Item = Case>, dir: &Path) -> io::Result<ExitCode> {
    fs::create_dir_all(dir)?;
    for case in cases {
        let path = dir.join(&case.name);
        fs::write(path.with_extension("journal"), &case.journal)?;
        fs::write(path.with_extension("answer"), &case.answer)?;
    }
    Ok(ExitCode::SUCCESS)
}

fn report(cases: impl Iterator<Item = Case>, command: &[&str]) -> io::Result<ExitCode> {
    let outcome = compare(cases, command, Path::new(DIFFERING))?;
    let Outcome {
        tally,
        differing,
        read_on,
        failing,
    } = outcome;
    print!("{tally}");
    println!("ended with a status other than 0: {failing}");
    println!("read on past the limit: {read_on}");
    println!("differing: {differing}");
    if differing > 0 {
        println!("the first of them stand in {DIFFERING}");
    }
    Ok(ExitCode::from(u8::from(differing + read_on > 0)))
}
