//! `sample [SEED]`: the sample on standard output, what it holds on standard error.

use std::io::{self, BufWriter, Write};
use std::process::ExitCode;

fn main() -> ExitCode {
    match seed() {
        Some(seed) => match write(seed) {
            Ok(enough) => enough,
            Err(error) => failed(&format!("can't write: {error}")),
        },
        None => failed("usage: sample [SEED], a number below 2^64"),
    }
}

/// The one argument, or 1.
fn seed() -> Option<u64> {
    let mut args = std::env::args().skip(1);
    let seed = args.next().map_or(Some(1), |text| text.parse().ok());
    seed.filter(|_| args.next().is_none())
}

fn write(seed: u64) -> io::Result<ExitCode> {
    let mut out = BufWriter::new(io::stdout().lock());
    let coverage = sample::write(seed, &mut out)?;
    out.flush()?;
    eprint!("{coverage}");
    Ok(match &coverage.missing()[..] {
        [] => ExitCode::SUCCESS,
        missing => failed(&format!("too few: {}", missing.join(", "))),
    })
}

fn failed(what: &str) -> ExitCode {
    eprintln!("{what}");
    ExitCode::FAILURE
}
