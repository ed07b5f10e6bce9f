//! Compares the Rust and the archive call by call. See `USAGE`.

#[cfg(archive)]
mod act;
#[cfg(archive)]
mod damage;
#[cfg(archive)]
mod draw;
#[cfg(archive)]
mod exhaustive;
#[cfg(archive)]
mod expect;
#[cfg(archive)]
mod pair;
#[cfg(archive)]
mod random;
#[cfg(archive)]
mod report;
#[cfg(archive)]
mod shrink;
#[cfg(archive)]
mod slip;
#[cfg(archive)]
mod tally;

use std::env;
use std::process::ExitCode;

const USAGE: &str = "\
usage: compare random SEED STEPS [--flip K]   random sequences, at least so many steps
       compare exhaustive [--flip K]          all short sequences
       compare slips SEED STEPS               each slip that --flip knows, 1 to 10, until it is found";

fn main() -> ExitCode {
    let args: Vec<String> = env::args().skip(1).collect();
    let args: Vec<&str> = args.iter().map(String::as_str).collect();
    run(&args).unwrap_or_else(|| {
        eprintln!("{USAGE}");
        ExitCode::FAILURE
    })
}

#[cfg(archive)]
fn run(args: &[&str]) -> Option<ExitCode> {
    let number = |text: &str| text.parse().ok();
    let (args, flip) = match args {
        [args @ .., "--flip", flip] => (args, number(flip)?),
        _ => (args, 0),
    };
    (flip <= slip::SLIPS.len() as u64).then_some(())?;
    match *args {
        ["random", seed, steps] => Some(report::random(number(seed)?, number(steps)?, flip)),
        ["exhaustive"] => Some(report::exhaustive(flip)),
        ["slips", seed, steps] => Some(report::slips(number(seed)?, number(steps)?)),
        _ => None,
    }
}

#[cfg(not(archive))]
fn run(_: &[&str]) -> Option<ExitCode> {
    eprintln!("built without an archive: name one in PUDVIREZ_ARCHIVE and build again");
    None
}
