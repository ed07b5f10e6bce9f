//! Times the same calls on the unchanged Rust and on the archive. See `USAGE`.

#[cfg(archive)]
mod floor;
mod journal;
#[cfg(archive)]
mod ours;
#[cfg(archive)]
mod table;
#[cfg(archive)]
mod task;
#[cfg(archive)]
mod timer;

use std::env;
use std::process::ExitCode;

const USAGE: &str = "\
usage: bench                   both libraries, and what reading and moving the storage takes
       bench journal PROGRAM   the journal program, per line";

fn main() -> ExitCode {
    let args: Vec<String> = env::args().skip(1).collect();
    let args: Vec<&str> = args.iter().map(String::as_str).collect();
    match args[..] {
        [] => both(),
        ["journal", program] => journal::print(program),
        _ => {
            eprintln!("{USAGE}");
            ExitCode::FAILURE
        }
    }
}

#[cfg(archive)]
fn both() -> ExitCode {
    table::print();
    ExitCode::SUCCESS
}

#[cfg(not(archive))]
fn both() -> ExitCode {
    eprintln!("built without the archive: set PUDVIREZ_ARCHIVE, see the README");
    ExitCode::FAILURE
}
