//! Runs another program on journals and compares its answers.

use std::fs;
use std::io::{self, Write};
use std::path::Path;
use std::process::{Child, ChildStdin, Command, Output, Stdio};
use std::thread;

use crate::LIMIT;
use crate::container::Case;
use crate::tally::Tally;

/// So many differing journals are kept in files.
const KEPT: u64 = 10;

/// Feeds handed in after a journal that passes the limit: more than a pipe holds.
static MORE: [u8; 1 << 20] = [b'\n'; 1 << 20];

/// What came of a comparison.
#[derive(Default)]
pub struct Outcome {
    pub tally: Tally,
    /// Journals with another answer, or on which the program was killed.
    pub differing: u64,
    /// Journals past the limit on which it read on, by about `MORE`.
    pub read_on: u64,
    /// Journals on which it ended with a status other than 0.
    pub failing: u64,
}

/// Runs a command on each case. A differing journal goes to the folder, with
/// the expected and the given answer.
pub fn compare(
    cases: impl Iterator<Item = Case>,
    command: &[&str],
    folder: &Path,
) -> io::Result<Outcome> {
    let mut outcome = Outcome::default();
    for case in cases {
        let (output, read_on) = run(command, &case.journal)?;
        outcome.tally.note(&case);
        outcome.read_on += u64::from(read_on);
        outcome.failing += u64::from(!output.status.success());
        if output.stdout != case.answer || output.status.code().is_none() {
            outcome.differing += 1;
            if outcome.differing <= KEPT {
                keep(&case, &output, folder)?;
            }
        }
    }
    Ok(outcome)
}

/// The journal is written while the answer is read, so neither pipe can block.
fn run(command: &[&str], journal: &[u8]) -> io::Result<(Output, bool)> {
    let mut child = start(command)?;
    let input = child.stdin.take().expect("a pipe");
    thread::scope(|scope| {
        let read_on = scope.spawn(|| feed(input, journal));
        let output = child.wait_with_output()?;
        Ok((output, read_on.join().expect("no panic in it")))
    })
}

/// Says whether all was taken that follows a journal past the limit. A program
/// that closes its input where it needs no more is right.
fn feed(mut input: ChildStdin, journal: &[u8]) -> bool {
    let taken = input.write_all(journal).is_ok();
    taken && journal.len() > LIMIT && input.write_all(&MORE).is_ok()
}

fn start(command: &[&str]) -> io::Result<Child> {
    Command::new(command[0])
        .args(&command[1..])
        .stdin(Stdio::piped())
        .stdout(Stdio::piped())
        .stderr(Stdio::null())
        .spawn()
        .map_err(|error| io::Error::other(format!("{}: {error}", command[0])))
}

fn keep(case: &Case, output: &Output, folder: &Path) -> io::Result<()> {
    fs::create_dir_all(folder)?;
    let path = folder.join(&case.name);
    fs::write(path.with_extension("journal"), &case.journal)?;
    fs::write(path.with_extension("expected"), &case.answer)?;
    fs::write(path.with_extension("given"), &output.stdout)
}
