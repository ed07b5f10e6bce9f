//! Runs a comparison and prints what came of it.

use std::process::ExitCode;
use std::time::Instant;

use crate::act::{Op, Step};
use crate::exhaustive::Exhaustive;
use crate::pair::Difference;
use crate::random::Random;
use crate::shrink::shrink;
use crate::slip::{SLIPS, Slip};

pub fn random(seed: u64, steps: u64, flip: u64) -> ExitCode {
    let begun = Instant::now();
    let mut random = Random::new(seed, Slip(flip));
    let outcome = random.run(steps);
    print!("seed: {seed}\n{}", random.tally);
    println!("seconds: {:.1}", begun.elapsed().as_secs_f64());
    end(outcome, random.done, Slip(flip))
}

pub fn exhaustive(flip: u64) -> ExitCode {
    let begun = Instant::now();
    let mut all = Exhaustive::new(Slip(flip));
    let outcome = all.run();
    print!("settings: {}\n{}", all.settings, all.tally);
    println!("seconds: {:.1}", begun.elapsed().as_secs_f64());
    end(outcome, all.done, Slip(flip))
}

/// After how many steps each slip is found.
pub fn slips(seed: u64, steps: u64) -> ExitCode {
    let mut missed = 0;
    for (flip, what) in (1..).zip(SLIPS) {
        let begun = Instant::now();
        let mut random = Random::new(seed, Slip(flip));
        let found = random.run(steps).is_err();
        missed += u8::from(!found);
        let after = random.tally.steps + u64::from(found);
        let how = if found { "found at step" } else { "missed in" };
        let shrunk = shrink(random.done, Slip(flip)).map_or(0, |(steps, _)| steps.len());
        let seconds = begun.elapsed().as_secs_f64();
        println!("{flip} {what}: {how} {after}, {seconds:.1} s, shrunk to {shrunk}");
    }
    ExitCode::from(missed)
}

fn end(outcome: Result<(), Difference>, done: Vec<Step>, slip: Slip) -> ExitCode {
    let Err(Difference(what)) = outcome else {
        println!("differences: 0");
        return ExitCode::SUCCESS;
    };
    println!(
        "differences: 1, at the last of {} steps\n{what}",
        done.len()
    );
    if let Some((steps, Difference(what))) = shrink(done, slip) {
        println!("shrunk to {} steps:", steps.len());
        steps.iter().for_each(print);
        println!("{what}");
    }
    ExitCode::FAILURE
}

fn print(step: &Step) {
    match &step.op {
        Op::Set(state) if state.items.len() > 64 => {
            println!("Set {:?}, the last of them its items'", state.numbers());
        }
        _ => println!("{step:?}"),
    }
}
