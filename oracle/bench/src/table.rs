//! Times every task on both sides, and prints the table.

use std::hint::black_box;

use throttle::Subject;
use throttle::plain::Call;

use crate::floor::{self, floor};
use crate::ours::{Batch, Ours};
use crate::task::{CALLS, Kind, Task};
use crate::timer::least;

const RUNS: u32 = 2000;

pub fn print() {
    println!("places read, 4,096: {:.0} ns", floor::read(4096));
    println!("places moved, 4,095: {:.0} ns", floor::moved(4095));
    println!("| Call, policy, items | Rust ns | Ours ns | Ratio | Floor ns | Ours by floor |");
    println!("|---|---|---|---|---|---|");
    for task in Task::all() {
        let theirs = theirs(&task);
        let ours = ours(&task);
        let floor = floor(task.needs());
        println!(
            "| {} | {theirs:.1} | {ours:.0} | {:.1} | {floor:.0} | {:.2} |",
            task.name(),
            ours / theirs,
            ours / floor.max(1.0),
        );
    }
    println!("| Call, policy, items | Call ns | Preview ns |");
    println!("|---|---|---|");
    for task in Task::previewed() {
        let (call, preview) = (ours(&task), preview(&task));
        println!("| {} | {call:.0} | {preview:.0} |", task.name());
    }
}

/// Calls that are timed. A batch is one on our side, and so many on theirs.
fn divisor(task: &Task) -> f64 {
    match task.kind {
        Kind::Batch => 1.0,
        _ => f64::from(CALLS),
    }
}

/// The first call that is timed: a batch starts from the state as it is set.
fn first(task: &Task) -> u64 {
    u64::from(task.kind != Kind::Batch)
}

fn theirs(task: &Task) -> f64 {
    let subject = Subject::new(&task.settings());
    let prepare = || {
        subject.set_state(&task.state());
        for i in 0..first(task) {
            let (now, call) = task.call(i);
            subject.call(now, &call);
        }
    };
    let run = |(): &mut ()| {
        for i in first(task)..first(task) + u64::from(CALLS) {
            let (now, call) = task.call(i);
            subject.set_clock(now);
            black_box(match call {
                Call::Admit { via_trait } => subject.admit_as(via_trait),
                Call::Settle { ticket, success } => subject.settle(ticket, success),
                Call::Abort { ticket, via_trait } => subject.abort_as(ticket, via_trait),
                _ => panic!("{call:?} is not timed"),
            });
        }
    };
    least(RUNS, prepare, run) / divisor(task)
}

fn ours(task: &Task) -> f64 {
    let subject = Subject::new(&task.settings());
    let (config, state) = (subject.config(), task.state());
    subject.set_state(&state);
    let mut batch = (task.kind == Kind::Batch).then(|| Batch::new(task));
    let side = std::cell::RefCell::new(Ours::new());
    let prepare = || {
        let mut side = side.borrow_mut();
        side.set(config, &state);
        for i in 0..first(task) {
            let (now, call) = task.call(i);
            side.call(now, call);
        }
        side
    };
    let run = |side: &mut std::cell::RefMut<Ours>| {
        if let Some(batch) = &mut batch {
            assert_eq!(black_box(side.finish_all(batch)), 0);
            return;
        }
        for i in first(task)..first(task) + u64::from(CALLS) {
            let (now, call) = task.call(i);
            assert_eq!(black_box(side.call(now, call)), 0);
        }
    };
    let time = least(RUNS, prepare, run) / divisor(task);
    for i in 0..first(task) + u64::from(CALLS) {
        let (now, call) = task.call(i);
        subject.call(now, &call);
    }
    let same = side.borrow().holds(&subject.state());
    assert!(same, "{}: both sides end alike", task.name());
    time
}

/// A preview of the second call, which stays the same: nothing moves.
fn preview(task: &Task) -> f64 {
    let subject = Subject::new(&task.settings());
    let mut side = Ours::new();
    side.set(subject.config(), &task.state());
    let (now, call) = task.call(0);
    assert_eq!(side.call(now, call), 0);
    let (now, call) = task.call(1);
    let run = |(): &mut ()| {
        for _ in 0..CALLS {
            assert_eq!(black_box(side.preview(now, call)).told.number, 0);
        }
    };
    let time = least(RUNS, || (), run) / f64::from(CALLS);
    let seen = side.preview(now, call);
    assert_eq!(side.call(now, call), 0);
    assert!(side.is_as(&seen), "{}: as previewed", task.name());
    time
}
