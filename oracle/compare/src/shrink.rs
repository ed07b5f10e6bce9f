//! Drops steps from a differing sequence while it still differs.

use throttle::scope::sound;

use crate::act::{Op, Step};
use crate::pair::Difference;
use crate::random::first;
use crate::slip::Slip;

/// The shorter sequence, and what differs at its end.
pub fn shrink(mut steps: Vec<Step>, slip: Slip) -> Option<(Vec<Step>, Difference)> {
    let mut found = replay(&steps, slip)?;
    let mut at = steps.len();
    while at > 0 {
        at -= 1;
        let mut fewer = steps.clone();
        fewer.remove(at);
        if let Some((end, difference)) = replay(&fewer, slip) {
            fewer.truncate(end + 1);
            at = at.min(fewer.len());
            steps = fewer;
            found = (end, difference);
        }
    }
    Some((steps, found.1))
}

/// The first step that differs. A start that isn't sound here is none.
fn replay(steps: &[Step], slip: Slip) -> Option<(usize, Difference)> {
    let mut pair = first(slip);
    for (at, step) in steps.iter().enumerate() {
        if matches!(&step.op, Op::Set(state) if !sound(&pair.config, state)) {
            return None;
        }
        if let Err(difference) = pair.step(step) {
            return Some((at, difference));
        }
    }
    None
}
