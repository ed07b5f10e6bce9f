//! Random buffers: what was saved comes back, what is refused leaves all, and slips are found.

use std::collections::HashMap;

use saves::Model;
use saves::compare::compare;
use saves::draw::{Scale, Step, Watch, play};
use saves::record::Record;
use saves::slip::SLIPS;
use saves::tally::Tally;
use saves::world::{Op, World};

/// The breakers saved in the undamaged buffer.
#[derive(Default)]
struct Saved(HashMap<Vec<u8>, (Record, Vec<u64>)>);

impl Watch for Saved {
    fn step(&mut self, step: &Step, before: &World, after: &World) -> Result<(), String> {
        let Step::Call(told) = step else {
            return Ok(());
        };
        if let Some(refusal) = told.refusal {
            assert!(before == after, "{refusal:?} left something else");
            return Ok(());
        }
        match &told.call.op {
            Op::Save(name) if told.damages.is_empty() => {
                let breaker = (before.record, before.list.clone());
                self.0.insert(name.clone(), breaker);
            }
            Op::Restore(name) if told.damages.is_empty() => {
                let (record, list) = &self.0[name];
                let expected = Record {
                    generation: before.record.generation.wrapping_add(1),
                    inflight: 0,
                    trait_probes: 0,
                    ..*record
                };
                assert_eq!((after.record, &after.list), (expected, list));
            }
            _ => {}
        }
        Ok(())
    }
}

#[test]
fn what_was_saved_comes_back() {
    let mut tally = Tally::default();
    for number in 0..600 {
        play(4, number, Scale::Any, &mut tally, &mut Saved::default()).expect("no difference");
    }
}

#[test]
fn every_slip_is_found() {
    for (slip, what) in SLIPS {
        let mut model = Model { slip: Some(slip) };
        let outcome = compare(1, 1500, &mut model);
        assert!(outcome.differing.is_some(), "{what}");
    }
}
