//! The archive's side of a task.

use throttle::plain::{self, Call, State};
use throttle::scope::PLACES;

use crate::task::{CALLS, Task};
use archive::ffi::{self, Breaker, Preview};
use archive::{flag, own};

/// The byte that stands for true.
const YES: u8 = 1;

/// A record and its storage.
pub struct Ours {
    breaker: Breaker,
    list: Box<[u64; PLACES]>,
}

impl Ours {
    pub fn new() -> Self {
        Self {
            breaker: Breaker::default(),
            list: Box::new([0; PLACES]),
        }
    }

    pub fn set(&mut self, config: plain::Config, state: &State) {
        self.breaker = Breaker {
            config: archive::config(&config),
            shared: archive::shared(state),
        };
        let (items, rest) = self.list.split_at_mut(state.items.len());
        items.copy_from_slice(&state.items);
        rest.fill(0);
    }

    /// The told number.
    #[inline]
    pub fn call(&mut self, now: u64, call: Call) -> u32 {
        let (b, list) = (&raw mut self.breaker, self.list.as_mut_ptr());
        // SAFETY: the list has so many places.
        let told = unsafe {
            match call {
                Call::Admit { via_trait } => {
                    ffi::pudvirez_admit_as(b, list, PLACES, now, flag(via_trait, YES))
                }
                Call::Settle { ticket, success } => {
                    let (ticket, success) = (own(ticket, YES), flag(success, YES));
                    ffi::pudvirez_settle(b, list, PLACES, now, ticket, success)
                }
                Call::Abort { ticket, via_trait } => {
                    let (ticket, via_trait) = (own(ticket, YES), flag(via_trait, YES));
                    ffi::pudvirez_abort_as(b, list, PLACES, ticket, via_trait)
                }
                _ => panic!("{call:?} is not timed"),
            }
        };
        told.number
    }

    /// What a settle would do.
    #[inline]
    pub fn preview(&self, now: u64, call: Call) -> Preview {
        let Call::Settle { ticket, success } = call else {
            panic!("{call:?} is not previewed")
        };
        let (ticket, success) = (own(ticket, YES), flag(success, YES));
        let list = self.list.as_ptr();
        // SAFETY: the list has so many places.
        unsafe { ffi::pudvirez_preview_settle(&self.breaker, list, PLACES, now, ticket, success) }
    }

    /// Whether this is what the record holds.
    pub fn is_as(&self, preview: &Preview) -> bool {
        self.breaker == preview.breaker && self.breaker.shared.len == preview.len
    }

    pub fn finish_all(&mut self, batch: &mut Batch) -> u32 {
        let n = CALLS as usize;
        // SAFETY: each array has so many elements, and none overlaps another.
        let told = unsafe {
            ffi::pudvirez_finish_all(
                &mut self.breaker,
                self.list.as_mut_ptr(),
                PLACES,
                batch.now,
                batch.generations.as_ptr(),
                n,
                batch.probes.as_ptr(),
                n,
                batch.settles.as_ptr(),
                n,
                batch.marks.as_ptr(),
                n,
                batch.answers.as_mut_ptr(),
                n,
            )
        };
        told.number
    }

    /// Whether all fields and items are as in this state.
    pub fn holds(&self, state: &State) -> bool {
        let s = &self.breaker.shared;
        let fields = [
            s.state.into(),
            s.generation,
            s.run.into(),
            s.counts.inflight.into(),
            s.counts.trait_probes.into(),
            s.counts.successes.into(),
            s.open_until,
            s.len.into(),
        ];
        fields == state.numbers() && self.list[..state.items.len()] == state.items
    }
}

/// A task's calls as the batch takes them.
pub struct Batch {
    now: u64,
    generations: [u64; CALLS as usize],
    probes: [u8; CALLS as usize],
    settles: [u8; CALLS as usize],
    marks: [u8; CALLS as usize],
    answers: [u64; CALLS as usize],
}

impl Batch {
    pub fn new(task: &Task) -> Self {
        let mut batch = Self {
            now: task.call(0).0,
            generations: [0; CALLS as usize],
            probes: [0; CALLS as usize],
            settles: [0; CALLS as usize],
            marks: [0; CALLS as usize],
            answers: [0; CALLS as usize],
        };
        for i in 0..CALLS as usize {
            let (settles, ticket, mark) = match task.call(i as u64).1 {
                Call::Settle { ticket, success } => (true, ticket, success),
                Call::Abort { ticket, via_trait } => (false, ticket, via_trait),
                call => panic!("{call:?} finishes nothing"),
            };
            batch.generations[i] = ticket.generation;
            batch.probes[i] = flag(ticket.probe, YES);
            batch.settles[i] = flag(settles, YES);
            batch.marks[i] = flag(mark, YES);
        }
        batch
    }
}
