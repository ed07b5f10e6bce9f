//! The probe. It stands as a child of circuit.rs's module, so it reaches what is
//! private there: it calls, reads and sets, and decides nothing.

mod waiting;

use core::time::Duration;
use std::collections::VecDeque;

use clock_lib::SetClock;

use super::{BreakerState, CircuitBreaker, CircuitBreakerBuilder, Permit, Shared, Ticket, Trip};
use crate::decision::Decision;
use crate::error::ThrottleError;
use crate::limiter::Limiter;
use crate::plain::{self, Answer, Call, Config, End, Reply, Settings, State};
use crate::scripted::Scripted;

/// A breaker over a scripted limiter and a clock set by hand.
pub struct Subject {
    breaker: CircuitBreaker<Scripted, SetClock>,
}

/// Making, reading and setting.
impl Subject {
    /// A fresh breaker with these settings.
    pub fn new(settings: &Settings) -> Self {
        Self::build(
            CircuitBreakerBuilder::new()
                .trip(settings.trip)
                .cooldown(settings.cooldown)
                .half_open(settings.trials, settings.required),
        )
    }

    /// A fresh breaker with the builder's own defaults.
    pub fn with_defaults() -> Self {
        Self::build(CircuitBreakerBuilder::new())
    }

    /// The clock takes its place at 0 ms, so a reading is what `set_clock` set.
    fn build(builder: CircuitBreakerBuilder) -> Self {
        Self {
            breaker: builder
                .build(Scripted::default())
                .with_clock(SetClock::default()),
        }
    }

    /// The settings as the breaker keeps them.
    pub fn config(&self) -> Config {
        let config = self.breaker.config;
        Config::of(&Settings {
            trip: config.trip,
            cooldown: config.cooldown,
            trials: config.half_open_trials,
            required: config.half_open_required,
        })
    }

    /// Everything that calls change.
    pub fn state(&self) -> State {
        let shared = self.breaker.lock();
        State {
            state: shared.state.describe().1,
            generation: shared.generation,
            run: shared.consecutive,
            inflight: shared.half_open_inflight,
            trait_probes: shared.trait_probes,
            successes: shared.half_open_successes,
            open_until: shared.open_until_ms,
            items: items(&shared, self.breaker.config.trip),
        }
    }

    /// The numbers of `state`, without a copy of the list.
    pub fn numbers(&self) -> [u64; 8] {
        let shared = self.breaker.lock();
        [
            shared.state.describe().1.into(),
            shared.generation,
            shared.consecutive.into(),
            shared.half_open_inflight.into(),
            shared.trait_probes.into(),
            shared.half_open_successes.into(),
            shared.open_until_ms,
            (shared.outcomes.len() + shared.failure_times.len()) as u64,
        ]
    }

    /// Whether the list holds just these items.
    pub fn lists(&self, items: &[u64]) -> bool {
        let shared = self.breaker.lock();
        let (front, back) = shared.failure_times.as_slices();
        let outcomes = shared.outcomes.iter().map(|&failed| u64::from(failed));
        match items.split_at_checked(front.len()) {
            Some((first, last)) if shared.outcomes.is_empty() => first == front && last == back,
            _ => shared.failure_times.is_empty() && outcomes.eq(items.iter().copied()),
        }
    }

    /// Sets everything that calls change. Panics on a state code or an item
    /// that the breaker can't hold.
    pub fn set_state(&self, state: &State) {
        let (outcomes, failure_times) = lists(&state.items, self.breaker.config.trip);
        *self.breaker.lock() = Shared {
            state: state_of(state.state),
            generation: state.generation,
            consecutive: state.run,
            outcomes,
            failure_times,
            half_open_inflight: state.inflight,
            trait_probes: state.trait_probes,
            half_open_successes: state.successes,
            open_until_ms: state.open_until,
        };
    }

    /// Sets the reading, also to an earlier one.
    pub fn set_clock(&self, ms: u64) {
        self.breaker.clock.set(ms);
    }

    /// The inner limiter, to see what it was asked.
    pub fn inner(&self) -> &Scripted {
        &self.breaker.inner
    }
}

fn items(shared: &Shared, trip: Trip) -> Vec<u64> {
    let outcomes = shared.outcomes.iter().map(|&failed| failed.into());
    let times = shared.failure_times.iter().copied();
    match trip {
        Trip::Windowed { .. } => assert!(shared.outcomes.is_empty()),
        Trip::Ratio { .. } => assert!(shared.failure_times.is_empty()),
        Trip::Consecutive(_) => assert!(outcomes.len() + times.len() == 0),
    }
    outcomes.chain(times).collect()
}

fn lists(items: &[u64], trip: Trip) -> (VecDeque<bool>, VecDeque<u64>) {
    let (mut outcomes, mut times) = Default::default();
    match trip {
        Trip::Consecutive(_) => assert!(items.is_empty(), "this policy keeps no list"),
        Trip::Ratio { .. } => outcomes = items.iter().map(|&item| flag(item)).collect(),
        Trip::Windowed { .. } => times = items.iter().copied().collect(),
    }
    (outcomes, times)
}

fn flag(item: u64) -> bool {
    assert!(item <= 1, "an outcome is 0 or 1");
    item == 1
}

fn state_of(code: u8) -> BreakerState {
    let states = [
        BreakerState::Closed,
        BreakerState::HalfOpen,
        BreakerState::Open,
    ];
    let is = |state: &BreakerState| state.describe().1 == code;
    states.into_iter().find(is).expect("a known state code")
}

/// The breaker's own calls.
impl Subject {
    pub fn admit_as(&self, via_trait: bool) -> Answer {
        match self.breaker.admit_as(via_trait) {
            Ok(ticket) => granted(ticket),
            Err(delay) => shed(delay),
        }
    }

    pub fn settle(&self, ticket: plain::Ticket, success: bool) -> Answer {
        self.breaker.settle(own(ticket), success);
        Answer::DONE
    }

    pub fn abort_as(&self, ticket: plain::Ticket, via_trait: bool) -> Answer {
        self.breaker.abort_as(own(ticket), via_trait);
        Answer::DONE
    }

    pub fn release_trait_probe(&self) -> Answer {
        self.breaker.release_trait_probe();
        Answer::DONE
    }

    pub fn record_manual(&self, success: bool) -> Answer {
        if success {
            self.breaker.record_success();
        } else {
            self.breaker.record_failure();
        }
        Answer::DONE
    }

    pub fn reset(&self) -> Answer {
        self.breaker.reset();
        Answer::DONE
    }

    pub fn still_admits(&self, ticket: plain::Ticket) -> Answer {
        match self.breaker.still_admits(own(ticket)) {
            Ok(()) => Answer::DONE,
            Err(delay) => shed(delay),
        }
    }

    pub fn try_admit(&self, reply: Reply, capacity: u32) -> Answer {
        let inner = self.inner();
        inner.script().acquire = decision(reply);
        inner.script().capacity = capacity;
        match self.breaker.try_admit() {
            Ok(Some(ticket)) => granted(ticket),
            Ok(None) => Answer::RETRY,
            Err(ThrottleError::CircuitOpen { retry_after }) => shed(retry_after),
            Err(ThrottleError::CostExceedsCapacity { cost, capacity }) => {
                Answer::new(8, [cost.into(), capacity.into(), 0])
            }
            Err(other) => panic!("try_admit has no such refusal: {other}"),
        }
    }

    /// Ends a permit that holds this ticket.
    pub fn permit(&self, ticket: plain::Ticket, end: End) -> Answer {
        let permit = Permit::new(&self.breaker, own(ticket));
        match end {
            End::Success => permit.success(),
            End::Failure => permit.failure(),
            End::Dropped => drop(permit),
            End::Cancel => return self.given_back(|| permit.cancel()),
        }
        Answer::DONE
    }
}

/// The trait side.
impl Subject {
    pub fn peek(&self, reply: Reply, cost: u32) -> Answer {
        self.inner().script().peek = decision(reply);
        decided(self.breaker.peek(cost))
    }

    pub fn acquire_cost(&self, reply: Reply, cost: u32) -> Answer {
        self.inner().script().acquire = decision(reply);
        decided(self.breaker.acquire_cost(cost))
    }

    /// `wait` is what the inner limiter reserves, in milliseconds.
    pub fn reserve(&self, wait: Option<u64>, cost: u32, max_wait: Duration) -> Answer {
        self.inner().script().reserve = wait.map(Duration::from_millis);
        match self.breaker.reserve(cost, max_wait) {
            Some(wait) => Answer::new(0, [1, whole_ms(wait), 0]),
            None => Answer::DONE,
        }
    }

    pub fn available(&self, reply: Reply, count: u32) -> Answer {
        let inner = self.inner();
        inner.script().peek = decision(reply);
        inner.script().available = count;
        Answer::count(self.breaker.available().into())
    }

    pub fn charge(&self, left: u32, cost: u32) -> Answer {
        self.inner().script().charge = left;
        Answer::count(self.breaker.charge(cost).into())
    }

    pub fn refund(&self, cost: u32) -> Answer {
        self.given_back(|| self.breaker.refund(cost))
    }

    /// Runs a call that gives back once, and answers the cost given back.
    fn given_back(&self, call: impl FnOnce()) -> Answer {
        let before = self.inner().script().refunds().len();
        call();
        match self.inner().script().refunds()[before..] {
            [cost] => Answer::count(cost.into()),
            ref costs => panic!("given back {} times", costs.len()),
        }
    }
}

impl Subject {
    /// Any of the calls at a reading. What the inner limiter was asked before
    /// is forgotten first.
    pub fn call(&self, now: u64, call: &Call) -> Answer {
        self.set_clock(now);
        self.inner().script().asked.clear();
        match *call {
            Call::Admit { via_trait } => self.admit_as(via_trait),
            Call::Settle { ticket, success } => self.settle(ticket, success),
            Call::Abort { ticket, via_trait } => self.abort_as(ticket, via_trait),
            Call::ReleaseTraitProbe => self.release_trait_probe(),
            Call::Record { success } => self.record_manual(success),
            Call::Reset => self.reset(),
            Call::StillAdmits { ticket } => self.still_admits(ticket),
            Call::TryAdmit { reply, capacity } => self.try_admit(reply, capacity),
            Call::Permit { ticket, end } => self.permit(ticket, end),
            Call::Peek { reply, cost } => self.peek(reply, cost),
            Call::AcquireCost { reply, cost } => self.acquire_cost(reply, cost),
            Call::Reserve { wait, cost } => self.reserve(wait, cost, Duration::MAX),
            Call::Available { reply, count } => self.available(reply, count),
            Call::Charge { left, cost } => self.charge(left, cost),
            Call::Refund { cost } => self.refund(cost),
        }
    }
}

fn own(ticket: plain::Ticket) -> Ticket {
    Ticket {
        generation: ticket.generation,
        probe: ticket.probe,
    }
}

fn granted(ticket: Ticket) -> Answer {
    Answer::granted(plain::Ticket {
        generation: ticket.generation,
        probe: ticket.probe,
    })
}

fn shed(delay: Duration) -> Answer {
    Answer::shed(whole_ms(delay))
}

fn decision(reply: Reply) -> Decision {
    match reply {
        Reply::Acquired => Decision::Acquired,
        Reply::Retry(ms) => Decision::Retry {
            after: Duration::from_millis(ms),
        },
        Reply::Impossible => Decision::Impossible,
    }
}

fn decided(decision: Decision) -> Answer {
    let reply = match decision {
        Decision::Acquired => Reply::Acquired,
        Decision::Retry { after } => Reply::Retry(whole_ms(after)),
        Decision::Impossible => Reply::Impossible,
    };
    let [kind, delay] = reply.numbers();
    Answer::new(0, [kind, delay, 0])
}

/// Milliseconds of a duration that holds whole ones only.
fn whole_ms(duration: Duration) -> u64 {
    let ms = plain::capped_ms(duration);
    assert_eq!(Duration::from_millis(ms), duration, "a rest below 1 ms");
    ms
}
