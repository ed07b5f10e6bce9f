//! Waits through the safe types, over a host that replays a script.
use core::time::Duration;
use std::collections::VecDeque;
use std::panic::{catch_unwind, AssertUnwindSafe};

use super::{breaker, journal_fields, snapshot, ticket};
use crate::{BreakerState, CircuitBreaker, Host, ManualClock, Reply, ThrottleError, Trip};

const fn ms(n: u64) -> Duration {
    Duration::from_millis(n)
}

const NOW: Reply = Reply::Granted {
    after: Duration::ZERO,
};

const fn granted(n: u64) -> Reply {
    Reply::Granted { after: ms(n) }
}

const fn retry(n: u64) -> Reply {
    Reply::Retry { after: ms(n) }
}

/// What the host was asked to do.
#[derive(Debug, Clone, Copy, PartialEq, Eq)]
enum Done {
    Asked(Duration),
    Slept(Duration),
    SleptUnlessResumed(Duration, u64),
    Yielded,
    Refunded(u32),
}

/// A sleep moves the clock, and one that a resume may end uses the pause up.
#[derive(Debug, Default)]
struct Script {
    clock: Duration,
    replies: VecDeque<Reply>,
    pause: Duration,
    postponed: Duration,
    epoch: u64,
    resumes_while_asked: bool,
    panics_in_sleep: bool,
    done: Vec<Done>,
}

impl Script {
    fn new(replies: &[Reply]) -> Self {
        Self {
            clock: ms(500),
            replies: replies.iter().copied().collect(),
            ..Self::default()
        }
    }

    fn refunds(&self) -> u32 {
        let refunds = self.done.iter().map(|done| match done {
            Done::Refunded(units) => *units,
            _ => 0,
        });
        refunds.sum()
    }
}

impl Host for Script {
    fn now(&mut self) -> Duration {
        self.clock
    }

    fn ask(&mut self, budget: Duration) -> Reply {
        self.done.push(Done::Asked(budget));
        self.epoch += u64::from(self.resumes_while_asked);
        self.replies.pop_front().expect("a reply")
    }

    fn capacity(&mut self) -> u32 {
        100
    }

    fn refund(&mut self, cost: u32) {
        self.done.push(Done::Refunded(cost));
    }

    fn sleep(&mut self, nap: Duration) {
        assert!(!self.panics_in_sleep, "a sleep that fails");
        self.done.push(Done::Slept(nap));
        self.clock += nap;
    }

    fn sleep_unless_resumed(&mut self, nap: Duration, epoch: u64) {
        self.done.push(Done::SleptUnlessResumed(nap, epoch));
        self.clock += nap;
        self.pause = self.pause.saturating_sub(nap);
    }

    fn yield_now(&mut self) {
        self.done.push(Done::Yielded);
    }

    fn resume_epoch(&mut self) -> u64 {
        self.epoch
    }

    fn paused_for(&mut self) -> Duration {
        self.pause
    }

    fn postponed(&mut self) -> Duration {
        self.postponed
    }
}

/// A breaker that opened at 30; at 1,030 the next admission takes a trial.
fn ready(clock: &ManualClock) -> CircuitBreaker<&ManualClock> {
    let b = breaker(clock, Trip::Consecutive(1), 2, 2);
    clock.set(30);
    b.record_failure().expect("recorded");
    clock.set(1030);
    b
}

/// Half-open with no trial out: an admission was made and given back.
const GIVEN_BACK: (u8, u64, u32, u32, u64) = (1, 2, 0, 0, 1030);
const ONE_OUT: (u8, u64, u32, u32, u64) = (1, 2, 1, 0, 1030);

#[test]
fn a_wait_that_is_admitted() {
    let clock = ManualClock::new(0);
    let b = ready(&clock);
    let mut host = Script::new(&[retry(5), retry(0), granted(2)]);
    let permit = b.acquire_timeout(&mut host, ms(100)).expect("a permit");
    assert_eq!(permit.ticket, ticket(2, true));
    assert_eq!(journal_fields(&b), ONE_OUT);
    let expected = [
        Done::Asked(ms(100)),
        Done::Slept(ms(5)),
        Done::Asked(ms(95)),
        Done::Yielded,
        Done::Asked(ms(95)),
        Done::Slept(ms(2)),
    ];
    assert_eq!(host.done, expected);
    permit.success();
    assert_eq!(journal_fields(&b), (1, 2, 0, 1, 1030));
}

#[test]
fn a_grant_is_kept_through_a_pause() {
    let clock = ManualClock::new(0);
    let b = ready(&clock);
    let mut host = Script::new(&[granted(2)]);
    host.epoch = 7;
    host.pause = ms(30);
    host.postponed = ms(1);
    let permit = b.acquire(&mut host).expect("a permit");
    let expected = [
        Done::Asked(Duration::MAX),
        Done::Slept(ms(2)),
        Done::SleptUnlessResumed(ms(30), 7),
    ];
    assert_eq!(host.done, expected);
    assert_eq!(permit.cancel(), 1);
    assert_eq!(journal_fields(&b), GIVEN_BACK);
}

#[test]
fn a_pause_that_grows_moves_the_grant() {
    let clock = ManualClock::new(0);
    let b = ready(&clock);
    let mut host = Script::new(&[granted(2)]);
    let mut waiting = b.admit_waiting(&mut host, None).expect("a wait");
    assert!(waiting.turn().expect("a turn").is_none());
    assert_eq!(waiting.pending.wait.due, 502_000_000);
    waiting.host_mut().postponed = ms(4);
    assert!(waiting.turn().expect("a turn").is_none());
    assert_eq!(waiting.pending.wait.due, 506_000_000);
    let permit = waiting.turn().expect("a turn").expect("a permit");
    permit.success();
    assert_eq!(waiting.turn().unwrap_err(), ThrottleError::Turn);
    drop(waiting);
    assert_eq!(host.done[1..], [Done::Slept(ms(2)), Done::Slept(ms(4))]);
}

#[test]
fn a_resume_during_a_look_looks_again() {
    let clock = ManualClock::new(0);
    let b = ready(&clock);
    let mut host = Script::new(&[retry(5), NOW]);
    host.resumes_while_asked = true;
    b.acquire(&mut host).expect("a permit").success();
    assert_eq!(host.done, [Done::Asked(Duration::MAX); 2]);
}

#[test]
fn p12_four_yields_then_the_deadline() {
    let clock = ManualClock::new(0);
    let b = ready(&clock);
    let mut host = Script::new(&[retry(0); 5]);
    let missed = b.acquire_timeout(&mut host, Duration::ZERO).unwrap_err();
    assert_eq!(missed, ThrottleError::DeadlineExceeded);
    assert_eq!(missed.number(), 9);
    let turn = [Done::Asked(Duration::ZERO), Done::Yielded];
    let mut expected = turn.repeat(4);
    expected.push(Done::Asked(Duration::ZERO));
    assert_eq!(host.done, expected);
    assert_eq!(journal_fields(&b), GIVEN_BACK);
}

#[test]
fn a_deadline_gives_a_held_grant_back() {
    let clock = ManualClock::new(0);
    let b = ready(&clock);
    let mut host = Script::new(&[NOW]);
    host.pause = ms(9);
    let missed = b.acquire_timeout(&mut host, ms(8)).unwrap_err();
    assert_eq!(missed, ThrottleError::DeadlineExceeded);
    assert_eq!(host.done, [Done::Asked(ms(8)), Done::Refunded(1)]);
    assert_eq!(journal_fields(&b), GIVEN_BACK);
}

#[test]
fn never_is_told_with_the_capacity() {
    let clock = ManualClock::new(0);
    let b = ready(&clock);
    let mut host = Script::new(&[Reply::Never]);
    let never = b.acquire(&mut host).unwrap_err();
    let expected = ThrottleError::CostExceedsCapacity {
        cost: 1,
        capacity: 100,
    };
    assert_eq!(never, expected);
    assert_eq!(host.refunds(), 0);
    assert_eq!(journal_fields(&b), GIVEN_BACK);
}

#[test]
fn a_breaker_that_opens_meanwhile_sheds() {
    let clock = ManualClock::new(0);
    let b = ready(&clock);
    let mut host = Script::new(&[granted(2)]);
    let mut waiting = b.admit_waiting(&mut host, None).expect("a wait");
    assert!(waiting.turn().expect("a turn").is_none());
    clock.set(1035);
    b.record_failure().expect("recorded");
    clock.set(1040);
    let shed = ThrottleError::CircuitOpen {
        retry_after: ms(995),
    };
    assert_eq!(waiting.turn().unwrap_err(), shed);
    drop(waiting);
    assert_eq!(host.refunds(), 1);
    assert_eq!(b.acquire(&mut host).unwrap_err(), shed);
    assert_eq!(b.state(), BreakerState::Open);
}

#[test]
fn a_dropped_wait_gives_back() {
    let clock = ManualClock::new(0);
    let b = ready(&clock);
    for (reply, refunds) in [(retry(5), 0), (granted(5), 1)] {
        let mut host = Script::new(&[reply]);
        let mut waiting = b.admit_waiting(&mut host, None).expect("a wait");
        assert!(waiting.turn().expect("a turn").is_none());
        assert_eq!(journal_fields(&b), ONE_OUT);
        drop(waiting);
        assert_eq!(host.refunds(), refunds, "{reply:?}");
        assert_eq!(journal_fields(&b), GIVEN_BACK);
    }
}

#[test]
fn a_host_that_panics_leaves_nothing_out() {
    let clock = ManualClock::new(0);
    let b = ready(&clock);
    let mut host = Script::new(&[granted(5)]);
    host.panics_in_sleep = true;
    let wait = AssertUnwindSafe(|| b.acquire(&mut host).map(drop));
    assert!(catch_unwind(wait).is_err());
    assert_eq!(host.refunds(), 1);
    assert_eq!(journal_fields(&b), GIVEN_BACK);
}

#[test]
fn a_time_over_its_bound_is_told_1() {
    let clock = ManualClock::new(0);
    let b = ready(&clock);
    let before = snapshot(&b);
    let over = Duration::from_nanos((1 << 62) + 1);
    let mut host = Script::new(&[granted(5), NOW]);
    for timeout in [over, Duration::MAX] {
        let refused = b.admit_waiting(&mut host, Some(timeout)).unwrap_err();
        assert_eq!(refused, ThrottleError::Time);
        assert_eq!(snapshot(&b), before);
    }
    let mut waiting = b.admit_waiting(&mut host, None).expect("a wait");
    let pending = waiting.pending;
    waiting.host_mut().pause = over;
    assert_eq!(waiting.turn().unwrap_err(), ThrottleError::Time);
    assert_eq!(waiting.pending, pending);
    assert_eq!(waiting.host_mut().refunds(), 1);
    waiting.host_mut().pause = Duration::ZERO;
    let permit = waiting.turn().expect("a turn").expect("a permit");
    permit.success();
    drop(waiting);
    assert_eq!(host.refunds(), 1);
}
