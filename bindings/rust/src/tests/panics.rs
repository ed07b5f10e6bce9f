//! A host or a clock that panics, once, at each point of a wait: no unit and no trial is lost.
use core::cell::{Cell, RefCell};
use core::time::Duration;
use std::panic::{catch_unwind, resume_unwind, AssertUnwindSafe};

use super::journal_fields;
use crate::{
    BreakerState, CircuitBreaker, Clock, Decision, Host, Permit, Reply, ThrottleError, Trip,
};

const fn ms(n: u64) -> Duration {
    Duration::from_millis(n)
}

/// Panics at the n-th of the calls that light it, and never again. No message is printed.
#[derive(Debug)]
struct Fuse(Cell<Option<u32>>);

impl Fuse {
    fn burn(&self) {
        let left = self.0.get();
        self.0.set(left.and_then(|n| n.checked_sub(1)));
        if left == Some(0) {
            resume_unwind(Box::new("a call that fails"));
        }
    }

    /// Calls that do not light it.
    fn spared<R>(&self, calls: impl FnOnce() -> R) -> R {
        let left = self.0.take();
        let answer = calls();
        self.0.set(left);
        answer
    }
}

/// The breaker's clock: milliseconds that the test sets.
struct Readings<'a>(&'a Fuse, Cell<u64>);

impl Clock for Readings<'_> {
    fn now_ms(&self) -> u64 {
        self.0.burn();
        self.1.get()
    }
}

/// What a host does in one case: its replies, the last of them for ever, and pauses that it reads.
#[derive(Clone, Copy, Debug)]
struct Case {
    replies: &'static [Reply],
    pauses: &'static [u64],
    timeout: Option<u64>,
    /// The breaker opens during the first sleep.
    opens: bool,
}

/// A limiter and its clock, all of whose calls light the fuse. It counts what is out.
struct Fused<'a> {
    fuse: &'a Fuse,
    case: Case,
    asked: usize,
    paused: usize,
    clock: Duration,
    out: i64,
    sleeps: &'a RefCell<dyn FnMut() + 'a>,
}

impl Host for Fused<'_> {
    fn now(&mut self) -> Duration {
        self.fuse.burn();
        self.clock
    }

    /// It panics before it takes a unit: one that is taken and not replied is the limiter's own.
    fn ask(&mut self, _budget: Duration) -> Reply {
        self.fuse.burn();
        let reply = self.case.replies[self.asked.min(self.case.replies.len() - 1)];
        self.asked += 1;
        self.out += i64::from(matches!(reply, Reply::Granted { .. }));
        reply
    }

    fn capacity(&mut self) -> u32 {
        self.fuse.burn();
        100
    }

    /// It panics after it took the units back.
    fn refund(&mut self, cost: u32) {
        self.out -= i64::from(cost);
        self.fuse.burn();
    }

    fn sleep(&mut self, nap: Duration) {
        self.fuse.burn();
        self.clock += nap;
        (self.sleeps.borrow_mut())();
    }

    fn sleep_unless_resumed(&mut self, nap: Duration, _epoch: u64) {
        self.sleep(nap);
    }

    fn yield_now(&mut self) {
        self.fuse.burn();
    }

    fn resume_epoch(&mut self) -> u64 {
        self.fuse.burn();
        0
    }

    fn paused_for(&mut self) -> Duration {
        self.fuse.burn();
        let pause = self.case.pauses.get(self.paused).copied();
        self.paused += 1;
        ms(pause.unwrap_or(0))
    }

    fn postponed(&mut self) -> Duration {
        self.fuse.burn();
        Duration::ZERO
    }
}

const GRANTED: Reply = Reply::Granted {
    after: Duration::ZERO,
};
const LATER: Reply = Reply::Granted { after: ms(2) };
const RETRY: Reply = Reply::Retry { after: ms(5) };
const RACE: Reply = Reply::Retry {
    after: Duration::ZERO,
};

const PLAIN: Case = Case {
    replies: &[GRANTED],
    pauses: &[],
    timeout: None,
    opens: false,
};

const CASES: [Case; 7] = [
    PLAIN,
    Case {
        replies: &[RETRY, RACE, LATER],
        ..PLAIN
    },
    // a pause that the grant outlasts, and one that it doesn't
    Case {
        pauses: &[30, 0],
        ..PLAIN
    },
    Case {
        pauses: &[30],
        timeout: Some(20),
        ..PLAIN
    },
    // a pause over its bound: the turn is refused, and its unit goes back
    Case {
        pauses: &[u64::MAX / 2_000_000],
        ..PLAIN
    },
    Case {
        replies: &[LATER],
        opens: true,
        ..PLAIN
    },
    Case {
        replies: &[RACE, Reply::Never],
        ..PLAIN
    },
];

/// Runs the test on a half-open breaker, from which a wait takes a trial, and a host. The fuse is lit by then.
fn with_host<R>(
    case: Case,
    fuse: &Fuse,
    test: impl FnOnce(&CircuitBreaker<Readings<'_>>, &mut Fused<'_>) -> R,
) -> R {
    let clock = Readings(fuse, Cell::new(30));
    let breaker = CircuitBreaker::builder()
        .trip(Trip::Consecutive(1))
        .cooldown(ms(1000))
        .half_open(2, 2)
        .build(clock)
        .expect("a breaker");
    fuse.spared(|| breaker.record_failure()).expect("recorded");
    breaker.clock.1.set(1030);
    let sleeps = RefCell::new(|| {
        if case.opens {
            let recorded = fuse.spared(|| breaker.record_failure());
            recorded.expect("recorded");
        }
    });
    let mut host = Fused {
        fuse,
        case,
        asked: 0,
        paused: 0,
        clock: ms(500),
        out: 0,
        sleeps: &sleeps,
    };
    test(&breaker, &mut host)
}

/// Units and trials that are out, which must be those of the admitted call.
fn check<C: Clock>(breaker: &CircuitBreaker<C>, host: &Fused<'_>, admitted: bool, n: u32) {
    let case = host.case;
    assert_eq!(host.out, i64::from(admitted), "units: {case:?}, call {n}");
    let trials = journal_fields(breaker).2;
    assert_eq!(trials, u32::from(admitted), "trials: {case:?}, call {n}");
}

/// Sees a wait through. Its permit is left out.
fn wait(breaker: &CircuitBreaker<Readings<'_>>, host: &mut Fused<'_>) -> Result<(), ThrottleError> {
    let permit = match host.case.timeout {
        Some(timeout) => breaker.acquire_timeout(host, ms(timeout)),
        None => breaker.acquire(host),
    };
    core::mem::forget(permit?);
    Ok(())
}

#[test]
fn the_cases_end_in_every_way() {
    let ends = CASES.map(|case| {
        let fuse = Fuse(Cell::new(None));
        with_host(case, &fuse, wait).map_err(|refused| refused.number())
    });
    let admitted = Ok(());
    let expected = [admitted, admitted, admitted, Err(9), Err(1), Err(6), Err(8)];
    assert_eq!(ends, expected);
}

/// A wait with a panic at its n-th call. Says whether there was one.
fn panics_at(case: Case, n: u32) -> bool {
    let fuse = Fuse(Cell::new(Some(n)));
    with_host(case, &fuse, |breaker, host| {
        let ended = catch_unwind(AssertUnwindSafe(|| wait(breaker, host)));
        check(breaker, host, matches!(ended, Ok(Ok(()))), n);
        ended.is_err()
    })
}

#[test]
fn a_panic_at_each_point_loses_nothing() {
    for case in CASES {
        let points = (0..).take_while(|n| panics_at(case, *n)).count();
        assert!(points > 10, "{case:?}: {points} points");
    }
}

/// A caller that catches the panic and goes on with the wait. Says whether there was one.
fn goes_on_after(case: Case, n: u32) -> bool {
    let fuse = Fuse(Cell::new(Some(n)));
    with_host(case, &fuse, |breaker, host| {
        let timeout = case.timeout.map(ms);
        let started = fuse.spared(|| breaker.admit_waiting(&mut *host, timeout));
        let (mut waiting, mut admitted) = (started.expect("a wait"), false);
        for _ in 0..20 {
            let turn = catch_unwind(AssertUnwindSafe(|| waiting.turn()));
            if let Ok(Ok(Some(permit))) = turn {
                core::mem::forget(permit);
                admitted = true;
            }
        }
        drop(waiting);
        check(breaker, host, admitted, n);
        fuse.0.get().is_none()
    })
}

#[test]
fn a_wait_goes_on_after_a_panic() {
    for case in CASES {
        let points = (0..).take_while(|n| goes_on_after(case, *n)).count();
        assert!(points > 10, "{case:?}: {points} points");
    }
}

/// A clock that panics once while a permit is settled: its drop settles it, as a failure.
#[test]
fn a_clock_that_panics_leaves_the_permit_to_its_drop() {
    let settles: [fn(Permit<'_, Readings<'_>>); 2] = [
        |permit| permit.success(),
        |permit| permit.failure().expect("told"),
    ];
    for settle in settles {
        let fuse = Fuse(Cell::new(None));
        with_host(PLAIN, &fuse, |breaker, _| {
            let permit = breaker.try_acquire(Decision::Acquired).expect("a permit");
            fuse.0.set(Some(0));
            let settled = catch_unwind(AssertUnwindSafe(|| settle(permit)));
            assert!(settled.is_err());
            assert_eq!(breaker.state(), BreakerState::Open);
        });
    }
}

/// A limiter that panics when it is asked: the admission is given back.
#[test]
fn a_limiter_that_panics_gives_the_admission_back() {
    let fuse = Fuse(Cell::new(None));
    with_host(PLAIN, &fuse, |breaker, host| {
        fuse.0.set(Some(1));
        let asked = catch_unwind(AssertUnwindSafe(|| {
            let permit = breaker.try_acquire_with(|| match host.ask(Duration::MAX) {
                Reply::Granted { .. } => Decision::Acquired,
                reply => unreachable!("{reply:?}"),
            });
            permit.map(drop)
        }));
        assert!(asked.is_err());
        assert_eq!(journal_fields(breaker), (1, 2, 0, 0, 1030));
    });
}
