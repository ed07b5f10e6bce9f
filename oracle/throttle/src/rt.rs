//! Stand-in for rt.rs, on which wait.rs runs turn by turn. Every turn begins with
//! a read of the resume epoch, and its clock stands still.

use std::cell::RefCell;
use std::future::poll_fn;
use std::mem;
use std::task::Poll;
use std::time::Duration;

use crate::plain::Answer;
use crate::turns::{GRANTED, Turn};

/// Hands in the next turn. It is told what the engine came to where the engine
/// went on to that turn without an await.
pub(crate) type Next = Box<dyn FnMut(Option<Answer>) -> Turn>;

/// What the engine has read of its turn.
#[derive(Clone, Copy, Debug, PartialEq, Eq)]
enum At {
    /// No turn was begun; the clock is that of the start.
    Start,
    /// It sleeps or has yielded.
    Away,
    /// The first epoch: it looks.
    Looked,
    /// The second epoch: it naps after a look, or checks what it holds.
    Checked,
}

struct Stage {
    next: Option<Next>,
    turn: Turn,
    at: At,
    /// A turn has granted: all that follow are held checks.
    held: bool,
    shown: Option<Answer>,
}

impl Stage {
    const EMPTY: Self = Self {
        next: None,
        turn: Turn::from_numbers([0; 8]),
        at: At::Away,
        held: false,
        shown: None,
    };

    /// What came of the start or of the last turn, if the engine didn't stop.
    fn passed(&self) -> Option<Answer> {
        match self.at {
            At::Start => Some(Answer::BEGUN),
            At::Away => None,
            At::Checked if !self.held => Some(Answer::LOOK_AGAIN),
            at => panic!("no turn begins where it is {at:?}"),
        }
    }

    /// Begins a turn and gives the epoch that it reads first.
    fn begin(&mut self, turn: Turn) -> u64 {
        self.turn = turn;
        if self.held {
            self.at = At::Checked;
            turn.epoch_after
        } else {
            self.at = At::Looked;
            self.held = turn.kind == GRANTED;
            turn.epoch_before
        }
    }

    fn clock(&self) -> u64 {
        assert_ne!(self.at, At::Away, "the clock is read in a turn");
        self.turn.clock
    }
}

thread_local! {
    static STAGE: RefCell<Stage> = const { RefCell::new(Stage::EMPTY) };
}

fn with<T>(act: impl FnOnce(&mut Stage) -> T) -> T {
    STAGE.with_borrow_mut(act)
}

/// Sets the stage for a wait that starts at this clock.
pub(crate) fn enter(clock: u64, next: Next) {
    let turn = Turn {
        clock,
        ..Turn::default()
    };
    with(|stage| {
        *stage = Stage {
            next: Some(next),
            turn,
            at: At::Start,
            ..Stage::EMPTY
        }
    });
}

/// Clears the stage.
pub(crate) fn leave() {
    drop(with(|stage| mem::replace(stage, Stage::EMPTY)));
}

/// What the engine stopped for.
pub(crate) fn shown() -> Answer {
    with(|stage| stage.shown.take()).expect("the engine waits for nothing else")
}

/// A look reads it first and before a nap; a held check reads it once. A look
/// that reads it a third time has begun again.
pub(crate) fn resume_epoch() -> usize {
    let looked = with(|stage| stage.at == At::Looked);
    let epoch = if looked { second_epoch() } else { begin() };
    usize::try_from(epoch).expect("a machine with 64 bits")
}

fn second_epoch() -> u64 {
    with(|stage| {
        stage.at = At::Checked;
        stage.turn.epoch_after
    })
}

/// The stage is free meanwhile, so that the breaker can be called.
fn begin() -> u64 {
    let (next, passed) = with(|stage| (stage.next.take(), stage.passed()));
    let mut next = next.expect("a wait is played");
    let turn = next(passed);
    with(|stage| {
        stage.next = Some(next);
        stage.begin(turn)
    })
}

/// The inner limiter's pause.
pub(crate) fn paused() -> Duration {
    with(|stage| Duration::from_nanos(stage.turn.pause))
}

/// The inner limiter's total postponement: a look reads the first number of the
/// turn, a held check the second.
pub(crate) fn postponed() -> Duration {
    Duration::from_nanos(with(|stage| match stage.at {
        At::Looked => stage.turn.postponed_before,
        _ => stage.turn.postponed_after,
    }))
}

/// A point in time, as the nanoseconds that turns hand in.
#[derive(Clone, Copy, Debug)]
pub(crate) struct Instant(Duration);

impl Instant {
    pub(crate) fn now() -> Self {
        Self(Duration::from_nanos(with(|stage| stage.clock())))
    }

    pub(crate) fn checked_add(self, duration: Duration) -> Option<Self> {
        self.0.checked_add(duration).map(Self)
    }

    pub(crate) fn saturating_duration_since(self, earlier: Self) -> Duration {
        self.0.saturating_sub(earlier.0)
    }
}

pub(crate) async fn sleep(duration: Duration) {
    stop(Answer::sleep(nanos(duration))).await;
}

pub(crate) async fn sleep_unless_resumed(duration: Duration, epoch: usize) {
    stop(Answer::sleep_unless_resumed(nanos(duration), epoch as u64)).await;
}

pub(crate) async fn yield_now() {
    stop(Answer::YIELD).await;
}

/// Ends the turn, and waits to be polled again.
async fn stop(answer: Answer) {
    with(|stage| {
        stage.at = At::Away;
        stage.shown = Some(answer);
    });
    let mut stopped = false;
    poll_fn(|_| match mem::replace(&mut stopped, true) {
        true => Poll::Ready(()),
        false => Poll::Pending,
    })
    .await;
}

fn nanos(duration: Duration) -> u64 {
    u64::try_from(duration.as_nanos()).expect("no sleep is longer than 2^64 ns")
}
