//! Runs `acquire` and `acquire_timeout` by hand. It is a child of the probe's
//! module, which stands in circuit.rs.

use core::future::Future;
use core::task::{Context, Poll, Waker};
use core::time::Duration;
use std::cell::RefCell;
use std::rc::Rc;

use super::super::Permit;
use super::{Subject, whole_ms};
use crate::decision::Decision;
use crate::error::ThrottleError;
use crate::plain::{Answer, Ticket};
use crate::rt;
use crate::scripted::Scripted;
use crate::turns::{GRANTED, Handed, Host, RETRY, Start};
use clock_lib::SetClock;

/// What a wait ends with.
type Ended<'a> = Result<Permit<'a, Scripted, SetClock>, ThrottleError>;

impl Subject {
    /// Plays one wait with this host until it ends or is dropped. A permit that
    /// it ends with is not settled: its ticket is told.
    pub fn wait<H: Host + 'static>(self: &Rc<Self>, start: &Start, host: &Rc<RefCell<H>>) {
        self.set_clock(start.now_ms);
        self.inner().script().asked.clear();
        rt::enter(start.clock, self.supply(host));
        let mut future = Box::pin(self.acquire_within(start));
        let answer = loop {
            match future.as_mut().poll(&mut Context::from_waker(Waker::noop())) {
                Poll::Ready(ended) => break self.ended(ended),
                Poll::Pending => self.tell(host, rt::shown()),
            }
            if !host.borrow_mut().goes_on(self) {
                drop(future);
                break Answer::dropped(self.given_back_ones());
            }
        };
        rt::leave();
        host.borrow_mut().told(self, answer);
    }

    async fn acquire_within(&self, start: &Start) -> Ended<'_> {
        if start.limited {
            let timeout = Duration::from_nanos(start.timeout);
            self.breaker.acquire_timeout(timeout).await
        } else {
            self.breaker.acquire().await
        }
    }

    /// Where a turn begins: tells the host what the engine passed, if it did,
    /// and asks for the turn.
    fn supply<H: Host + 'static>(self: &Rc<Self>, host: &Rc<RefCell<H>>) -> rt::Next {
        let (subject, host) = (Rc::clone(self), Rc::clone(host));
        Box::new(move |passed| {
            if let Some(answer) = passed {
                subject.tell(&host, answer);
            }
            let handed = host.borrow_mut().turn(&subject);
            subject.lay(&handed);
            handed.turn
        })
    }

    /// Tells the host of a start or a turn after which the wait goes on.
    fn tell<H: Host>(&self, host: &RefCell<H>, answer: Answer) {
        assert_eq!(self.given_back_ones(), 0, "nothing is given back on the way");
        host.borrow_mut().told(self, answer);
    }

    /// Sets what the breaker's clock and the inner limiter say in a turn. What
    /// the limiter was asked before is forgotten.
    fn lay(&self, handed: &Handed) {
        self.set_clock(handed.now_ms);
        let after = Duration::from_nanos(handed.turn.duration);
        let mut script = self.inner().script();
        script.asked.clear();
        script.capacity = handed.capacity;
        script.reserve = (handed.turn.kind == GRANTED).then_some(after);
        script.peek = match handed.turn.kind {
            RETRY if handed.acquired && after.is_zero() => Decision::Acquired,
            RETRY => Decision::Retry { after },
            _ => Decision::Impossible,
        };
    }

    fn ended(&self, ended: Ended) -> Answer {
        let given_back = self.given_back_ones();
        match ended {
            Err(ThrottleError::CircuitOpen { retry_after }) => {
                Answer::shed_late(whole_ms(retry_after), given_back)
            }
            Err(ThrottleError::DeadlineExceeded) => Answer::deadline(given_back),
            Err(ThrottleError::CostExceedsCapacity { cost, capacity }) if given_back == 0 => {
                Answer::never(cost.into(), capacity.into())
            }
            Ok(permit) if given_back == 0 => Answer::done(kept(permit)),
            Ok(_) | Err(_) => panic!("no wait ends so, with {given_back} given back"),
        }
    }

    /// How often one unit was given back since the limiter's questions were
    /// last forgotten.
    fn given_back_ones(&self) -> u64 {
        let refunds = self.inner().script().refunds();
        assert!(refunds.iter().all(|&cost| cost == 1), "a cost other than 1");
        refunds.len() as u64
    }
}

/// The ticket of a permit, which is not dropped.
fn kept(permit: Permit<'_, Scripted, SetClock>) -> Ticket {
    let ticket = Ticket {
        generation: permit.ticket.generation,
        probe: permit.ticket.probe,
    };
    core::mem::forget(permit);
    ticket
}
