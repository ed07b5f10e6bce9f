//! The inner limiter: it answers what was set before, and keeps what it was asked.

use std::sync::{Mutex, MutexGuard};
use std::time::Duration;

use crate::decision::Decision;
use crate::limiter::Limiter;
use crate::rt;

/// The replies, and the questions since they were last forgotten.
#[derive(Debug)]
pub struct Script {
    pub acquire: Decision,
    pub peek: Decision,
    pub reserve: Option<Duration>,
    pub available: u32,
    pub capacity: u32,
    pub charge: u32,
    pub asked: Vec<Asked>,
}

/// A question put to the inner limiter, with its cost.
#[derive(Clone, Copy, Debug, PartialEq, Eq)]
pub enum Asked {
    Acquire(u32),
    Peek(u32),
    Reserve(u32, Duration),
    Charge(u32),
    Refund(u32),
}

impl Script {
    /// The costs given back, in order.
    pub fn refunds(&self) -> Vec<u32> {
        let refund = |asked: &Asked| match *asked {
            Asked::Refund(cost) => Some(cost),
            _ => None,
        };
        self.asked.iter().filter_map(refund).collect()
    }
}

/// A limiter that plays its script.
#[derive(Debug)]
pub struct Scripted(Mutex<Script>);

impl Default for Scripted {
    fn default() -> Self {
        Self(Mutex::new(Script {
            acquire: Decision::Acquired,
            peek: Decision::Acquired,
            reserve: Some(Duration::ZERO),
            available: 0,
            capacity: 0,
            charge: 0,
            asked: Vec::new(),
        }))
    }
}

impl Scripted {
    /// The script, to read it or to change it.
    pub fn script(&self) -> MutexGuard<'_, Script> {
        self.0.lock().expect("no call panics while it holds this")
    }

    fn asked(&self, question: Asked) -> MutexGuard<'_, Script> {
        let mut script = self.script();
        script.asked.push(question);
        script
    }
}

impl Limiter for Scripted {
    fn peek(&self, cost: u32) -> Decision {
        self.asked(Asked::Peek(cost)).peek
    }

    fn acquire_cost(&self, cost: u32) -> Decision {
        self.asked(Asked::Acquire(cost)).acquire
    }

    fn available(&self) -> u32 {
        self.script().available
    }

    fn capacity(&self) -> u32 {
        self.script().capacity
    }

    fn refund(&self, cost: u32) {
        drop(self.asked(Asked::Refund(cost)));
    }

    fn reserve(&self, cost: u32, max_wait: Duration) -> Option<Duration> {
        self.asked(Asked::Reserve(cost, max_wait)).reserve
    }

    fn charge(&self, cost: u32) -> u32 {
        self.asked(Asked::Charge(cost)).charge
    }

    fn paused_for(&self) -> Duration {
        rt::paused()
    }

    fn postponed(&self) -> Duration {
        rt::postponed()
    }
}
