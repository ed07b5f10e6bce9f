//! A record, its storage and a wait, lent to the archive.

use throttle::plain::{self, Answer, Settings, State};
use throttle::scope::PLACES;
use throttle::turns::{Handed, Start};

use crate::convert::{config, flag, plain_told, setting, shared, turn};
use crate::ffi::{self, Breaker, Pending, Waited};

/// Places past the storage, which no call may touch.
const SPARE: usize = 8;
pub const ROOM: usize = PLACES + SPARE;
const UNTOUCHED: [u64; SPARE] = [0x5a5a_5a5a_5a5a_5a5a; SPARE];

pub struct Side {
    pub breaker: Breaker,
    pub list: Box<[u64; ROOM]>,
    pub pending: Pending,
    /// The byte that stands for true in what is handed to a wait: any but 0.
    pub yes: u8,
}

impl Default for Side {
    fn default() -> Self {
        let mut list = Box::new([0; ROOM]);
        list[PLACES..].copy_from_slice(&UNTOUCHED);
        Self {
            breaker: Breaker::default(),
            list,
            pending: Pending::default(),
            yes: 1,
        }
    }
}

/// Making, setting and comparing.
impl Side {
    /// A fresh breaker, then set to a state.
    pub fn set(&mut self, settings: &Settings, state: &State) -> Answer {
        let list = self.list.as_mut_ptr();
        let setting = setting(settings);
        // SAFETY: the list has so many places.
        let told = unsafe { ffi::pudvirez_build(&mut self.breaker, list, PLACES, setting) };
        self.breaker.shared = shared(state);
        self.list[..state.items.len()].copy_from_slice(&state.items);
        self.pending = Pending::default();
        plain_told(told)
    }

    /// Whether every field and every place is as in this config and state.
    pub fn holds(&self, config: &plain::Config, state: &State) -> bool {
        let breaker = Breaker {
            config: self::config(config),
            shared: shared(state),
        };
        let len = state.items.len();
        self.breaker == breaker && self.list[..len] == state.items && self.clean_past(len)
    }

    /// Whether the places from here on hold 0, and those past the storage are untouched.
    pub fn clean_past(&self, len: usize) -> bool {
        let any = self.list[len..PLACES]
            .iter()
            .fold(0, |any, place| any | place);
        any == 0 && self.list[PLACES..] == UNTOUCHED
    }

    /// What it holds, to be read by people.
    pub fn print(&self) -> String {
        let Self {
            breaker,
            list,
            pending,
            yes: _,
        } = self;
        let used = PLACES
            - list[..PLACES]
                .iter()
                .rev()
                .take_while(|&&place| place == 0)
                .count();
        format!("{breaker:?}, list {:?}, {pending:?}", &list[..used])
    }
}

/// The waiting calls.
impl Side {
    /// After a start its probe flag, of 0 or 1, is handed on as the byte that stands for it.
    pub fn start(&mut self, start: &Start) -> Waited {
        let (list, limited) = (self.list.as_mut_ptr(), flag(start.limited, self.yes));
        // SAFETY: the list has so many places; nothing overlaps.
        let told = unsafe {
            ffi::pudvirez_wait_start(
                &mut self.breaker,
                list,
                PLACES,
                &mut self.pending,
                start.now_ms,
                start.clock,
                limited,
                start.timeout,
            )
        };
        if told.number == ffi::told::OK {
            let probe = &mut self.pending.ticket.probe;
            assert!(*probe <= 1, "a start left the probe flag {probe}");
            *probe = flag(*probe == 1, self.yes);
        }
        told
    }

    pub fn turn(&mut self, handed: &Handed) -> Waited {
        self.keeping_ticket(|breaker, list, pending| {
            // SAFETY: as for a start.
            unsafe {
                ffi::pudvirez_wait_turn(
                    breaker,
                    list,
                    PLACES,
                    pending,
                    turn(handed),
                    handed.now_ms,
                    handed.capacity,
                )
            }
        })
    }

    pub fn run(&mut self, turns: &[u64], limit: u64, now_ms: u64, capacity: u32) -> Waited {
        let (first, count) = (turns.as_ptr(), turns.len());
        self.keeping_ticket(|breaker, list, pending| {
            // SAFETY: as for a start, and the turns are a slice.
            unsafe {
                ffi::pudvirez_wait_run(
                    breaker, list, PLACES, pending, first, count, limit, now_ms, capacity,
                )
            }
        })
    }

    pub fn drop_wait(&mut self) -> Waited {
        self.keeping_ticket(|breaker, list, pending| {
            // SAFETY: as for a start.
            unsafe { ffi::pudvirez_wait_drop(breaker, list, PLACES, pending) }
        })
    }

    /// A call that must leave the ticket of its wait as it was.
    fn keeping_ticket(
        &mut self,
        call: impl FnOnce(&mut Breaker, *mut u64, &mut Pending) -> Waited,
    ) -> Waited {
        let before = self.pending.ticket;
        let told = call(&mut self.breaker, self.list.as_mut_ptr(), &mut self.pending);
        assert_eq!(self.pending.ticket, before, "the ticket of a wait moved");
        told
    }
}
