//! The calls of the archive that aren't of a wait.

use throttle::plain::{Answer, Call, End};
use throttle::scope::PLACES;

use crate::convert::{flag, own, plain_told};
use crate::ffi::{self, Preview, Setting};
use crate::side::{ROOM, Side};

/// How a call is handed in.
#[derive(Clone, Copy, Debug)]
pub struct Handing {
    /// The count that comes with the list.
    pub places: usize,
    /// A reply kind in place of the call's own.
    pub kind: Option<u8>,
    /// What stands for the inner limiter's milliseconds where it has none.
    pub unread: u64,
    /// The byte that stands for true: any but 0.
    pub yes: u8,
}

impl Default for Handing {
    fn default() -> Self {
        Self {
            places: PLACES,
            kind: None,
            unread: 0,
            yes: 1,
        }
    }
}

/// The finishing calls of a sequence, each part on its own; the last three are flags.
pub struct Named<'a> {
    pub generations: &'a [u64],
    pub probes: &'a [u8],
    pub settles: &'a [u8],
    pub marks: &'a [u8],
}

impl Side {
    /// Puts a fresh breaker here.
    pub fn build(&mut self, setting: Setting, places: usize) -> Answer {
        assert!(places <= ROOM);
        let list = self.list.as_mut_ptr();
        // SAFETY: the list has so many places.
        plain_told(unsafe { ffi::pudvirez_build(&mut self.breaker, list, places, setting) })
    }

    pub fn call(&mut self, now: u64, call: &Call) -> Answer {
        self.hand(now, call, &Handing::default())
    }

    pub fn hand(&mut self, now: u64, call: &Call, how: &Handing) -> Answer {
        assert!(how.places <= ROOM);
        match call.numbers().0 {
            1..=6 => self.plain_call(now, call, how),
            7 | 9 => self.ticket_call(now, call, how),
            _ => self.inner_call(now, call, how),
        }
    }

    fn plain_call(&mut self, now: u64, call: &Call, how: &Handing) -> Answer {
        let (b, list) = (&raw mut self.breaker, self.list.as_mut_ptr());
        let (places, flag) = (how.places, |value| flag(value, how.yes));
        let own = |ticket| own(ticket, how.yes);
        // SAFETY: the list has so many places.
        let told = unsafe {
            match *call {
                Call::Admit { via_trait } => {
                    ffi::pudvirez_admit_as(b, list, places, now, flag(via_trait))
                }
                Call::Settle { ticket, success } => {
                    ffi::pudvirez_settle(b, list, places, now, own(ticket), flag(success))
                }
                Call::Abort { ticket, via_trait } => {
                    ffi::pudvirez_abort_as(b, list, places, own(ticket), flag(via_trait))
                }
                Call::ReleaseTraitProbe => ffi::pudvirez_release_trait_probe(b, list, places),
                Call::Record { success } => {
                    ffi::pudvirez_record_manual(b, list, places, now, flag(success))
                }
                Call::Reset => ffi::pudvirez_reset(b, list, places),
                _ => unreachable!("not of ops 1 to 6: {call:?}"),
            }
        };
        plain_told(told)
    }

    fn ticket_call(&mut self, now: u64, call: &Call, how: &Handing) -> Answer {
        let (b, list) = (&raw mut self.breaker, self.list.as_mut_ptr());
        let (places, own) = (how.places, |ticket| own(ticket, how.yes));
        // SAFETY: the list has so many places.
        let told = unsafe {
            match *call {
                Call::StillAdmits { ticket } => {
                    ffi::pudvirez_still_admits(b, list, places, now, own(ticket))
                }
                Call::Permit { ticket, end } => match end {
                    End::Success => ffi::pudvirez_permit_success(b, list, places, now, own(ticket)),
                    End::Failure => ffi::pudvirez_permit_failure(b, list, places, now, own(ticket)),
                    End::Dropped => ffi::pudvirez_permit_dropped(b, list, places, now, own(ticket)),
                    End::Cancel => ffi::pudvirez_permit_cancel(b, list, places, own(ticket)),
                },
                _ => unreachable!("not of ops 7 and 9: {call:?}"),
            }
        };
        plain_told(told)
    }

    /// Where a reply has no milliseconds, the unread ones are handed in.
    fn inner_call(&mut self, now: u64, call: &Call, how: &Handing) -> Answer {
        let (_, [kind, ms, ..]) = call.numbers();
        let reserved = matches!(call, Call::Reserve { .. }) && kind == 1;
        let ms = if kind == 2 || reserved {
            ms
        } else {
            how.unread
        };
        let kind = how.kind.unwrap_or(kind as u8);
        let (b, list) = (&raw mut self.breaker, self.list.as_mut_ptr());
        let places = how.places;
        // SAFETY: the list has so many places.
        let told = unsafe {
            match *call {
                Call::TryAdmit { capacity, .. } => {
                    ffi::pudvirez_try_admit(b, list, places, now, kind, ms, capacity)
                }
                Call::Peek { .. } => ffi::pudvirez_peek(b, list, places, now, kind, ms),
                Call::AcquireCost { .. } => {
                    ffi::pudvirez_acquire_cost(b, list, places, now, kind, ms)
                }
                Call::Reserve { .. } => ffi::pudvirez_reserve(b, list, places, now, kind, ms),
                Call::Available { count, .. } => {
                    ffi::pudvirez_available(b, list, places, now, kind, ms, count)
                }
                Call::Refund { cost } => ffi::pudvirez_refund(b, list, places, cost),
                _ => panic!("the archive has no {call:?}"),
            }
        };
        plain_told(told)
    }

    /// What a settle or an abort would tell and leave.
    pub fn preview(&self, now: u64, call: &Call, how: &Handing) -> Preview {
        assert!(how.places <= ROOM);
        let (b, list, places) = (&raw const self.breaker, self.list.as_ptr(), how.places);
        let (own, flag) = (|ticket| own(ticket, how.yes), |value| flag(value, how.yes));
        // SAFETY: the list has so many places.
        unsafe {
            match *call {
                Call::Settle { ticket, success } => {
                    ffi::pudvirez_preview_settle(b, list, places, now, own(ticket), flag(success))
                }
                Call::Abort { ticket, via_trait } => {
                    ffi::pudvirez_preview_abort(b, list, places, own(ticket), flag(via_trait))
                }
                _ => panic!("{call:?} has no preview"),
            }
        }
    }

    pub fn board(&self, places: usize) -> Answer {
        assert!(places <= ROOM);
        // SAFETY: the list has so many places.
        plain_told(unsafe { ffi::pudvirez_board(&self.breaker, self.list.as_ptr(), places) })
    }

    pub fn is_sound(&self, places: usize) -> bool {
        assert!(places <= ROOM);
        // SAFETY: the list has so many places.
        unsafe { ffi::pudvirez_is_sound(&self.breaker, self.list.as_ptr(), places) }
    }

    /// Finishing calls in one; the numbers of each go to `answers`.
    pub fn finish_all(
        &mut self,
        now: u64,
        calls: &Named,
        answers: &mut [u64],
        places: usize,
    ) -> Answer {
        assert!(places <= ROOM);
        let list = self.list.as_mut_ptr();
        // SAFETY: the list has so many places; the rest are slices.
        plain_told(unsafe {
            ffi::pudvirez_finish_all(
                &mut self.breaker,
                list,
                places,
                now,
                calls.generations.as_ptr(),
                calls.generations.len(),
                calls.probes.as_ptr(),
                calls.probes.len(),
                calls.settles.as_ptr(),
                calls.settles.len(),
                calls.marks.as_ptr(),
                calls.marks.len(),
                answers.as_mut_ptr(),
                answers.len(),
            )
        })
    }
}
