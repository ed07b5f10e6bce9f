//! A record and its places, owned together. All the unsafe calls of the crate but the tests' stand here.
//!
//! The calls are safe: `record` is a record and `places` as many places as are told, both are borrowed
//! for the length of the call only, a wait beside them too, and nothing else lies in them.
use crate::decision::Decision;
use crate::error::{checked, checked_wait, units, ThrottleError};
use crate::ffi::{self, Breaker, Pending, Setting, Ticket, Told, Turn, Waited};

#[derive(Debug, Clone, PartialEq, Eq)]
pub(crate) struct Owned {
    pub(crate) record: Breaker,
    pub(crate) places: Box<[u64]>,
}

impl Owned {
    pub(crate) fn build(setting: Setting) -> Result<Self, ThrottleError> {
        let mut fresh = Self {
            record: Breaker::default(),
            places: vec![0; ffi::PLACES].into_boxed_slice(),
        };
        fresh.change(|b, list, n| unsafe { ffi::pudvirez_build(b, list, n, setting) })?;
        Ok(fresh)
    }

    pub(crate) fn reconfigure(&mut self, setting: Setting) -> Result<(), ThrottleError> {
        self.change(|b, list, n| unsafe { ffi::pudvirez_reconfigure(b, list, n, setting) })?;
        Ok(())
    }

    /// Answers the used length after the save.
    pub(crate) fn save(
        &self,
        saves: &mut [u8],
        used: usize,
        name: &[u8],
    ) -> Result<usize, ThrottleError> {
        let (room, size) = (saves.as_mut_ptr(), saves.len());
        let told = self.read(|b, list, n| unsafe {
            ffi::pudvirez_save(b, list, n, room, size, used, name.as_ptr(), name.len())
        })?;
        Ok(usize::try_from(told.v1).expect("no more than the size"))
    }

    pub(crate) fn restore(&mut self, saves: &[u8], name: &[u8]) -> Result<(), ThrottleError> {
        let (first, size) = (saves.as_ptr(), saves.len());
        self.change(|b, list, n| unsafe {
            ffi::pudvirez_restore(b, list, n, first, size, size, name.as_ptr(), name.len())
        })?;
        Ok(())
    }

    pub(crate) fn admit(&mut self, now_ms: u64) -> Result<Ticket, ThrottleError> {
        let plain = false.into();
        let told =
            self.change(|b, list, n| unsafe { ffi::pudvirez_admit_as(b, list, n, now_ms, plain) })?;
        Ok(ticket(told.v1, told.v2))
    }

    pub(crate) fn abort(&mut self, ticket: Ticket) -> Result<(), ThrottleError> {
        let plain = false.into();
        self.change(|b, list, n| unsafe { ffi::pudvirez_abort_as(b, list, n, ticket, plain) })?;
        Ok(())
    }

    pub(crate) fn try_admit(
        &mut self,
        now_ms: u64,
        inner: Decision,
    ) -> Result<Ticket, ThrottleError> {
        let (kind, ms, capacity) = inner.numbers();
        let told = self.change(|b, list, n| unsafe {
            ffi::pudvirez_try_admit(b, list, n, now_ms, kind, ms, capacity)
        })?;
        Ok(ticket(told.v1, told.v2))
    }

    pub(crate) fn permit_success(
        &mut self,
        now_ms: u64,
        ticket: Ticket,
    ) -> Result<(), ThrottleError> {
        self.change(|b, list, n| unsafe {
            ffi::pudvirez_permit_success(b, list, n, now_ms, ticket)
        })?;
        Ok(())
    }

    pub(crate) fn permit_failure(
        &mut self,
        now_ms: u64,
        ticket: Ticket,
    ) -> Result<(), ThrottleError> {
        self.change(|b, list, n| unsafe {
            ffi::pudvirez_permit_failure(b, list, n, now_ms, ticket)
        })?;
        Ok(())
    }

    pub(crate) fn permit_dropped(
        &mut self,
        now_ms: u64,
        ticket: Ticket,
    ) -> Result<(), ThrottleError> {
        self.change(|b, list, n| unsafe {
            ffi::pudvirez_permit_dropped(b, list, n, now_ms, ticket)
        })?;
        Ok(())
    }

    /// Answers the units to refund.
    pub(crate) fn permit_cancel(&mut self, ticket: Ticket) -> Result<u32, ThrottleError> {
        let told =
            self.change(|b, list, n| unsafe { ffi::pudvirez_permit_cancel(b, list, n, ticket) })?;
        Ok(units(told.v1))
    }

    pub(crate) fn record_manual(
        &mut self,
        now_ms: u64,
        success: bool,
    ) -> Result<(), ThrottleError> {
        self.change(|b, list, n| unsafe {
            ffi::pudvirez_record_manual(b, list, n, now_ms, success.into())
        })?;
        Ok(())
    }

    pub(crate) fn reset(&mut self) -> Result<(), ThrottleError> {
        self.change(|b, list, n| unsafe { ffi::pudvirez_reset(b, list, n) })?;
        Ok(())
    }

    pub(crate) fn still_admits(&self, now_ms: u64, ticket: Ticket) -> Result<(), ThrottleError> {
        self.read(|b, list, n| unsafe { ffi::pudvirez_still_admits(b, list, n, now_ms, ticket) })?;
        Ok(())
    }

    /// What settling would tell and leave.
    pub(crate) fn preview_settle(
        &self,
        now_ms: u64,
        ticket: Ticket,
        success: bool,
    ) -> ffi::Preview {
        let (list, n) = (self.places.as_ptr(), self.places.len());
        unsafe {
            ffi::pudvirez_preview_settle(&self.record, list, n, now_ms, ticket, success.into())
        }
    }

    /// What giving the admission back would tell and leave.
    pub(crate) fn preview_abort(&self, ticket: Ticket) -> ffi::Preview {
        let (list, n, plain) = (self.places.as_ptr(), self.places.len(), false.into());
        unsafe { ffi::pudvirez_preview_abort(&self.record, list, n, ticket, plain) }
    }

    pub(crate) fn board(&self) -> Result<u64, ThrottleError> {
        let told = self.read(|b, list, n| unsafe { ffi::pudvirez_board(b, list, n) })?;
        Ok(told.v1)
    }

    /// Starts a wait with a timeout in nanoseconds, if it has one.
    pub(crate) fn wait_start(
        &mut self,
        now_ms: u64,
        clock: u64,
        timeout: Option<u64>,
    ) -> Result<Pending, ThrottleError> {
        let (limited, timeout) = (timeout.is_some(), timeout.unwrap_or(0));
        let mut pending = Pending::default();
        let told = self.wait(&mut pending, |b, list, n, p| unsafe {
            ffi::pudvirez_wait_start(b, list, n, p, now_ms, clock, limited.into(), timeout)
        });
        checked_wait(told)?;
        Ok(pending)
    }

    /// What a turn was told, which says what to give back to the inner limiter.
    pub(crate) fn wait_turn(
        &mut self,
        pending: &mut Pending,
        turn: Turn,
        now_ms: u64,
        capacity: u32,
    ) -> Waited {
        self.wait(pending, |b, list, n, p| unsafe {
            ffi::pudvirez_wait_turn(b, list, n, p, turn, now_ms, capacity)
        })
    }

    /// Answers the units to give back.
    pub(crate) fn wait_drop(&mut self, pending: &mut Pending) -> Result<u32, ThrottleError> {
        let told = self.wait(pending, |b, list, n, p| unsafe {
            ffi::pudvirez_wait_drop(b, list, n, p)
        });
        Ok(units(checked_wait(told)?.v1))
    }

    #[cfg(test)]
    pub(crate) fn is_sound(&self) -> bool {
        unsafe { ffi::pudvirez_is_sound(&self.record, self.places.as_ptr(), self.places.len()) }
    }

    /// Lends record and places to a call that may change them.
    fn change(
        &mut self,
        call: impl FnOnce(*mut Breaker, *mut u64, usize) -> Told,
    ) -> Result<Told, ThrottleError> {
        let count = self.places.len();
        checked(call(&mut self.record, self.places.as_mut_ptr(), count))
    }

    /// Lends record, places and a wait to a call.
    fn wait(
        &mut self,
        pending: &mut Pending,
        call: impl FnOnce(*mut Breaker, *mut u64, usize, *mut Pending) -> Waited,
    ) -> Waited {
        let count = self.places.len();
        call(&mut self.record, self.places.as_mut_ptr(), count, pending)
    }

    /// Lends record and places to a call that only reads.
    fn read(
        &self,
        call: impl FnOnce(*const Breaker, *const u64, usize) -> Told,
    ) -> Result<Told, ThrottleError> {
        checked(call(&self.record, self.places.as_ptr(), self.places.len()))
    }
}

/// A ticket as it is told: its generation, and its probe flag of 0 or 1.
pub(crate) fn ticket(generation: u64, flag: u64) -> Ticket {
    Ticket {
        generation,
        probe: u8::from(flag == 1),
    }
}
