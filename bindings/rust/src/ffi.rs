//! `include/pudvirez.h` in Rust. What each function does stands there. A private module of this crate,
//! and `ffi` of oracle/archive.
//!
//! Every pointer must be valid and aligned for the count that comes with it, and what is not const
//! may overlap nothing else.

/// The places of a storage: PUDVIREZ_PLACES.
pub const PLACES: usize = 4096;

/// The bytes of a block of saves: PUDVIREZ_BLOCK.
pub const BLOCK: usize = 512;
/// The bytes of a name: PUDVIREZ_NAME.
pub const NAME: usize = 8;
/// The most bytes of a buffer of saves: PUDVIREZ_SAVES.
pub const SAVES: usize = 65_536;

/// What a call is told: PUDVIREZ_TOLD_.
#[allow(dead_code)]
pub mod told {
    pub const OK: u32 = 0;
    pub const TIME: u32 = 1;
    pub const LIMIT: u32 = 2;
    pub const STORAGE: u32 = 3;
    pub const UNSOUND: u32 = 4;
    pub const FULL: u32 = 5;
    pub const CIRCUIT_OPEN: u32 = 6;
    pub const INNER_RETRY: u32 = 7;
    pub const COST_EXCEEDS_CAPACITY: u32 = 8;
    pub const DEADLINE_EXCEEDED: u32 = 9;
    pub const UNFINISHED: u32 = 10;
    pub const TURN: u32 = 11;
    pub const DAMAGED: u32 = 13;
    pub const VERSION: u32 = 14;
    pub const NAME: u32 = 15;
}

/// PUDVIREZ_STATE_.
#[allow(dead_code)]
pub mod state {
    pub const CLOSED: u8 = 0;
    pub const HALF_OPEN: u8 = 1;
    pub const OPEN: u8 = 2;
}

/// PUDVIREZ_POLICY_.
#[allow(dead_code)]
pub mod policy {
    pub const CONSECUTIVE: u8 = 1;
    pub const RATIO: u8 = 2;
    pub const WINDOWED: u8 = 3;
}

/// PUDVIREZ_DECISION_.
#[allow(dead_code)]
pub mod decision {
    pub const ACQUIRED: u8 = 1;
    pub const RETRY: u8 = 2;
    pub const IMPOSSIBLE: u8 = 3;
}

/// PUDVIREZ_RESERVATION_.
#[allow(dead_code)]
pub mod reservation {
    pub const NONE: u8 = 0;
    pub const WAIT: u8 = 1;
}

/// PUDVIREZ_PHASE_.
#[allow(dead_code)]
pub mod phase {
    pub const ENDED: u64 = 0;
    pub const LOOKING: u64 = 1;
    pub const HOLDING: u64 = 2;
}

/// PUDVIREZ_REPLY_.
#[allow(dead_code)]
pub mod reply {
    pub const GRANTED: u64 = 1;
    pub const RETRY: u64 = 2;
    pub const NEVER: u64 = 3;
}

/// PUDVIREZ_ACT_.
#[allow(dead_code)]
pub mod act {
    pub const ADMITTED: u64 = 0;
    pub const SLEEP: u64 = 1;
    pub const SLEEP_UNLESS_RESUMED: u64 = 2;
    pub const YIELD: u64 = 3;
    pub const LOOK_AGAIN: u64 = 4;
}

#[repr(C)]
#[derive(Debug, Clone, Copy, Default, PartialEq, Eq)]
pub struct Config {
    pub kind: u8,
    pub limit: u32,
    pub ratio_bits: u64,
    pub min_calls: u32,
    pub period_ms: u64,
    pub cooldown_ms: u64,
    pub trials: u32,
    pub required: u32,
}

#[repr(C)]
#[derive(Debug, Clone, Copy, Default, PartialEq, Eq)]
pub struct Counts {
    pub inflight: u32,
    pub trait_probes: u32,
    pub successes: u32,
}

#[repr(C)]
#[derive(Debug, Clone, Copy, Default, PartialEq, Eq)]
pub struct Shared {
    pub state: u8,
    pub generation: u64,
    pub run: u32,
    pub counts: Counts,
    pub open_until: u64,
    pub len: u32,
}

#[repr(C)]
#[derive(Debug, Clone, Copy, Default, PartialEq, Eq)]
pub struct Breaker {
    pub config: Config,
    pub shared: Shared,
}

#[repr(C)]
#[derive(Debug, Clone, Copy, Default, PartialEq, Eq)]
pub struct Ticket {
    pub generation: u64,
    /// A flag: 0 is false, any other number true.
    pub probe: u8,
}

#[repr(C)]
#[derive(Debug, Clone, Copy, Default, PartialEq, Eq)]
pub struct Told {
    pub number: u32,
    pub v1: u64,
    pub v2: u64,
    pub v3: u64,
}

#[repr(C)]
#[derive(Debug, Clone, Copy, Default, PartialEq)]
pub struct Setting {
    pub kind: u8,
    pub limit: u32,
    pub ratio: f64,
    pub min_calls: u32,
    pub period_secs: u64,
    pub period_nanos: u32,
    pub cooldown_secs: u64,
    pub cooldown_nanos: u32,
    pub trials: u32,
    pub required: u32,
}

#[repr(C)]
#[derive(Debug, Clone, Copy, Default, PartialEq, Eq)]
pub struct Wait {
    pub phase: u64,
    pub limited: u64,
    pub deadline: u64,
    pub seen: u64,
    pub due: u64,
    pub zeros: u64,
}

#[repr(C)]
#[derive(Debug, Clone, Copy, Default, PartialEq, Eq)]
pub struct Pending {
    pub wait: Wait,
    pub ticket: Ticket,
}

#[repr(C)]
#[derive(Debug, Clone, Copy, Default, PartialEq, Eq)]
pub struct Turn {
    pub clock: u64,
    pub epoch_before: u64,
    pub epoch_after: u64,
    pub kind: u64,
    pub duration: u64,
    pub pause: u64,
    pub postponed_before: u64,
    pub postponed_after: u64,
}

#[repr(C)]
#[derive(Debug, Clone, Copy, Default, PartialEq, Eq)]
pub struct Waited {
    pub number: u32,
    pub v1: u64,
    pub v2: u64,
    pub v3: u64,
    pub v4: u64,
    pub taken: u64,
}

#[repr(C)]
#[derive(Debug, Clone, Copy, Default, PartialEq, Eq)]
pub struct Preview {
    pub told: Told,
    pub breaker: Breaker,
    pub len: u32,
}

// The whole header; the safe types call a part of it, the tests and the oracle the rest.
#[allow(dead_code)]
unsafe extern "C" {
    pub fn pudvirez_build(
        breaker: *mut Breaker,
        list: *mut u64,
        places: usize,
        setting: Setting,
    ) -> Told;

    pub fn pudvirez_reconfigure(
        breaker: *mut Breaker,
        list: *mut u64,
        places: usize,
        setting: Setting,
    ) -> Told;

    pub fn pudvirez_restore(
        breaker: *mut Breaker,
        list: *mut u64,
        places: usize,
        saves: *const u8,
        size: usize,
        used: usize,
        name: *const u8,
        name_size: usize,
    ) -> Told;

    pub fn pudvirez_admit_as(
        breaker: *mut Breaker,
        list: *mut u64,
        places: usize,
        now_ms: u64,
        via_trait: u8,
    ) -> Told;

    pub fn pudvirez_settle(
        breaker: *mut Breaker,
        list: *mut u64,
        places: usize,
        now_ms: u64,
        ticket: Ticket,
        success: u8,
    ) -> Told;

    pub fn pudvirez_abort_as(
        breaker: *mut Breaker,
        list: *mut u64,
        places: usize,
        ticket: Ticket,
        via_trait: u8,
    ) -> Told;

    pub fn pudvirez_permit_success(
        breaker: *mut Breaker,
        list: *mut u64,
        places: usize,
        now_ms: u64,
        ticket: Ticket,
    ) -> Told;

    pub fn pudvirez_permit_failure(
        breaker: *mut Breaker,
        list: *mut u64,
        places: usize,
        now_ms: u64,
        ticket: Ticket,
    ) -> Told;

    pub fn pudvirez_permit_dropped(
        breaker: *mut Breaker,
        list: *mut u64,
        places: usize,
        now_ms: u64,
        ticket: Ticket,
    ) -> Told;

    pub fn pudvirez_permit_cancel(
        breaker: *mut Breaker,
        list: *mut u64,
        places: usize,
        ticket: Ticket,
    ) -> Told;

    pub fn pudvirez_reset(breaker: *mut Breaker, list: *mut u64, places: usize) -> Told;

    pub fn pudvirez_record_manual(
        breaker: *mut Breaker,
        list: *mut u64,
        places: usize,
        now_ms: u64,
        success: u8,
    ) -> Told;

    pub fn pudvirez_release_trait_probe(
        breaker: *mut Breaker,
        list: *mut u64,
        places: usize,
    ) -> Told;

    pub fn pudvirez_try_admit(
        breaker: *mut Breaker,
        list: *mut u64,
        places: usize,
        now_ms: u64,
        inner_kind: u8,
        inner_ms: u64,
        capacity: u32,
    ) -> Told;

    pub fn pudvirez_acquire_cost(
        breaker: *mut Breaker,
        list: *mut u64,
        places: usize,
        now_ms: u64,
        inner_kind: u8,
        inner_ms: u64,
    ) -> Told;

    pub fn pudvirez_reserve(
        breaker: *mut Breaker,
        list: *mut u64,
        places: usize,
        now_ms: u64,
        inner_kind: u8,
        inner_ms: u64,
    ) -> Told;

    pub fn pudvirez_refund(
        breaker: *mut Breaker,
        list: *mut u64,
        places: usize,
        cost: u32, // told again in v1
    ) -> Told;

    pub fn pudvirez_finish_all(
        breaker: *mut Breaker,
        list: *mut u64,
        places: usize,
        now_ms: u64,
        generations: *const u64,
        generation_count: usize,
        probes: *const u8,
        probe_count: usize,
        settles: *const u8,
        settle_count: usize,
        marks: *const u8,
        mark_count: usize,
        answers: *mut u64,
        answer_count: usize,
    ) -> Told;

    pub fn pudvirez_wait_start(
        breaker: *mut Breaker,
        list: *mut u64,
        places: usize,
        pending: *mut Pending,
        now_ms: u64,
        clock: u64,
        limited: u8,
        timeout: u64,
    ) -> Waited;

    pub fn pudvirez_wait_turn(
        breaker: *mut Breaker,
        list: *mut u64,
        places: usize,
        pending: *mut Pending,
        turn: Turn,
        now_ms: u64,
        capacity: u32,
    ) -> Waited;

    pub fn pudvirez_wait_run(
        breaker: *mut Breaker,
        list: *mut u64,
        places: usize,
        pending: *mut Pending,
        turns: *const u64,
        turn_numbers: usize,
        limit: u64,
        now_ms: u64,
        capacity: u32,
    ) -> Waited;

    pub fn pudvirez_wait_drop(
        breaker: *mut Breaker,
        list: *mut u64,
        places: usize,
        pending: *mut Pending,
    ) -> Waited;

    pub fn pudvirez_still_admits(
        breaker: *const Breaker,
        list: *const u64,
        places: usize,
        now_ms: u64,
        ticket: Ticket,
    ) -> Told;

    pub fn pudvirez_preview_settle(
        breaker: *const Breaker,
        list: *const u64,
        places: usize,
        now_ms: u64,
        ticket: Ticket,
        success: u8,
    ) -> Preview;

    pub fn pudvirez_preview_abort(
        breaker: *const Breaker,
        list: *const u64,
        places: usize,
        ticket: Ticket,
        via_trait: u8,
    ) -> Preview;

    pub fn pudvirez_peek(
        breaker: *const Breaker,
        list: *const u64,
        places: usize,
        now_ms: u64,
        inner_kind: u8,
        inner_ms: u64,
    ) -> Told;

    pub fn pudvirez_available(
        breaker: *const Breaker,
        list: *const u64,
        places: usize,
        now_ms: u64,
        inner_kind: u8,
        inner_ms: u64,
        count: u32,
    ) -> Told;

    pub fn pudvirez_save(
        breaker: *const Breaker,
        list: *const u64,
        places: usize,
        saves: *mut u8,
        size: usize,
        used: usize,
        name: *const u8,
        name_size: usize,
    ) -> Told;

    pub fn pudvirez_check_block(block: *const u8, size: usize) -> Told;

    pub fn pudvirez_board(breaker: *const Breaker, list: *const u64, places: usize) -> Told;

    pub fn pudvirez_is_sound(breaker: *const Breaker, list: *const u64, places: usize) -> bool;
}
