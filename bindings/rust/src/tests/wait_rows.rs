//! Every row of document 01's table that a wait can meet, through the C interface: what is told, and what is left.
use super::misuse::{bytes, start, unsound};
use super::ticket;
use crate::ffi::*;

const OVER: u64 = (1 << 62) + 1;
const MS: u64 = 1_000_000;

/// Record, storage with one place too many, and wait.
type All = (Breaker, Vec<u64>, Pending);
type Call = fn(&mut All, usize) -> Waited;

fn begin(all: &mut All, n: usize, now_ms: u64, clock: u64, timeout: u64) -> Waited {
    let list = all.1.as_mut_ptr();
    unsafe { pudvirez_wait_start(&mut all.0, list, n, &mut all.2, now_ms, clock, 1, timeout) }
}

fn turn(all: &mut All, n: usize, turn: Turn) -> Waited {
    let list = all.1.as_mut_ptr();
    unsafe { pudvirez_wait_turn(&mut all.0, list, n, &mut all.2, turn, 1040, 100) }
}

fn run(all: &mut All, n: usize, turns: &[u64], limit: u64) -> Waited {
    let (list, pending) = (all.1.as_mut_ptr(), &mut all.2);
    let (first, count) = (turns.as_ptr(), turns.len());
    unsafe { pudvirez_wait_run(&mut all.0, list, n, pending, first, count, limit, 1040, 100) }
}

fn leave(all: &mut All, n: usize) -> Waited {
    let list = all.1.as_mut_ptr();
    unsafe { pudvirez_wait_drop(&mut all.0, list, n, &mut all.2) }
}

const GRANT: Turn = Turn {
    clock: 0,
    epoch_before: 0,
    epoch_after: 0,
    kind: 1,
    duration: 2 * MS,
    pause: 0,
    postponed_before: 0,
    postponed_after: 0,
};

/// Turns of a run: a retry, a grant that is due later, a check that finds it due.
const TURNS: [u64; 24] = [
    0,
    0,
    0,
    2,
    5 * MS,
    0,
    0,
    0, //
    5 * MS,
    0,
    0,
    1,
    2 * MS,
    0,
    0,
    0, //
    7 * MS,
    0,
    0,
    1,
    0,
    0,
    0,
    0,
];

/// Every call of a wait, in right use.
const CALLS: [(&str, Call); 4] = [
    ("start", |all, n| begin(all, n, 1030, 0, 100 * MS)),
    ("turn", |all, n| turn(all, n, GRANT)),
    ("run", |all, n| run(all, n, &TURNS, 9)),
    ("drop", leave),
];

/// A half-open breaker with one trial out, for a wait that looks and has 100 ms.
fn looking() -> All {
    let (mut b, mut list) = (Breaker::default(), vec![0; PLACES + 1]);
    let setting = Setting {
        kind: 1,
        limit: 1,
        cooldown_secs: 1,
        trials: 2,
        required: 2,
        ..Setting::default()
    };
    unsafe { pudvirez_build(&mut b, list.as_mut_ptr(), PLACES, setting) };
    unsafe { pudvirez_record_manual(&mut b, list.as_mut_ptr(), PLACES, 30, 0) };
    let mut all = (b, list, Pending::default());
    assert_eq!(
        begin(&mut all, PLACES, 1030, 0, 100 * MS),
        Waited::default()
    );
    assert_eq!(all.2.ticket, ticket(2, true));
    assert_eq!(state(&all), (1, 1, 1));
    all
}

/// The same, holding a grant that is due at 2 ms.
fn holding() -> All {
    let mut all = looking();
    assert_eq!(turn(&mut all, PLACES, GRANT), told(0, 1, 2 * MS));
    assert_eq!((all.2.wait.phase, all.2.wait.due), (2, 2 * MS));
    all
}

/// State of the breaker, trials out, phase of the wait.
fn state(all: &All) -> (u8, u32, u64) {
    let shared = &all.0.shared;
    (shared.state, shared.counts.inflight, all.2.wait.phase)
}

fn told(number: u32, v1: u64, v2: u64) -> Waited {
    Waited {
        number,
        v1,
        v2,
        ..Waited::default()
    }
}

/// The call is told this number alone, and record, places and wait are as they were.
fn refused(name: &str, number: u32, before: &All, call: impl Fn(&mut All) -> Waited) {
    let mut all = before.clone();
    assert_eq!(call(&mut all), told(number, 0, 0), "{name}");
    assert_eq!(bytes(&all.0), bytes(&before.0), "{name}: the record");
    assert_eq!(all.1, before.1, "{name}: the places");
    assert_eq!(all.2, before.2, "{name}: the wait");
}

/// The call ends the wait with this answer: the trial is given back, and half-open stays.
fn ends(name: &str, before: &All, answer: Waited, call: impl Fn(&mut All) -> Waited) {
    let mut all = before.clone();
    assert_eq!(call(&mut all), answer, "{name}");
    assert_eq!(all.2.wait, Wait::default(), "{name}: an ended wait");
    assert_eq!(all.2.ticket, before.2.ticket, "{name}: its ticket");
    let mut freed = before.0;
    freed.shared.counts.inflight = 0;
    assert_eq!(bytes(&all.0), bytes(&freed), "{name}: the trial given back");
    assert_eq!(all.1, before.1, "{name}: the places");
}

#[test]
fn row_1_a_time_over_its_bound() {
    for (clock, timeout) in [(OVER, 0), (0, OVER), (u64::MAX, u64::MAX)] {
        refused("start", 1, &looking(), |all| {
            begin(all, PLACES, 1030, clock, timeout)
        });
    }
    let late: [fn(&mut Turn); 5] = [
        |t| t.clock = OVER,
        |t| t.duration = OVER,
        |t| t.pause = OVER,
        |t| t.postponed_before = OVER,
        |t| t.postponed_after = OVER,
    ];
    for (change, before) in late.iter().flat_map(|c| [(c, looking()), (c, holding())]) {
        let mut wrong = GRANT;
        change(&mut wrong);
        refused("turn", 1, &before, |all| turn(all, PLACES, wrong));
    }
    let broken: [fn(&mut Wait); 3] = [
        |w| w.deadline = (1 << 63) + 1,
        |w| w.seen = OVER,
        |w| w.due = (1 << 63) + 1,
    ];
    for change in broken {
        let mut before = looking();
        change(&mut before.2.wait);
        for (name, call) in &CALLS[1..] {
            refused(name, 1, &before, |all| call(all, PLACES));
        }
    }
}

#[test]
fn row_3_another_number_of_places_or_of_turns() {
    let before = looking();
    for count in [0, 1, PLACES - 1, PLACES + 1] {
        for (name, call) in CALLS {
            refused(name, 3, &before, |all| call(all, count));
        }
    }
    for count in [1, 7, 9, 23] {
        refused("run", 3, &before, |all| {
            run(all, PLACES, &TURNS[..count], 0)
        });
    }
}

#[test]
fn row_4_a_breaker_that_is_not_sound() {
    let pending = looking().2;
    for (record, places) in unsound() {
        let before = (record, places, pending);
        for (name, call) in CALLS {
            refused(name, 4, &before, |all| call(all, PLACES));
        }
    }
}

#[test]
fn row_6_the_breaker_sheds() {
    let mut open = holding();
    let list = open.1.as_mut_ptr();
    unsafe { pudvirez_record_manual(&mut open.0, list, PLACES, 1035, 0) };
    assert_eq!(state(&open), (2, 0, 2));
    let check = Turn {
        clock: 2 * MS,
        ..GRANT
    };
    ends("turn", &open, told(6, 995, 1), |all| {
        turn(all, PLACES, check)
    });
    let mut after_one = told(6, 995, 1);
    after_one.taken = 1;
    ends("run", &open, after_one, |all| {
        run(all, PLACES, &TURNS[16..], 9)
    });
    let mut all = open.clone();
    assert_eq!(begin(&mut all, PLACES, 1040, 0, 0), told(6, 995, 0));
    assert_eq!(
        (bytes(&all.0), all.1, all.2),
        (bytes(&open.0), open.1, open.2)
    );
}

#[test]
fn row_8_never() {
    let never = Turn { kind: 3, ..GRANT };
    ends("turn", &looking(), told(8, 1, 100), |all| {
        turn(all, PLACES, never)
    });
}

#[test]
fn row_9_the_deadline() {
    let late = Turn {
        kind: 2,
        duration: 101 * MS,
        ..GRANT
    };
    ends("a retry", &looking(), told(9, 0, 0), |all| {
        turn(all, PLACES, late)
    });
    let paused = Turn {
        pause: 101 * MS,
        ..GRANT
    };
    ends("a pause", &holding(), told(9, 1, 0), |all| {
        turn(all, PLACES, paused)
    });
}

#[test]
fn row_9_after_four_yields() {
    let mut all = looking();
    begin(&mut all, PLACES, 1030, 0, 0);
    let zero = Turn {
        kind: 2,
        duration: 0,
        ..GRANT
    };
    for _ in 0..4 {
        assert_eq!(turn(&mut all, PLACES, zero), told(0, 3, 0));
    }
    assert_eq!(turn(&mut all, PLACES, zero), told(9, 0, 0));
    // the first wait's trial is still out
    assert_eq!(state(&all), (1, 1, 0));
}

#[test]
fn row_10_the_limit_or_the_turns_used_up() {
    for (count, limit, taken, phase) in [(24, 2, 2, 2), (8, 9, 1, 1), (24, 0, 0, 1), (0, 9, 0, 1)] {
        let before = looking();
        let mut all = before.clone();
        let mut expected = told(10, 0, 0);
        expected.taken = taken;
        assert_eq!(run(&mut all, PLACES, &TURNS[..count], limit), expected);
        assert_eq!(bytes(&all.0), bytes(&before.0));
        assert_eq!(state(&all), (1, 1, phase));
    }
}

#[test]
fn row_11_an_unknown_reply_or_an_ended_wait() {
    for kind in [0, 4, u64::MAX] {
        let wrong = Turn {
            kind,
            clock: OVER,
            ..GRANT
        };
        refused("looking", 11, &looking(), |all| turn(all, PLACES, wrong));
        refused("holding", 11, &holding(), |all| turn(all, PLACES, wrong));
    }
    for phase in [0, 3, u64::MAX] {
        let mut before = looking();
        before.2.wait.phase = phase;
        for (name, call) in &CALLS[1..] {
            refused(name, 11, &before, |all| call(all, PLACES));
        }
    }
}

#[test]
fn a_refused_turn_of_a_run_leaves_the_wait_it_reached() {
    for (at, number) in [(11, 11), (8, 1)] {
        let (before, mut turns) = (looking(), TURNS);
        turns[at] = OVER;
        let mut all = before.clone();
        let mut expected = told(number, 0, 0);
        expected.taken = 1;
        assert_eq!(run(&mut all, PLACES, &turns, 9), expected);
        assert_eq!((bytes(&all.0), &all.1), (bytes(&before.0), &before.1));
        assert_eq!(all.2, before.2, "a retry above 0 leaves a wait that looks");
    }
}

#[test]
fn a_run_ends_with_the_ticket_and_reads_no_further() {
    let mut all = looking();
    let mut turns = TURNS.to_vec();
    turns.extend([OVER; 8]);
    let admitted = Waited {
        number: 0,
        v1: 0,
        v2: 2,
        v3: 1,
        v4: 0,
        taken: 3,
    };
    assert_eq!(run(&mut all, PLACES, &turns, 9), admitted);
    assert_eq!(state(&all), (1, 1, 0));
}

#[test]
fn a_drop_gives_back_what_is_held() {
    ends("looking", &looking(), told(0, 0, 0), |all| {
        leave(all, PLACES)
    });
    ends("holding", &holding(), told(0, 1, 0), |all| {
        leave(all, PLACES)
    });
}

#[test]
fn a_wait_before_a_closed_breaker_leaves_its_list() {
    let (b, list) = start();
    let mut all = (b, list.clone(), Pending::default());
    for (name, call) in CALLS {
        let number = call(&mut all, PLACES).number;
        // the run ends the wait, so the drop comes too late
        assert_eq!(number, if name == "drop" { 11 } else { 0 }, "{name}");
    }
    assert_eq!((bytes(&all.0), all.1), (bytes(&b), list));
}
