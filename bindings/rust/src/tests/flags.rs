//! Flags of the C interface: every byte but 0 is true.
use crate::ffi::*;

type State = (Breaker, Vec<u64>);
type Call = fn(&mut State, u8) -> Told;

/// A half-open breaker with one success of three, and two of its trials out, both through the trait side.
fn half_open() -> State {
    let (mut b, mut list) = (Breaker::default(), vec![0; PLACES]);
    let setting = Setting {
        kind: policy::CONSECUTIVE,
        limit: 1,
        trials: 3,
        required: 3,
        ..Setting::default()
    };
    let l = list.as_mut_ptr();
    unsafe {
        pudvirez_build(&mut b, l, PLACES, setting);
        pudvirez_record_manual(&mut b, l, PLACES, 30, 0);
        for _ in 0..3 {
            pudvirez_admit_as(&mut b, l, PLACES, 30, 1);
        }
        pudvirez_record_manual(&mut b, l, PLACES, 30, 1);
    }
    let counts = Counts {
        inflight: 2,
        trait_probes: 2,
        successes: 1,
    };
    assert_eq!((b.shared.state, b.shared.counts), (1, counts));
    (b, list)
}

fn ticket(state: &State, probe: u8) -> Ticket {
    let generation = state.0.shared.generation;
    Ticket { generation, probe }
}

/// The finishing call of a batch of one.
fn finish(state: &mut State, probe: u8, settle: u8, mark: u8) -> Told {
    let (generation, mut answer) = (state.0.shared.generation, 77);
    let (b, list) = (&mut state.0, state.1.as_mut_ptr());
    let told = unsafe {
        pudvirez_finish_all(
            b,
            list,
            PLACES,
            40,
            &generation,
            1,
            &probe,
            1,
            &settle,
            1,
            &mark,
            1,
            &mut answer,
            1,
        )
    };
    assert_eq!(answer, 0);
    told
}

/// What was previewed, with the record in the place of the one that was looked at.
fn previewed(state: &mut State, preview: Preview) -> Told {
    assert_eq!(preview.len, preview.breaker.shared.len);
    state.0 = preview.breaker;
    preview.told
}

/// Each flag that comes in, one at a time.
const FLAGS: [(&str, Call); 16] = [
    ("admit_as via_trait", |s, flag| unsafe {
        pudvirez_admit_as(&mut s.0, s.1.as_mut_ptr(), PLACES, 40, flag)
    }),
    ("settle success", |s, flag| unsafe {
        let ticket = ticket(s, 0);
        pudvirez_settle(&mut s.0, s.1.as_mut_ptr(), PLACES, 40, ticket, flag)
    }),
    ("settle probe", |s, flag| unsafe {
        let ticket = ticket(s, flag);
        pudvirez_settle(&mut s.0, s.1.as_mut_ptr(), PLACES, 40, ticket, 1)
    }),
    ("permit_success probe", |s, flag| unsafe {
        let ticket = ticket(s, flag);
        pudvirez_permit_success(&mut s.0, s.1.as_mut_ptr(), PLACES, 40, ticket)
    }),
    ("abort_as via_trait", |s, flag| unsafe {
        let ticket = ticket(s, 1);
        pudvirez_abort_as(&mut s.0, s.1.as_mut_ptr(), PLACES, ticket, flag)
    }),
    ("abort_as probe", |s, flag| unsafe {
        let ticket = ticket(s, flag);
        pudvirez_abort_as(&mut s.0, s.1.as_mut_ptr(), PLACES, ticket, 0)
    }),
    ("preview_settle success", |s, flag| {
        let ticket = ticket(s, 0);
        let list = s.1.as_ptr();
        let preview = unsafe { pudvirez_preview_settle(&s.0, list, PLACES, 40, ticket, flag) };
        previewed(s, preview)
    }),
    ("preview_settle probe", |s, flag| {
        let ticket = ticket(s, flag);
        let list = s.1.as_ptr();
        let preview = unsafe { pudvirez_preview_settle(&s.0, list, PLACES, 40, ticket, 1) };
        previewed(s, preview)
    }),
    ("preview_abort via_trait", |s, flag| {
        let ticket = ticket(s, 1);
        let list = s.1.as_ptr();
        let preview = unsafe { pudvirez_preview_abort(&s.0, list, PLACES, ticket, flag) };
        previewed(s, preview)
    }),
    ("preview_abort probe", |s, flag| {
        let ticket = ticket(s, flag);
        let list = s.1.as_ptr();
        let preview = unsafe { pudvirez_preview_abort(&s.0, list, PLACES, ticket, 0) };
        previewed(s, preview)
    }),
    ("permit_cancel probe", |s, flag| unsafe {
        let ticket = ticket(s, flag);
        pudvirez_permit_cancel(&mut s.0, s.1.as_mut_ptr(), PLACES, ticket)
    }),
    ("record_manual success", |s, flag| unsafe {
        pudvirez_record_manual(&mut s.0, s.1.as_mut_ptr(), PLACES, 40, flag)
    }),
    ("finish_all probes", |s, flag| finish(s, flag, 0, 0)),
    ("finish_all settles", |s, flag| finish(s, 1, flag, 1)),
    ("finish_all marks, settled", |s, flag| finish(s, 1, 1, flag)),
    ("finish_all marks, aborted", |s, flag| finish(s, 1, 0, flag)),
];

#[test]
fn every_byte_but_0_is_true() {
    let start = half_open();
    for (name, call) in FLAGS {
        let ended = |flag| {
            let mut state = start.clone();
            let told = call(&mut state, flag);
            assert_eq!(told.number, 0, "{name}");
            (told, state)
        };
        let yes = ended(1);
        assert_ne!(ended(0), yes, "{name}: the flag counts");
        for flag in 2..=u8::MAX {
            assert_eq!(ended(flag), yes, "{name} {flag}");
        }
    }
}

#[test]
fn a_wait_is_limited_by_every_byte_but_0() {
    for flag in 0..=u8::MAX {
        let ((mut b, mut list), mut pending) = (half_open(), Pending::default());
        pending.ticket.probe = 77;
        let l = list.as_mut_ptr();
        let told = unsafe { pudvirez_wait_start(&mut b, l, PLACES, &mut pending, 40, 5, flag, 9) };
        assert_eq!(told, Waited::default());
        let wait = (pending.wait.limited, pending.wait.deadline);
        assert_eq!(wait, if flag == 0 { (0, 0) } else { (1, 14) });
        assert_eq!(pending.ticket, ticket(&(b, list), 1));
    }
}

/// A wait that looks, with a ticket of the present generation.
fn pending(state: &State, probe: u8) -> Pending {
    let wait = Wait {
        phase: phase::LOOKING,
        ..Wait::default()
    };
    let ticket = ticket(state, probe);
    Pending { wait, ticket }
}

/// Each way to end a wait that aborts its ticket.
const ENDS: [fn(&mut State, &mut Pending) -> Waited; 3] = [
    |s, p| unsafe {
        let turn = Turn {
            kind: reply::NEVER,
            ..Turn::default()
        };
        pudvirez_wait_turn(&mut s.0, s.1.as_mut_ptr(), PLACES, p, turn, 40, 1)
    },
    |s, p| unsafe {
        let (list, never) = (s.1.as_mut_ptr(), [0, 0, 0, reply::NEVER, 0, 0, 0, 0]);
        pudvirez_wait_run(&mut s.0, list, PLACES, p, never.as_ptr(), 8, 9, 40, 1)
    },
    |s, p| unsafe { pudvirez_wait_drop(&mut s.0, s.1.as_mut_ptr(), PLACES, p) },
];

#[test]
fn a_probe_byte_stays_and_every_one_but_0_is_aborted() {
    for probe in 0..=u8::MAX {
        for end in ENDS {
            let mut state = half_open();
            let mut pending = pending(&state, probe);
            let before = pending.ticket;
            end(&mut state, &mut pending);
            assert_eq!((pending.wait, pending.ticket), (Wait::default(), before));
            let out = state.0.shared.counts.inflight;
            assert_eq!(out, if probe == 0 { 2 } else { 1 });
        }
    }
}

#[test]
fn an_admission_after_a_wait_tells_0_or_1() {
    let turn = Turn {
        kind: reply::GRANTED,
        ..Turn::default()
    };
    for probe in 0..=u8::MAX {
        let mut state = half_open();
        let mut pending = pending(&state, probe);
        let (b, list) = (&mut state.0, state.1.as_mut_ptr());
        let told = unsafe { pudvirez_wait_turn(b, list, PLACES, &mut pending, turn, 40, 1) };
        let flag = u64::from(probe != 0);
        assert_eq!((told.number, told.v1, told.v2, told.v3), (0, 0, 2, flag));
        assert_eq!(pending.ticket.probe, probe);
    }
}

#[test]
fn a_refused_start_leaves_the_probe_byte() {
    for probe in 0..=u8::MAX {
        let mut state = half_open();
        let mut pending = pending(&state, probe);
        let before = pending;
        let (b, list) = (&mut state.0, state.1.as_mut_ptr());
        let told =
            unsafe { pudvirez_wait_start(b, list, PLACES, &mut pending, 40, u64::MAX, 0, 0) };
        assert_eq!((told.number, pending), (1, before));
    }
}
