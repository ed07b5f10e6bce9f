//! Wrong use of the C interface: each is told its number, and leaves every byte of every field and place.
use crate::ffi::*;

type Call = fn(*mut Breaker, *mut u64, usize) -> Told;

const TICKET: Ticket = Ticket {
    generation: 0,
    probe: 0,
};

const SETTING: Setting = Setting {
    kind: 2,
    limit: 4,
    ratio: 1.0,
    min_calls: 1,
    period_secs: 0,
    period_nanos: 0,
    cooldown_secs: 1,
    cooldown_nanos: 0,
    trials: 2,
    required: 2,
};

/// Every call of the header that changes a breaker which is there already.
const CHANGES: [(&str, Call); 17] = [
    ("reconfigure", |b, l, n| unsafe {
        pudvirez_reconfigure(b, l, n, SETTING)
    }),
    ("restore", |b, l, n| {
        restore(b, l, n, &saves(), (BLOCK, BLOCK))
    }),
    ("admit_as", |b, l, n| unsafe {
        pudvirez_admit_as(b, l, n, 5, 0)
    }),
    ("admit_as trait", |b, l, n| unsafe {
        pudvirez_admit_as(b, l, n, 5, 1)
    }),
    ("settle", |b, l, n| unsafe {
        pudvirez_settle(b, l, n, 5, TICKET, 0)
    }),
    ("abort_as", |b, l, n| unsafe {
        pudvirez_abort_as(b, l, n, TICKET, 1)
    }),
    ("permit_success", |b, l, n| unsafe {
        pudvirez_permit_success(b, l, n, 5, TICKET)
    }),
    ("permit_failure", |b, l, n| unsafe {
        pudvirez_permit_failure(b, l, n, 5, TICKET)
    }),
    ("permit_dropped", |b, l, n| unsafe {
        pudvirez_permit_dropped(b, l, n, 5, TICKET)
    }),
    ("permit_cancel", |b, l, n| unsafe {
        pudvirez_permit_cancel(b, l, n, TICKET)
    }),
    ("reset", |b, l, n| unsafe { pudvirez_reset(b, l, n) }),
    ("record_manual", |b, l, n| unsafe {
        pudvirez_record_manual(b, l, n, 5, 0)
    }),
    ("release", |b, l, n| unsafe {
        pudvirez_release_trait_probe(b, l, n)
    }),
    ("try_admit", |b, l, n| unsafe {
        pudvirez_try_admit(b, l, n, 5, 1, 0, 1)
    }),
    ("acquire_cost", |b, l, n| unsafe {
        pudvirez_acquire_cost(b, l, n, 5, 1, 0)
    }),
    ("reserve", |b, l, n| unsafe {
        pudvirez_reserve(b, l, n, 5, 1, 0)
    }),
    ("refund", |b, l, n| unsafe { pudvirez_refund(b, l, n, 3) }),
];

/// And those that read.
const READS: [(&str, Call); 7] = [
    ("save", |b, l, n| save(b, l, n, &mut [0; BLOCK], (BLOCK, 0))),
    ("still_admits", |b, l, n| unsafe {
        pudvirez_still_admits(b, l, n, 5, TICKET)
    }),
    ("preview_settle", |b, l, n| unsafe {
        pudvirez_preview_settle(b, l, n, 5, TICKET, 0).told
    }),
    ("preview_abort", |b, l, n| unsafe {
        pudvirez_preview_abort(b, l, n, TICKET, 1).told
    }),
    ("peek", |b, l, n| unsafe { pudvirez_peek(b, l, n, 5, 1, 0) }),
    ("available", |b, l, n| unsafe {
        pudvirez_available(b, l, n, 5, 1, 0, 3)
    }),
    ("board", |b, l, n| unsafe { pudvirez_board(b, l, n) }),
];

/// The calls with an inner reply, of kind 9.
const UNKNOWN: [(&str, Call); 5] = [
    ("try_admit", |b, l, n| unsafe {
        pudvirez_try_admit(b, l, n, 5, 9, 0, 1)
    }),
    ("acquire_cost", |b, l, n| unsafe {
        pudvirez_acquire_cost(b, l, n, 5, 9, 0)
    }),
    ("reserve", |b, l, n| unsafe {
        pudvirez_reserve(b, l, n, 5, 9, 0)
    }),
    ("peek", |b, l, n| unsafe { pudvirez_peek(b, l, n, 5, 9, 0) }),
    ("available", |b, l, n| unsafe {
        pudvirez_available(b, l, n, 5, 9, 0, 3)
    }),
];

/// New settings over the limit, and the calls of a save with a buffer of 511 bytes.
const REFUSED: [(&str, Call); 3] = [
    ("reconfigure", |b, l, n| unsafe {
        let limit = 4097;
        pudvirez_reconfigure(b, l, n, Setting { limit, ..SETTING })
    }),
    ("restore", |b, l, n| restore(b, l, n, &saves(), (511, 0))),
    ("save", |b, l, n| save(b, l, n, &mut saves(), (511, 0))),
];

/// All of these, with what would be refused for another reason too.
fn all_calls() -> impl Iterator<Item = &'static (&'static str, Call)> {
    let right = CHANGES.iter().chain(&READS);
    right.chain(&UNKNOWN).chain(&REFUSED)
}

const NAMED: &[u8; NAME] = b"EVENING1";

/// A block with a save of the start, under the name.
fn saves() -> Vec<u8> {
    let (mut b, mut list) = start();
    let mut bytes = vec![0; BLOCK];
    let told = save(&mut b, list.as_mut_ptr(), PLACES, &mut bytes, (BLOCK, 0));
    assert_eq!((told.number, told.v1), (0, 512));
    bytes
}

/// Saves under the name, in bytes of this size with so many used. A refused save leaves the bytes.
fn save(
    b: *mut Breaker,
    l: *mut u64,
    n: usize,
    bytes: &mut [u8],
    (size, used): (usize, usize),
) -> Told {
    let before = bytes.to_vec();
    let (room, name) = (bytes.as_mut_ptr(), NAMED.as_ptr());
    assert!(size <= bytes.len());
    let told = unsafe { pudvirez_save(b, l, n, room, size, used, name, NAME) };
    assert!(told.number == 0 || bytes == before, "the bytes");
    told
}

fn restore(
    b: *mut Breaker,
    l: *mut u64,
    n: usize,
    bytes: &[u8],
    (size, used): (usize, usize),
) -> Told {
    let name = NAMED.as_ptr();
    assert!(size <= bytes.len());
    unsafe { pudvirez_restore(b, l, n, bytes.as_ptr(), size, used, name, NAME) }
}

/// One answer whose number is not 0 yet, so that a write to it shows.
fn finish_all(b: *mut Breaker, l: *mut u64, n: usize, marks: usize) -> (Told, u64) {
    let (generation, yes, mut answer) = (0u64, [1u8, 1], 77u64);
    let told = unsafe {
        pudvirez_finish_all(
            b,
            l,
            n,
            5,
            &generation,
            1,
            yes.as_ptr(),
            1,
            yes.as_ptr(),
            1,
            yes.as_ptr(),
            marks,
            &mut answer,
            1,
        )
    };
    (told, answer)
}

/// The bytes of every field. Those between the fields say nothing.
pub(super) fn bytes(b: &Breaker) -> Vec<u8> {
    let (c, h) = (&b.config, &b.shared);
    let Counts {
        inflight,
        trait_probes,
        successes,
    } = h.counts;
    let mut all = vec![c.kind, h.state];
    for n in [
        c.limit,
        c.min_calls,
        c.trials,
        c.required,
        h.run,
        inflight,
        trait_probes,
        successes,
        h.len,
    ] {
        all.extend(n.to_ne_bytes());
    }
    for n in [
        c.ratio_bits,
        c.period_ms,
        c.cooldown_ms,
        h.generation,
        h.open_until,
    ] {
        all.extend(n.to_ne_bytes());
    }
    all
}

/// A closed Ratio breaker with the outcomes failed, good; and a storage with one place too many.
pub(super) fn start() -> (Breaker, Vec<u64>) {
    let (mut b, mut list) = (Breaker::default(), vec![0; PLACES + 1]);
    let l = list.as_mut_ptr();
    let told = unsafe {
        pudvirez_build(
            &mut b,
            l,
            PLACES,
            Setting {
                min_calls: 4,
                ..SETTING
            },
        )
    };
    assert_eq!(told, Told::default());
    unsafe { pudvirez_settle(&mut b, l, PLACES, 1, TICKET, 0) };
    unsafe { pudvirez_settle(&mut b, l, PLACES, 2, TICKET, 1) };
    assert_eq!((b.shared.len, &list[..3]), (2, &[1, 0, 0][..]));
    (b, list)
}

/// The call is told this number and no values, and nothing changes.
fn refused(
    name: &str,
    number: u32,
    count: usize,
    start: &(Breaker, Vec<u64>),
    call: impl Fn(*mut Breaker, *mut u64, usize) -> Told,
) {
    let (mut b, mut list) = start.clone();
    let told = call(&mut b, list.as_mut_ptr(), count);
    let expected = Told {
        number,
        ..Told::default()
    };
    assert_eq!(told, expected, "{name} with {count} places");
    assert_eq!(bytes(&b), bytes(&start.0), "{name}: the record");
    assert_eq!(list, start.1, "{name}: the places");
}

/// Records and lists that are not sound, each by one change of the start.
pub(super) fn unsound() -> Vec<(Breaker, Vec<u64>)> {
    let changes: [fn(&mut Breaker, &mut Vec<u64>); 12] = [
        |b, _| b.config.kind = 9,
        |b, _| b.config.limit = 4097,
        |b, _| b.config.limit = 0,
        |b, _| b.config.ratio_bits = f64::NAN.to_bits(),
        |b, _| b.config.period_ms = 1,
        |b, _| b.config.required = 3,
        |b, _| b.shared.state = 3,
        |b, _| b.shared.counts.inflight = 1,
        |b, _| b.shared.counts.successes = 1,
        |b, _| b.shared.len = u32::MAX,
        |_, list| list[1] = 2,
        |_, list| list[PLACES - 1] = 1,
    ];
    let broken = changes.iter().map(|change| {
        let (mut b, mut list) = start();
        change(&mut b, &mut list);
        (b, list)
    });
    broken.collect()
}

#[test]
fn another_number_of_places_is_told_3() {
    let start = start();
    for count in [0, 1, PLACES - 1, PLACES + 1] {
        for (name, call) in all_calls() {
            refused(name, 3, count, &start, call);
        }
        refused("build", 3, count, &start, |b, l, n| unsafe {
            pudvirez_build(b, l, n, SETTING)
        });
        refused("finish_all", 3, count, &start, |b, l, n| {
            let (told, answer) = finish_all(b, l, n, 1);
            assert_eq!(answer, 77);
            told
        });
        assert!(!unsafe { pudvirez_is_sound(&start.0, start.1.as_ptr(), count) });
    }
}

#[test]
fn counts_that_differ_are_told_3() {
    for marks in [0, 2] {
        refused("finish_all", 3, PLACES, &start(), |b, l, n| {
            let (told, answer) = finish_all(b, l, n, marks);
            assert_eq!(answer, 77);
            told
        });
    }
}

#[test]
fn a_breaker_that_is_not_sound_is_told_4() {
    for broken in unsound() {
        assert!(!unsafe { pudvirez_is_sound(&broken.0, broken.1.as_ptr(), PLACES) });
        for (name, call) in all_calls() {
            refused(name, 4, PLACES, &broken, call);
        }
        refused("finish_all", 4, PLACES, &broken, |b, l, n| {
            let (told, answer) = finish_all(b, l, n, 1);
            assert_eq!(answer, 77);
            told
        });
    }
}

/// A refused preview has the record that was handed in, and its length, however great.
#[test]
fn a_refused_preview_gives_the_record_back() {
    let wrong = unsound().into_iter().map(|broken| (4, PLACES, broken));
    for (number, count, (b, list)) in wrong.chain([(3, PLACES - 1, start())]) {
        let l = list.as_ptr();
        let settle = unsafe { pudvirez_preview_settle(&b, l, count, 5, TICKET, 0) };
        let abort = unsafe { pudvirez_preview_abort(&b, l, count, TICKET, 0) };
        for preview in [settle, abort] {
            assert_eq!(preview.told.number, number);
            assert_eq!(bytes(&preview.breaker), bytes(&b));
            assert_eq!(preview.len, b.shared.len);
        }
    }
}

#[test]
fn an_unknown_reply_is_told_11() {
    for (name, call) in UNKNOWN {
        refused(name, 11, PLACES, &start(), call);
    }
}

#[test]
fn a_build_that_is_refused_leaves_all() {
    let wrong = [
        (4, Setting { kind: 9, ..SETTING }),
        (
            4,
            Setting {
                kind: 0,
                cooldown_nanos: 1_000_000_000,
                limit: 4097,
                ..SETTING
            },
        ),
        (
            1,
            Setting {
                cooldown_nanos: 1_000_000_000,
                limit: 4097,
                ..SETTING
            },
        ),
        (
            1,
            Setting {
                kind: 3,
                period_nanos: u32::MAX,
                ..SETTING
            },
        ),
        (
            2,
            Setting {
                limit: 4097,
                ..SETTING
            },
        ),
        (
            2,
            Setting {
                kind: 3,
                limit: u32::MAX,
                ..SETTING
            },
        ),
    ];
    for (number, setting) in wrong {
        refused("build", number, PLACES, &start(), |b, l, n| unsafe {
            pudvirez_build(b, l, n, setting)
        });
    }
}

/// Settings that are refused, and the number.
const WRONG: [(u32, Setting); 6] = [
    (4, Setting { kind: 9, ..SETTING }),
    (
        4,
        Setting {
            kind: 0,
            cooldown_nanos: 1_000_000_000,
            limit: 4097,
            ..SETTING
        },
    ),
    (
        1,
        Setting {
            cooldown_nanos: 1_000_000_000,
            limit: 4097,
            ..SETTING
        },
    ),
    (
        1,
        Setting {
            kind: 3,
            period_nanos: u32::MAX,
            ..SETTING
        },
    ),
    (
        2,
        Setting {
            limit: 4097,
            ..SETTING
        },
    ),
    (
        2,
        Setting {
            kind: 3,
            limit: u32::MAX,
            ..SETTING
        },
    ),
];

#[test]
fn new_settings_that_are_refused_leave_all() {
    for (number, setting) in WRONG {
        refused("reconfigure", number, PLACES, &start(), |b, l, n| unsafe {
            pudvirez_reconfigure(b, l, n, setting)
        });
    }
}

/// Used bytes past the buffer, sizes that are not whole blocks, and over 65,536 bytes. No bytes are no saves.
#[test]
fn wrong_sizes_of_saves_are_told_13_and_a_name_15() {
    let sizes = [
        (13, (512, 1024)),
        (13, (512, usize::MAX)),
        (13, (511, 0)),
        (13, (1024, 511)),
        (13, (SAVES + BLOCK, 0)),
        (13, (SAVES + BLOCK, 512)),
        (15, (0, 0)),
    ];
    let mut bytes = saves();
    bytes.resize(SAVES + BLOCK, 0);
    for (number, sizes) in sizes {
        refused("restore", number, PLACES, &start(), |b, l, n| {
            restore(b, l, n, &bytes, sizes)
        });
        refused("save", number, PLACES, &start(), |b, l, n| {
            save(b, l, n, &mut bytes.clone(), sizes)
        });
    }
    for sizes in [(512, 512), (SAVES, 512)] {
        refused("save", 15, PLACES, &start(), |b, l, n| {
            save(b, l, n, &mut bytes.clone(), sizes)
        });
    }
}

#[test]
fn right_use_is_not_refused() {
    for (name, call) in CHANGES.iter().chain(&READS) {
        let (mut b, mut list) = start();
        let told = call(&mut b, list.as_mut_ptr(), PLACES);
        assert_eq!(told.number, 0, "{name}");
        assert!(unsafe { pudvirez_is_sound(&b, list.as_ptr(), PLACES) });
    }
}
