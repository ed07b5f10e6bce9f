//! What save, return and new settings leave.

mod common;

use common::*;
use saves::RIGHT;
use saves::record::Record;
use saves::setting::Setting;

#[test]
fn a_return_is_all_that_was_saved_but_generation_inflight_and_trait_probes() {
    let mut buffer = Buffer::new(2);
    buffer.save(&half_open(), &list([]), NAME).expect("a save");
    let mut record = Record {
        generation: 41,
        ..windowed(4096)
    };
    let mut places = list(1..=4096);
    RIGHT
        .restore(&mut record, &mut places, &buffer.bytes, buffer.used, NAME)
        .expect("a return");
    let expected = Record {
        generation: 42,
        inflight: 0,
        trait_probes: 0,
        ..half_open()
    };
    assert_eq!(record, expected);
    assert_eq!(places, list([]), "every place is written");
}

/// Save at 3, reset, admit, return: one past the saved generation would be that of the ticket.
#[test]
fn the_generation_is_one_past_the_present_one() {
    let mut buffer = Buffer::new(1);
    buffer.save(&half_open(), &list([]), NAME).expect("a save");
    for (present, next) in [(3, 4), (4, 5), (0, 1), (u64::MAX, 0)] {
        let mut record = Record {
            generation: present,
            ..fresh()
        };
        let back = RIGHT.restore(&mut record, &mut list([]), &buffer.bytes, 512, NAME);
        assert_eq!((back, record.generation), (Ok(()), next));
        let mut record = Record {
            generation: present,
            ..fresh()
        };
        let new = RIGHT.reconfigure(&mut record, &mut list([]), &consecutive());
        assert_eq!((new, record.generation), (Ok(()), next));
    }
}

/// Consecutive 0, cooldown 1.5 ms, half-open 3 and 9.
fn consecutive() -> Setting {
    Setting {
        kind: 1,
        cooldown_nanos: 1_500_000,
        trials: 3,
        required: 9,
        ..Setting::default()
    }
}

#[test]
fn new_settings_are_a_fresh_record_from_any_state() {
    let fresh = Record {
        kind: 1,
        limit: 1,
        cooldown_ms: 1,
        trials: 3,
        required: 3,
        generation: 4,
        ..Record::default()
    };
    let open = Record {
        state: 2,
        inflight: 0,
        trait_probes: 0,
        successes: 0,
        ..half_open()
    };
    let listed = Record {
        generation: 3,
        ..windowed(2)
    };
    for (mut record, mut places) in [
        (half_open(), list([])),
        (open, list([])),
        (listed, list([9, 8])),
    ] {
        RIGHT
            .reconfigure(&mut record, &mut places, &consecutive())
            .expect("new settings");
        assert_eq!((record, places), (fresh, list([])));
    }
}

#[test]
fn new_settings_are_refused_with_3_4_1_2() {
    let told = |setting: Setting, mut record: Record, places: usize| {
        let mut list = vec![0; places];
        let before = record;
        let told = number(RIGHT.reconfigure(&mut record, &mut list, &setting));
        assert_eq!(record, before);
        told
    };
    let limit = Setting {
        kind: 3,
        limit: 4097,
        ..consecutive()
    };
    let nanos = Setting {
        period_nanos: 1_000_000_000,
        ..limit
    };
    let cooldown = Setting {
        cooldown_nanos: 1_000_000_000,
        ..limit
    };
    let unknown = Setting { kind: 4, ..nanos };
    let unsound = Record {
        required: 2,
        ..fresh()
    };
    assert_eq!(told(limit, fresh(), 4096), 2);
    assert_eq!(told(nanos, fresh(), 4096), 1);
    assert_eq!(told(cooldown, fresh(), 4096), 1);
    assert_eq!(told(unknown, fresh(), 4096), 4);
    assert_eq!(told(limit, unsound, 4096), 4);
    assert_eq!(told(limit, unsound, 4095), 3);
}

#[test]
fn a_save_of_every_state_leaves_record_and_list() {
    let open = Record {
        state: 2,
        open_until: 77,
        ..fresh()
    };
    let mut buffer = Buffer::new(3);
    for (record, name) in [(fresh(), NAME), (half_open(), OTHER), (open, b"an open ")] {
        let before = buffer.bytes.clone();
        buffer.save(&record, &list([]), name).expect("a save");
        let start = buffer.used - 512;
        assert_eq!(buffer.bytes[..start], before[..start]);
        assert_eq!(buffer.bytes[buffer.used..], before[buffer.used..]);
    }
    let saves = RIGHT.read(&buffer.bytes, buffer.used).expect("saves");
    let records: Vec<Record> = saves.iter().map(|save| save.record).collect();
    assert_eq!(records, [fresh(), half_open(), open]);
}

#[test]
fn refused_calls_leave_all() {
    let mut buffer = Buffer::with(1, &[NAME]);
    buffer.block(0)[509] ^= 1;
    let (before, mut record, mut places) = (buffer.clone(), windowed(3), list([3, 2, 1]));
    assert_eq!(number(buffer.save(&record, &places, OTHER)), 13);
    let told = RIGHT.restore(&mut record, &mut places, &buffer.bytes, 512, NAME);
    assert_eq!(number(told), 13);
    assert_eq!(buffer, before);
    assert_eq!((record, places), (windowed(3), list([3, 2, 1])));
}
