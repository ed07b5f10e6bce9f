//! The bytes of a save, and bytes that are none, as document 02 has them (W-201).
use super::checkpoints::{half_open, saved, MINUTE, NAME, RATIO, WINDOWED};
use super::{breaker, snapshot};
use crate::{Checkpoints, ManualClock, ThrottleError, Trip};

/// Makes the sum of a block right: of byte × (position + 1) over positions 0 to 503.
fn seal(block: &mut [u8]) {
    let weighed = (1..).zip(&block[..504]);
    let sum: u32 = weighed
        .map(|(weight, &byte)| weight * u32::from(byte))
        .sum();
    block[508..512].copy_from_slice(&sum.to_le_bytes());
}

/// The bytes with one of them changed, and the sum of its block made right.
fn changed(bytes: &[u8], at: usize, byte: u8) -> Vec<u8> {
    let mut bytes = bytes.to_vec();
    assert_ne!(bytes[at], byte, "a change at {at}");
    bytes[at] = byte;
    let block = at / 512 * 512;
    seal(&mut bytes[block..block + 512]);
    bytes
}

/// A closed Consecutive breaker: one block, with a body of 86 bytes.
fn plain() -> Vec<u8> {
    let clock = ManualClock::new(0);
    let b = breaker(&clock, Trip::Consecutive(2), 2, 2);
    saved(&b).as_bytes().to_vec()
}

/// Two saves: one of 100 times, in two blocks, and one in one block.
fn two_saves() -> Checkpoints {
    let clock = ManualClock::new(0);
    let b = breaker(
        &clock,
        Trip::Windowed {
            failures: 4096,
            period: MINUTE,
        },
        2,
        2,
    );
    for _ in 0..100 {
        b.record_failure().expect("recorded");
    }
    let mut saves = saved(&b);
    b.reset();
    saves.save("MORNING1", &b).expect("another name");
    assert_eq!(saves.as_bytes().len(), 3 * 512);
    saves
}

/// Such bytes are refused, to read and to come back to, and to save behind; and all stays as it was.
fn refused(bytes: &[u8], why: ThrottleError, what: impl core::fmt::Debug) {
    let clock = ManualClock::new(0);
    let b = half_open(&clock, WINDOWED);
    let (before, mut after) = (snapshot(&b), bytes.to_vec());
    let read = Checkpoints::from_bytes(bytes);
    assert_eq!(read, Err(why), "{what:?}");
    let restored = b.lock().restore(bytes, NAME.as_bytes());
    assert_eq!(restored, Err(why), "{what:?}: restore");
    let saved = b.lock().save(&mut after, bytes.len(), b"ANOTHER1");
    assert_eq!(saved, Err(why), "{what:?}: save");
    assert_eq!((snapshot(&b), &after[..]), (before, bytes), "{what:?}");
}

#[test]
fn a_save_is_the_name_the_record_and_the_list() {
    let clock = ManualClock::new(0);
    let b = half_open(&clock, WINDOWED);
    let mut body = NAME.as_bytes().to_vec();
    body.push(3); // Windowed
    body.extend(2u32.to_le_bytes()); // failures
    body.extend(0u64.to_le_bytes()); // ratio bits
    body.extend(0u32.to_le_bytes()); // min calls
    body.extend(60_000u64.to_le_bytes()); // period
    body.extend(1000u64.to_le_bytes()); // cooldown
    body.extend(3u32.to_le_bytes()); // trials
    body.extend(3u32.to_le_bytes()); // required
    body.push(1); // half-open
    body.extend(2u64.to_le_bytes()); // generation
    body.extend(2u32.to_le_bytes()); // run
    body.extend(1u32.to_le_bytes()); // inflight
    body.extend(1u32.to_le_bytes()); // trait probes
    body.extend(1u32.to_le_bytes()); // successes
    body.extend(1031u64.to_le_bytes()); // open-until
    body.extend(2u32.to_le_bytes()); // list length
    body.extend(30u64.to_le_bytes());
    body.extend(31u64.to_le_bytes());
    let mut block = vec![1, 0, 0, 0, 1, 0, body.len() as u8, 0];
    block.extend(body);
    block.resize(512, 0);
    seal(&mut block);
    assert_eq!(saved(&b).as_bytes(), block);
}

#[test]
fn an_outcome_is_one_byte() {
    let clock = ManualClock::new(0);
    let bytes = saved(&half_open(&clock, RATIO)).as_bytes().to_vec();
    assert_eq!(bytes[6..8], 88u16.to_le_bytes());
    assert_eq!(bytes[90..97], [2, 0, 0, 0, 1, 1, 0]);
}

/// The sum covers all but 504 to 507, which must be 0, and itself. It comes before the version.
#[test]
fn every_flipped_byte_is_damage() {
    let bytes = two_saves().as_bytes().to_vec();
    for at in 0..bytes.len() {
        for bits in [1, 0x80] {
            let mut flipped = bytes.clone();
            flipped[at] ^= bits;
            let read = Checkpoints::from_bytes(&flipped);
            assert_eq!(read, Err(ThrottleError::Damaged), "{at} {bits}");
        }
    }
    for at in [0, 100, 504, 511, 1024, 1535] {
        let mut flipped = bytes.clone();
        flipped[at] ^= 1;
        refused(&flipped, ThrottleError::Damaged, at);
    }
}

#[test]
fn bytes_that_are_cut_are_damaged_unless_whole_saves_are_left() {
    let saves = two_saves();
    let bytes = saves.as_bytes();
    for length in 1..=bytes.len() {
        match length {
            1024 | 1536 => {
                let read = Checkpoints::from_bytes(&bytes[..length]).expect("whole saves");
                assert!(read.names().eq(saves.names().take(length / 512 - 1)));
            }
            511 | 512 | 513 | 1023 => refused(&bytes[..length], ThrottleError::Damaged, length),
            _ => {
                let read = Checkpoints::from_bytes(&bytes[..length]);
                assert_eq!(read, Err(ThrottleError::Damaged), "{length}");
            }
        }
    }
    let mut longer = bytes.to_vec();
    longer.push(0);
    refused(&longer, ThrottleError::Damaged, "one byte more");
    longer.resize(2048, 0);
    refused(&longer, ThrottleError::Version, "a block of version 0");
}

/// One-block saves under names of their own.
fn small(count: usize) -> Vec<u8> {
    let one = plain();
    let named = |i: usize| {
        let mut block = one.clone();
        block[8..16].copy_from_slice(format!("SMALL{i:03}").as_bytes());
        seal(&mut block);
        block
    };
    (0..count).flat_map(named).collect()
}

#[test]
fn over_65536_bytes_are_damaged() {
    let most = Checkpoints::from_bytes(&small(128)).expect("128 saves");
    assert_eq!(most.names().count(), 128);
    refused(&small(129), ThrottleError::Damaged, "129 saves");
    refused(&vec![0; 1 << 20], ThrottleError::Damaged, "a long file");
}

/// Where a sealed change is no damage, it is not the sum that the others are refused for.
#[test]
fn a_sealed_change_that_is_sound_is_taken() {
    let clock = ManualClock::new(0);
    let b = breaker(&clock, Trip::Consecutive(1), 1, 1);
    let bytes = changed(&changed(&plain(), 15, b'2'), 41, 77);
    let saves = Checkpoints::from_bytes(&bytes).expect("a sound save");
    assert!(saves.names().eq(["EVENING2"]));
    saves.restore("EVENING2", &b).expect("it is there");
    assert_eq!(b.lock().record.config.cooldown_ms, 3 * 256 + 77);
}

#[test]
fn a_record_that_is_not_sound_is_damage() {
    let wrong = [
        (8, 0x80, "a name that is not ASCII"),
        (16, 0, "policy 0"),
        (16, 9, "policy 9"),
        (17, 0, "n of 0"),
        (21, 1, "ratio bits of another policy"),
        (29, 1, "min calls of another policy"),
        (33, 1, "a period of another policy"),
        (49, 0, "no trials"),
        (53, 0, "none required"),
        (53, 3, "more required than trials"),
        (57, 3, "state 3"),
        (70, 1, "a trial out while closed"),
        (74, 1, "a trait probe while closed"),
        (78, 1, "a success while closed"),
        (90, 1, "a length without a list"),
        (93, 0x80, "a length of 2^31"),
    ];
    for (at, byte, what) in wrong {
        let bytes = changed(&plain(), at, byte);
        refused(&bytes, ThrottleError::Damaged, what);
    }
}

#[test]
fn a_half_open_record_and_a_list_are_judged_as_they_were_saved() {
    let clock = ManualClock::new(0);
    let ratio = saved(&half_open(&clock, RATIO));
    let wrong = [
        (70, 4, "more trials out than there are"),
        (78, 3, "as many successes as required"),
        (17, 1, "two outcomes in a window of 1"),
        (28, 0x7f, "a ratio over 1"),
        (94, 2, "an outcome of 2"),
        (90, 1, "an outcome past the length"),
    ];
    for (at, byte, what) in wrong {
        let bytes = changed(ratio.as_bytes(), at, byte);
        refused(&bytes, ThrottleError::Damaged, what);
    }
}

#[test]
fn a_wrong_header_or_zero_byte_is_damage() {
    let wrong = [
        (2, 1, "index 1 of 1"),
        (4, 0, "no blocks"),
        (4, 2, "a second block that is missing"),
        (6, 0, "an empty block"),
        (6, 85, "a body too short"),
        (6, 87, "a body too long"),
        (7, 2, "a body of 598 bytes"),
        (94, 1, "an unused byte"),
        (503, 1, "the last unused byte"),
        (504, 1, "byte 504"),
        (507, 1, "byte 507"),
    ];
    for (at, byte, what) in wrong {
        let bytes = changed(&plain(), at, byte);
        refused(&bytes, ThrottleError::Damaged, what);
    }
    let saves = two_saves();
    let mut exchanged = saves.as_bytes().to_vec();
    exchanged[..1024].rotate_left(512);
    refused(&exchanged, ThrottleError::Damaged, "blocks exchanged");
    let other = changed(saves.as_bytes(), 512 + 4, 3);
    refused(&other, ThrottleError::Damaged, "counts that differ");
}

#[test]
fn a_name_twice_is_damage() {
    let twice = plain().repeat(2);
    refused(&twice, ThrottleError::Damaged, "a save twice");
    let mut same = two_saves().as_bytes().to_vec();
    same[1024 + 8..1024 + 16].copy_from_slice(NAME.as_bytes());
    seal(&mut same[1024..]);
    refused(&same, ThrottleError::Damaged, "another breaker of its name");
}

#[test]
fn an_unknown_version_is_told_after_the_sums_and_before_the_rest() {
    let saves = two_saves();
    let bytes = saves.as_bytes();
    for block in [0, 512, 1024] {
        refused(&changed(bytes, block, 0), ThrottleError::Version, "0");
        refused(&changed(bytes, block, 99), ThrottleError::Version, "99");
        refused(&changed(bytes, block + 1, 1), ThrottleError::Version, "257");
    }
    let unsound = changed(&changed(bytes, 57, 3), 1024, 99);
    refused(&unsound, ThrottleError::Version, "before a state of 3");
    let mut summed = changed(bytes, 0, 99);
    summed[1535] ^= 1;
    refused(&summed, ThrottleError::Damaged, "after a wrong sum");
}
