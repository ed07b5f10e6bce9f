//! What is refused with which number, in the documents' order.

mod common;

use common::*;
use saves::RIGHT;
use saves::block::BLOCK;
use saves::record::Record;

/// Windowed with 100 times: 886 bytes, so blocks of 496 and 390.
fn two_blocks() -> (Record, Vec<u64>) {
    (windowed(100), list(1..=100))
}

/// 200 times: 1,686 bytes, so 496, 496, 496 and 198.
fn four_blocks(behind: usize) -> Buffer {
    let mut buffer = Buffer::new(4 + behind);
    buffer
        .save(&windowed(200), &list(1..=200), NAME)
        .expect("a save");
    buffer
}

#[test]
fn a_buffer_s_sizes() {
    let good = Buffer::with(128, &[NAME]);
    for size in [65_537, 66_048, 70_000, 511, 513, 65_535, 0] {
        let mut buffer = good.clone();
        buffer.bytes.resize(size, 0);
        buffer.refused(13);
    }
    for used in [1, 511, 513, 66_048, usize::MAX, usize::MAX - 511, 1 << 63] {
        let buffer = Buffer {
            used,
            ..good.clone()
        };
        buffer.refused(13);
    }
}

#[test]
fn an_empty_buffer_is_15_and_not_13() {
    let buffer = Buffer::new(0);
    assert_eq!((buffer.told(NAME), buffer.told_save(NAME)), (15, 15));
    let unused = Buffer::new(1);
    assert_eq!((unused.told(NAME), unused.told_save(NAME)), (15, 0));
}

#[test]
fn a_save_that_ends_with_the_buffer_fits() {
    let full = Buffer::with(2, &[NAME, OTHER]);
    assert_eq!(full.told_save(b"no third"), 15);
    let (record, times) = two_blocks();
    let mut one_left = Buffer::with(2, &[NAME]);
    assert_eq!(number(one_left.save(&record, &times, OTHER)), 15);
    let mut most = Buffer::new(128);
    for place in 0..128 {
        let name = format!("{place:8}");
        most.save(&fresh(), &list([]), name.as_bytes())
            .expect("a save");
    }
    assert_eq!((most.used, most.told(b"     127")), (65_536, 0));
}

#[test]
fn a_wrong_sum_in_the_last_block_comes_before_a_version_in_the_first() {
    let mut buffer = Buffer::with(4, &[NAME, b"another ", OTHER]);
    buffer.put(0, 0, &[7]);
    buffer.refused(14);
    buffer.block(2)[508] ^= 1;
    buffer.refused(13);
}

#[test]
fn a_version_in_the_second_run_comes_before_an_unsound_record_in_the_first() {
    let mut buffer = Buffer::with(4, &[NAME, OTHER]);
    buffer.put(0, 57, &[3]);
    buffer.refused(13);
    buffer.put(1, 0, &[7]);
    buffer.refused(14);
}

#[test]
fn every_other_version_is_14() {
    for version in [0, 2, 3, 4, 256, 257, 0xffff_u16] {
        let mut buffer = Buffer::with(2, &[NAME]);
        buffer.put(0, 0, &version.to_le_bytes());
        buffer.refused(14);
    }
}

#[test]
fn a_block_of_zeros_has_a_right_sum_and_version_0() {
    let mut buffer = Buffer::with(3, &[NAME]);
    buffer.used += BLOCK;
    buffer.refused(14);
}

#[test]
fn headers() {
    // Version, index, count, used body length, each of two bytes.
    let wrong: [(usize, usize, u16); 15] = [
        (0, 2, 1),
        (1, 2, 0),
        (1, 2, 2),
        (3, 2, 4),
        (3, 2, 0xffff),
        (0, 4, 0),
        (0, 4, 3),
        (0, 4, 5),
        (1, 4, 5),
        (3, 4, 5),
        (0, 6, 495),
        (0, 6, 497),
        (3, 6, 0),
        (3, 6, 199),
        (3, 6, 0xffff),
    ];
    for (block, at, value) in wrong {
        let mut buffer = four_blocks(4);
        assert_eq!(buffer.told(NAME), 0);
        buffer.put(block, at, &value.to_le_bytes());
        buffer.refused(13);
    }
}

#[test]
fn a_count_in_all_blocks_but_the_first_is_mixed() {
    let mut buffer = four_blocks(0);
    for block in 1..4 {
        buffer.put(block, 4, &[5, 0]);
    }
    buffer.refused(13);
    buffer.put(0, 4, &[5, 0]);
    buffer.refused(13);
}

#[test]
fn cut_runs() {
    for used in 1..4 {
        let mut buffer = four_blocks(0);
        buffer.used = BLOCK * used;
        buffer.refused(13);
    }
    let mut headless = four_blocks(0);
    headless.bytes.drain(..BLOCK);
    headless.used -= BLOCK;
    headless.refused(13);
    let mut gap = four_blocks(0);
    gap.bytes.drain(BLOCK..2 * BLOCK);
    gap.used -= BLOCK;
    gap.refused(13);
}

#[test]
fn blocks_exchanged_and_doubled() {
    let mut exchanged = four_blocks(0);
    let second = exchanged.block(1).to_vec();
    let third = exchanged.block(2).to_vec();
    exchanged.block(1).copy_from_slice(&third);
    exchanged.block(2).copy_from_slice(&second);
    exchanged.refused(13);
    let mut doubled = four_blocks(0);
    doubled.block(2).copy_from_slice(&second);
    doubled.refused(13);
}

/// The right body in parts of 495 and 391, and in a full block with an empty one behind it.
#[test]
fn none_but_the_last_is_part_full_and_none_is_empty() {
    let mut buffer = Buffer::new(2);
    let (record, times) = two_blocks();
    buffer.save(&record, &times, NAME).expect("a save");
    let body = [&buffer.bytes[8..504], &buffer.bytes[520..910]].concat();
    buffer.bytes = RIGHT.run(1, &[&body[..496], &body[496..]]);
    assert_eq!(buffer.told(NAME), 0);
    buffer.bytes = RIGHT.run(1, &[&body[..495], &body[495..]]);
    buffer.refused(13);

    let mut full = Buffer::new(2);
    full.save(&ratio(410), &list([]), NAME).expect("a save");
    let body = full.bytes[8..504].to_vec();
    full.bytes = RIGHT.run(1, &[&body, &[]]);
    full.used = 2 * BLOCK;
    full.refused(13);
    full.bytes = RIGHT.run(1, &[&[], &body]);
    full.refused(13);
}

#[test]
fn zero_bytes() {
    for at in [8 + 86, 300, 503, 504, 505, 506, 507] {
        let mut buffer = Buffer::with(3, &[NAME, OTHER]);
        buffer.put(1, at, &[1]);
        buffer.refused(13);
        // The sum doesn't cover 504 to 507, so a version still comes first.
        buffer.put(0, 0, &[2]);
        buffer.refused(14);
    }
}

/// The joined length is 8 + 78 + length × width.
#[test]
fn lengths_that_contradict_the_body() {
    let outcomes = |len: u32| {
        let mut buffer = Buffer::new(2);
        buffer.save(&ratio(len), &list([]), NAME).expect("a save");
        buffer
    };
    for (len, said) in [(3, 2), (3, 4), (0, 1), (3, 0), (3, u32::MAX)] {
        let mut buffer = outcomes(len);
        assert_eq!(buffer.told(NAME), 0);
        buffer.put(0, 90, &said.to_le_bytes());
        buffer.refused(13);
    }
    // Eight outcomes are the bytes of one time, but the length says eight.
    let mut other_width = outcomes(8);
    other_width.put(0, 16, &[3]);
    other_width.put(0, 21, &[0; 8]);
    other_width.refused(13);
    other_width.put(0, 90, &[1]);
    assert_eq!(other_width.told(NAME), 0);
}

#[test]
fn bodies_shorter_than_name_and_record() {
    for used in [1, 7, 8, 85] {
        let mut buffer = Buffer::with(2, &[NAME]);
        let body = buffer.bytes[8..8 + used].to_vec();
        buffer.bytes[..BLOCK].copy_from_slice(&RIGHT.split(1, &body));
        buffer.refused(13);
    }
}

#[test]
fn an_item_of_2_in_a_ratio_save() {
    for (item, told) in [(0, 0), (1, 0), (2, 13), (128, 13), (255, 13)] {
        let mut buffer = Buffer::new(2);
        buffer
            .save(&ratio(3), &list([1, 0, 1]), NAME)
            .expect("a save");
        buffer.put(0, 96, &[item]);
        assert_eq!(buffer.told(NAME), told, "{item}");
    }
}

/// Each with its place in the block and a number that makes the record unsound.
#[test]
fn saved_records_that_are_not_sound() {
    let wrong: [(usize, &[u8]); 14] = [
        (16, &[0]),
        (16, &[4]),
        (17, &[0]),
        (21, &[1]),
        (29, &[1]),
        (33, &[1]),
        (49, &[0]),
        (53, &[0]),
        (53, &[6]),
        (57, &[3]),
        (57, &[0]),
        (70, &[6]),
        (78, &[4]),
        (90, &[1]),
    ];
    for (at, bytes) in wrong {
        let mut buffer = Buffer::new(2);
        buffer.save(&half_open(), &list([]), NAME).expect("a save");
        assert_eq!(buffer.told(NAME), 0);
        buffer.put(0, at, bytes);
        buffer.refused(13);
    }
}

#[test]
fn names_asked_for() {
    let ascii: [u8; 8] = [0, 127, 1, 126, 0, 127, 64, 0];
    let mut buffer = Buffer::with(4, &[&ascii]);
    assert_eq!(buffer.told(&ascii), 0);
    assert_eq!(buffer.told_save(&ascii), 15, "already there");
    for at in 0..8 {
        for byte in 128..=255 {
            let mut name = ascii;
            name[at] = byte;
            assert_eq!((buffer.told(&name), buffer.told_save(&name)), (15, 15));
        }
        let mut name = ascii;
        name[at] ^= 2;
        assert_eq!((buffer.told(&name), buffer.told_save(&name)), (15, 0));
    }
    for len in [0, 1, 7, 9, 16] {
        let name: Vec<u8> = ascii.into_iter().cycle().take(len).collect();
        assert_eq!((buffer.told(&name), buffer.told_save(&name)), (15, 15));
    }
    buffer.save(&fresh(), &list([]), OTHER).expect("a save");
    assert_eq!((buffer.told(&ascii), buffer.told(OTHER)), (0, 0));
}

#[test]
fn stored_names() {
    for byte in [128, 255] {
        let mut foreign = Buffer::with(3, &[NAME, OTHER]);
        foreign.put(1, 15, &[byte]);
        foreign.refused(13);
    }
    let mut twice = Buffer::with(3, &[NAME, OTHER]);
    twice.put(1, 8, NAME);
    twice.refused(13);
}

#[test]
fn three_then_four_then_the_buffer_then_the_name() {
    let mut buffer = Buffer::with(2, &[NAME]);
    let unsound = Record {
        trials: 0,
        ..fresh()
    };
    let told = |buffer: &Buffer, mut record: Record, places: usize, name: &[u8]| {
        let (mut bytes, mut list) = (buffer.bytes.clone(), vec![0; places]);
        let saved = RIGHT.save(&record, &list, &mut bytes, buffer.used, name);
        let back = RIGHT.restore(&mut record, &mut list, &bytes, buffer.used, name);
        assert_eq!(number(saved), number(back));
        number(back)
    };
    assert_eq!(told(&buffer, fresh(), 4096, b"\x80"), 15);
    buffer.block(0)[300] = 1;
    assert_eq!(told(&buffer, fresh(), 4096, b"\x80"), 13);
    assert_eq!(told(&buffer, unsound, 4096, b"\x80"), 4);
    for places in [0, 4095, 4097] {
        assert_eq!(told(&buffer, unsound, places, b"\x80"), 3);
    }
    let mut past_its_length = list([0, 1]);
    let told = RIGHT.restore(&mut ratio(1), &mut past_its_length, &buffer.bytes, 0, NAME);
    assert_eq!(number(told), 4, "a place past the length that isn't 0");
}

#[test]
fn bytes_behind_the_used_length_are_not_read() {
    let mut buffer = Buffer::with(3, &[NAME, OTHER]);
    buffer.used = BLOCK;
    assert_eq!((buffer.told(NAME), buffer.told(OTHER)), (0, 15));
    assert_eq!(buffer.told_save(OTHER), 0);
    buffer.bytes[BLOCK..].fill(255);
    assert_eq!((buffer.told(NAME), buffer.told_save(OTHER)), (0, 0));
}

/// The check of one block: 13, 14, 13 again, of this block alone.
#[test]
fn one_block() {
    let check = |block: &[u8]| RIGHT.check_block(block);
    let mut buffer = four_blocks(0);
    assert_eq!(check(buffer.block(0)), Ok(8..504));
    assert_eq!(check(buffer.block(3)), Ok(8..206));
    for len in [0, 508, 511, 513, 1024] {
        assert_eq!(number(check(&vec![0; len])), 13);
    }
    assert_eq!(number(check(&[0; BLOCK])), 14);

    let altered = |at: usize, byte: u8, seal: bool| {
        let mut block = four_blocks(0).block(3).to_vec();
        block[at] = byte;
        if seal {
            RIGHT.seal(&mut block);
        }
        number(check(&block))
    };
    // A version, a header, a body byte, a zero byte: a wrong sum comes first.
    assert_eq!([0, 2, 20, 400].map(|at| altered(at, 9, false)), [13; 4]);
    assert_eq!(altered(0, 9, true), 14);
    // Index 4 of 4; count 0; nothing used; part full before the last of 5; a zero byte.
    let wrong = [(2, 4), (4, 0), (6, 0), (4, 5), (300, 1), (504, 1), (507, 1)];
    assert_eq!(wrong.map(|(at, byte)| altered(at, byte, true)), [13; 7]);
    // The body is not judged.
    assert_eq!(altered(20, 9, true), 0);
    let mut first = Buffer::with(1, &[NAME]);
    first.put(0, 8, b"\xff\xff");
    first.put(0, 16, &[77]);
    assert_eq!(check(first.block(0)), Ok(8..94));
    // Nor how many blocks a buffer can hold.
    let mut last_of_many = four_blocks(0);
    last_of_many.put(3, 2, &[0xfe, 0xff, 0xff, 0xff]);
    assert_eq!(check(last_of_many.block(3)), Ok(8..206));
}
