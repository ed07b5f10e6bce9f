//! The bytes of saves, worked out by hand from document 02.

mod common;

use common::*;
use saves::RIGHT;
use saves::block::BLOCK;
use saves::body::{item_width, record_width};
use saves::record::{FIELDS, Record};

#[test]
fn a_record_has_78_bytes_in_document_01_s_order() {
    let widths: Vec<usize> = FIELDS.iter().map(|field| field.width).collect();
    assert_eq!(widths, [1, 4, 8, 4, 8, 8, 4, 4, 1, 8, 4, 4, 4, 4, 8, 4]);
    assert_eq!(record_width(1), 78);
    assert_eq!((item_width(2), item_width(3)), (1, 8));
}

/// 1·1 + 1·5 + 86·7; the name 100·9 + 101·10 + 115·11 + 107·12 + 32·13 + 111·14 + 110·15 + 101·16;
/// kind 1·17; n 2·18; cooldown 232·42 + 3·43; trials 1·50; required 1·54: 20,333 = 0x4f6d.
#[test]
fn a_small_save() {
    let mut expected = [0; BLOCK];
    expected[0] = 1;
    expected[4] = 1;
    expected[6] = 86;
    expected[8..16].copy_from_slice(b"desk one");
    expected[16] = 1;
    expected[17] = 2;
    expected[41..43].copy_from_slice(&[0xe8, 0x03]);
    expected[49] = 1;
    expected[53] = 1;
    expected[508..512].copy_from_slice(&[0x6d, 0x4f, 0, 0]);
    let mut bytes = vec![0xaa; 2 * BLOCK];
    let used = RIGHT.save(&fresh(), &list([]), &mut bytes, 0, NAME);
    assert_eq!(used, Ok(512));
    assert_eq!(bytes[..512], expected);
    assert_eq!(bytes[512..], [0xaa; 512], "bytes past the run");
}

/// Every field in its place, little-endian, then the items.
#[test]
fn each_field_and_each_width_of_an_item() {
    let record = Record {
        kind: 3,
        limit: 0x0102,
        ratio_bits: 0,
        min_calls: 0,
        period_ms: 0x1112_1314_1516_1718,
        cooldown_ms: 0x2122_2324_2526_2728,
        trials: 0x3132_3334,
        required: 0x3031_3233,
        state: 1,
        generation: 0x4142_4344_4546_4748,
        run: 0x5152_5354,
        inflight: 0x3132_3334,
        trait_probes: 0x6162_6364,
        successes: 0x3031_3232,
        open_until: 0x7172_7374_7576_7778,
        len: 2,
    };
    let mut bytes = vec![0; BLOCK];
    let times = list([0x8182_8384_8586_8788, 1]);
    RIGHT
        .save(&record, &times, &mut bytes, 0, NAME)
        .expect("a save");
    let body = "03 02010000 0000000000000000 00000000 1817161514131211 2827262524232221 \
                34333231 33323130 01 4847464544434241 54535251 34333231 64636261 32323130 \
                7877767574737271 02000000 8887868584838281 0100000000000000";
    assert_eq!(hex(&bytes[16..8 + 102]), body.replace(' ', ""));
    assert_eq!(bytes[6..8], [102, 0]);

    let outcomes = list([1, 0, 1]);
    RIGHT
        .save(&ratio(3), &outcomes, &mut bytes, 0, NAME)
        .expect("a save");
    assert_eq!(bytes[6..8], [89, 0]);
    assert_eq!(hex(&bytes[21..29]), "000000000000e03f");
    assert_eq!(bytes[94..98], [1, 0, 1, 0]);
}

fn hex(bytes: &[u8]) -> String {
    bytes.iter().map(|byte| format!("{byte:02x}")).collect()
}

/// The index, count and used body length of each block.
fn shape(buffer: &Buffer) -> Vec<[u16; 3]> {
    let number = |block: &[u8], at| u16::from_le_bytes([block[at], block[at + 1]]);
    let used = buffer.bytes[..buffer.used].chunks(BLOCK);
    used.map(|b| [number(b, 2), number(b, 4), number(b, 6)])
        .collect()
}

#[test]
fn a_full_block_and_one_byte_more() {
    let mut buffer = Buffer::new(3);
    buffer.save(&ratio(410), &list([]), NAME).expect("a save");
    assert_eq!(shape(&buffer), [[0, 1, 496]]);
    buffer.save(&ratio(411), &list([]), OTHER).expect("a save");
    assert_eq!(shape(&buffer), [[0, 1, 496], [0, 2, 496], [1, 2, 1]]);
}

/// 8 + 78 + 8 · 4,096 = 32,854 bytes: 66 blocks of 496 and one of 118.
#[test]
fn a_full_windowed_list_takes_67_blocks() {
    let mut buffer = Buffer::new(128);
    let times = list((0..4096).map(|place| u64::MAX - place));
    buffer.save(&windowed(4096), &times, NAME).expect("a save");
    assert_eq!(buffer.used, 67 * 512);
    let shape = shape(&buffer);
    assert!(shape[..66].iter().all(|block| block[2] == 496));
    assert_eq!(shape[66], [66, 67, 118]);
    assert_eq!(
        number(buffer.save(&windowed(4096), &times, OTHER)),
        15,
        "no second one"
    );
    let (mut record, mut places) = (fresh(), list([]));
    RIGHT
        .restore(&mut record, &mut places, &buffer.bytes, buffer.used, NAME)
        .expect("a return");
    assert_eq!(places, times);
}

/// The greatest sum is 255 · (1 + … + 504) = 32,451,300.
#[test]
fn the_sum_is_over_positions_0_to_503() {
    assert_eq!(RIGHT.sum(&[255; BLOCK]), 32_451_300);
    let mut block = [0; BLOCK];
    block[503] = 1;
    assert_eq!(RIGHT.sum(&block), 504);
    block[504..].fill(255);
    assert_eq!(RIGHT.sum(&block), 504);
}
