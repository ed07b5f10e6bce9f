//! Damages of a buffer. Each says whether it could be done.

use sample::prng::Prng;
use throttle::plain::RATIO;

use super::Damage;
use super::draft::Draft;
use crate::RIGHT;
use crate::block::{BLOCK, BODY, FULL, Header, NEWEST, SUM, ZEROS};
use crate::body::listed_from;
use crate::reader::MOST;
use crate::record::FIELDS;
use crate::refusal::Refusal;

type Kind = fn(&mut Prng, &mut Draft) -> Option<()>;

pub const KINDS: [(&str, Kind); 24] = [
    ("byte", byte),
    ("sum", sum),
    ("version", version),
    ("index", index),
    ("count", count),
    ("used body length", used_body),
    ("zero byte", zero),
    ("names equal", names_equal),
    ("name not ASCII", foreign_name),
    ("field", field),
    ("record not sound", unsound),
    ("item", item),
    ("list length or kind", list_length),
    ("body longer or shorter", body),
    ("split otherwise", split),
    ("blocks exchanged", exchange),
    ("block doubled", double),
    ("block cut out", cut),
    ("blocks cut off", cut_off),
    ("run doubled", run_twice),
    ("runs exchanged", runs),
    ("block of any bytes", any_block),
    ("used length", used),
    ("buffer size", size),
];

/// Does one that can be done here.
pub fn damage(prng: &mut Prng, draft: &mut Draft) -> Damage {
    loop {
        let kind = prng.below(KINDS.len() as u64) as usize;
        let before = draft.clone();
        if (KINDS[kind].1)(prng, draft).is_none() {
            *draft = before;
            continue;
        }
        let mended = KINDS[kind].0 != "sum" && prng.percent(70);
        if mended {
            draft.mend(&before);
        }
        return Damage { kind, mended };
    }
}

fn pick(prng: &mut Prng, from: &[usize]) -> Option<usize> {
    match from {
        [] => None,
        _ => Some(prng.pick(from)),
    }
}

fn any(prng: &mut Prng, below: usize) -> Option<usize> {
    (below > 0).then(|| prng.below(below as u64) as usize)
}

/// The first block of a run.
fn head(prng: &mut Prng, draft: &Draft) -> Option<usize> {
    pick(prng, &draft.heads())
}

fn byte(prng: &mut Prng, draft: &mut Draft) -> Option<()> {
    let at = any(prng, BLOCK * draft.blocks())?;
    draft.bytes[at] ^= 1 << prng.below(8);
    Some(())
}

fn sum(prng: &mut Prng, draft: &mut Draft) -> Option<()> {
    let number = any(prng, draft.blocks())?;
    let block = draft.block(number);
    let mut sum = [0; 4];
    sum.copy_from_slice(&block[SUM]);
    let right = u32::from_le_bytes(sum);
    let wrong = prng.pick(&[right.wrapping_add(1), right ^ 1 << 31, right << 16, !right]);
    block[SUM].copy_from_slice(&wrong.to_le_bytes());
    Some(())
}

/// Alters the header of a block.
fn header(
    prng: &mut Prng,
    draft: &mut Draft,
    alter: impl Fn(&mut Prng, &mut Header),
) -> Option<()> {
    let number = any(prng, draft.blocks())?;
    let mut header = draft.header(number);
    alter(prng, &mut header);
    header.put(draft.block(number));
    Some(())
}

/// Of a block or of a whole run.
fn version(prng: &mut Prng, draft: &mut Draft) -> Option<()> {
    let version = prng.pick(&[0, 2, 2, 3, 4, 7, 256, 257, u16::MAX]);
    if prng.percent(60) {
        return header(prng, draft, |_, header| header.version = version);
    }
    let head = head(prng, draft)?;
    for number in head..head + draft.run_len(head) {
        let header = Header {
            version,
            ..draft.header(number)
        };
        header.put(draft.block(number));
    }
    Some(())
}

fn index(prng: &mut Prng, draft: &mut Draft) -> Option<()> {
    header(prng, draft, |prng, header| {
        let Header { index, count, .. } = *header;
        let near = prng.pick(&[index.wrapping_sub(1), index.wrapping_add(1)]);
        header.index = prng.pick(&[near, near, near, count, 0, 256, u16::MAX]);
    })
}

fn count(prng: &mut Prng, draft: &mut Draft) -> Option<()> {
    header(prng, draft, |prng, header| {
        let Header { index, count, .. } = *header;
        let near = prng.pick(&[count.wrapping_sub(1), count.wrapping_add(1)]);
        header.count = prng.pick(&[near, near, near, index, 0, count ^ 256, u16::MAX]);
    })
}

/// What is then unused is made 0 at times.
fn used_body(prng: &mut Prng, draft: &mut Draft) -> Option<()> {
    let number = any(prng, draft.blocks())?;
    let mut header = draft.header(number);
    let near = prng.pick(&[header.used.wrapping_sub(1), header.used.wrapping_add(1)]);
    header.used = prng.pick(&[near, near, 0, 0, 1, 495, 496, 497, 504, 512, u16::MAX]);
    let block = draft.block(number);
    header.put(block);
    if usize::from(header.used) <= FULL && prng.percent(60) {
        block[BODY][header.used.into()..].fill(0);
    }
    Some(())
}

fn zero(prng: &mut Prng, draft: &mut Draft) -> Option<()> {
    let number = any(prng, draft.blocks())?;
    let used = usize::from(draft.header(number).used).min(FULL);
    let unused = BODY.start + used..BODY.end;
    let range = if unused.is_empty() || prng.percent(50) {
        ZEROS
    } else {
        unused
    };
    let within = prng.below(range.len() as u64) as usize;
    let at = prng.pick(&[range.start, range.end - 1, range.start + within]);
    draft.block(number)[at] = prng.pick(&[1, 128, 255]);
    Some(())
}

fn names_equal(prng: &mut Prng, draft: &mut Draft) -> Option<()> {
    let (one, other) = (head(prng, draft)?, head(prng, draft)?);
    (one != other).then_some(())?;
    let name = draft.block(one)[8..16].to_vec();
    draft.block(other)[8..16].copy_from_slice(&name);
    Some(())
}

fn foreign_name(prng: &mut Prng, draft: &mut Draft) -> Option<()> {
    let head = head(prng, draft)?;
    let at = 8 + prng.below(8) as usize;
    draft.block(head)[at] = prng.pick(&[128, 128, 129, 200, 255]);
    Some(())
}

/// Any number in a field of a saved record.
fn field(prng: &mut Prng, draft: &mut Draft) -> Option<()> {
    let head = head(prng, draft)?;
    field_of(prng, draft, head)
}

fn field_of(prng: &mut Prng, draft: &mut Draft, head: usize) -> Option<()> {
    let number = any(prng, FIELDS.len())?;
    put_field(prng, draft, head, number)
}

fn put_field(prng: &mut Prng, draft: &mut Draft, head: usize, number: usize) -> Option<()> {
    let (at, width) = (Draft::field(head, number), FIELDS[number].width);
    let mut old = [0; 8];
    old[..width].copy_from_slice(&draft.bytes[at..at + width]);
    let value = match prng.below(8) {
        0..=2 => prng.near(u64::from_le_bytes(old)),
        3..=5 => prng.below(6),
        6 => prng.pick(&[4095, 4096, 4097, 0x3ff0_0000_0000_0001, 1 << 63, u64::MAX]),
        _ => prng.next(),
    };
    draft.bytes[at..at + width].copy_from_slice(&value.to_le_bytes()[..width]);
    Some(())
}

/// A number in a field that makes the saved record unsound, and nothing else wrong.
fn unsound(prng: &mut Prng, draft: &mut Draft) -> Option<()> {
    let head = head(prng, draft)?;
    let before = draft.clone();
    for _ in 0..40 {
        field_of(prng, draft, head)?;
        if RIGHT.part(NEWEST, &draft.joined(head)) == Err(Refusal::Saved) {
            return Some(());
        }
        *draft = before.clone();
    }
    None
}

/// A byte of the list; mostly one that is no outcome.
fn item(prng: &mut Prng, draft: &mut Draft) -> Option<()> {
    let heads = draft.heads().into_iter();
    let ratio = |&head: &usize| draft.bytes[Draft::field(head, 0)] == RATIO;
    let first = listed_from(NEWEST);
    let listed = |&head: &usize| draft.joined(head).len() > first;
    let heads: Vec<usize> = heads.filter(ratio).filter(listed).collect();
    let head = pick(prng, &heads)?;
    let items = draft.joined(head).len() - first;
    let within = any(prng, items)?;
    let at = prng.pick(&[0, items - 1, within]);
    draft.bytes[Draft::in_body(head, first + at)] = prng.pick(&[2, 2, 3, 128, 255, 1]);
    Some(())
}

fn list_length(prng: &mut Prng, draft: &mut Draft) -> Option<()> {
    let head = head(prng, draft)?;
    let number = if prng.percent(70) {
        FIELDS.len() - 1
    } else {
        0
    };
    put_field(prng, draft, head, number)
}

/// Bytes put behind the joined body, or taken from its end.
fn body(prng: &mut Prng, draft: &mut Draft) -> Option<()> {
    let head = head(prng, draft)?;
    let mut body = draft.joined(head);
    let by = prng.pick(&[1, 1, 7, 8, 8, 9, 16]);
    if prng.percent(50) {
        body.resize(body.len() + by, prng.pick(&[0, 1, 255]));
    } else {
        let first = listed_from(NEWEST);
        let short = prng.pick(&[7, 8, 9, first - 1, first]);
        body.truncate(prng.pick(&[body.len().saturating_sub(by).max(1), short]));
    }
    let run = RIGHT.split(NEWEST, &body);
    draft.replace(head, draft.run_len(head), &run).then_some(())
}

/// The same body in a part-full block more, or with an empty one at its end.
fn split(prng: &mut Prng, draft: &mut Draft) -> Option<()> {
    let head = head(prng, draft)?;
    let body = draft.joined(head);
    let mut parts: Vec<&[u8]> = body.chunks(FULL).collect();
    let last = parts.pop()?;
    let cut = match prng.below(4) {
        0 => last.len(),
        1 => last.len() / 2,
        2 => 0,
        _ => any(prng, last.len() + 1)?,
    };
    parts.extend([&last[..cut], &last[cut..]]);
    let run = RIGHT.run(NEWEST, &parts);
    draft.replace(head, draft.run_len(head), &run).then_some(())
}

fn exchange(prng: &mut Prng, draft: &mut Draft) -> Option<()> {
    let (one, other) = (any(prng, draft.blocks())?, any(prng, draft.blocks())?);
    (one != other).then_some(())?;
    let block = draft.block(one).to_vec();
    let second = draft.block(other).to_vec();
    draft.block(one).copy_from_slice(&second);
    draft.block(other).copy_from_slice(&block);
    Some(())
}

/// Put in again behind itself, or over another one.
fn double(prng: &mut Prng, draft: &mut Draft) -> Option<()> {
    let number = any(prng, draft.blocks())?;
    let block = draft.block(number).to_vec();
    if prng.percent(50) {
        return draft.replace(number + 1, 0, &block).then_some(());
    }
    let other = any(prng, draft.blocks())?;
    draft.block(other).copy_from_slice(&block);
    (number != other).then_some(())
}

fn cut(prng: &mut Prng, draft: &mut Draft) -> Option<()> {
    let number = any(prng, draft.blocks())?;
    draft.replace(number, 1, &[]).then_some(())
}

fn cut_off(prng: &mut Prng, draft: &mut Draft) -> Option<()> {
    let left = any(prng, draft.blocks())?;
    let one_less = draft.blocks() - 1;
    draft.used = BLOCK * prng.pick(&[left, one_less]);
    Some(())
}

/// A run put again at the end; at times under another name, which is no damage.
fn run_twice(prng: &mut Prng, draft: &mut Draft) -> Option<()> {
    let head = head(prng, draft)?;
    let end = draft.blocks();
    let len = BLOCK * draft.run_len(head);
    let mut run = draft.bytes[BLOCK * head..][..len].to_vec();
    run[15] ^= prng.pick(&[0, 0, 1]);
    draft.replace(end, 0, &run).then_some(())
}

/// Two neighbours change places, which is no damage.
fn runs(prng: &mut Prng, draft: &mut Draft) -> Option<()> {
    let first = head(prng, draft)?;
    let second = first + draft.run_len(first);
    draft.heads().contains(&second).then_some(())?;
    let end = second + draft.run_len(second);
    let runs = &mut draft.bytes[BLOCK * first..BLOCK * end];
    runs.rotate_left(BLOCK * (second - first));
    Some(())
}

/// At times with a right version, or all zeros.
fn any_block(prng: &mut Prng, draft: &mut Draft) -> Option<()> {
    let number = any(prng, draft.blocks())?;
    let form = prng.below(3);
    let block = draft.block(number);
    block.fill(0);
    if form > 0 {
        block.fill_with(|| prng.next() as u8);
    }
    if form == 1 {
        block[..2].copy_from_slice(&[1, 0]);
    }
    Some(())
}

fn used(prng: &mut Prng, draft: &mut Draft) -> Option<()> {
    let Draft { used, size, .. } = *draft;
    let at = any(prng, size + 1)?;
    let more = used.wrapping_add(BLOCK);
    let near = prng.pick(&[
        used.wrapping_sub(1),
        used.wrapping_add(1),
        used.wrapping_sub(BLOCK),
    ]);
    let past = prng.pick(&[size + BLOCK, usize::MAX, usize::MAX - 511, 1 << 63, 1 << 32]);
    draft.used = prng.pick(&[near, near, more, size, past, past, at, 0]);
    (draft.used != used).then_some(())
}

/// Over the limit where there is room, not whole, or below the used length.
fn size(prng: &mut Prng, draft: &mut Draft) -> Option<()> {
    let (old, room) = (draft.size, draft.bytes.len());
    let over = prng.pick(&[MOST + 1, MOST + BLOCK, MOST + 2 * BLOCK]);
    let near = prng.pick(&[
        old.wrapping_sub(1),
        old + 1,
        old.wrapping_sub(BLOCK),
        old + BLOCK,
    ]);
    let past = draft.used.wrapping_sub(prng.pick(&[1, BLOCK]));
    let any = any(prng, room + 1)?;
    let size = prng.pick(&[over, over, near, past, any]);
    draft.size = size;
    (size != old && size <= room).then_some(())
}
