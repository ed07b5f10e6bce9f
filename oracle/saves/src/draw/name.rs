//! Names of saves, and such as no save can have.

use sample::prng::Prng;

use crate::body::Name;

/// Letters, any ASCII bytes, or those at the edges.
pub fn ascii(prng: &mut Prng) -> Name {
    let form = prng.below(3);
    std::array::from_fn(|_| match form {
        0 => b'a' + prng.below(26) as u8,
        1 => prng.below(128) as u8,
        _ => prng.pick(&[0, 1, b'0', 126, 127]),
    })
}

/// A name asked for, while these are there.
pub fn asked(prng: &mut Prng, there: &[Name], saving: bool) -> Vec<u8> {
    let known = match there {
        [] => ascii(prng),
        _ => prng.pick(there),
    };
    let share = if saving { 15 } else { 65 };
    match prng.below(100) {
        at if at < share => known.to_vec(),
        at if at < share + 8 => near(prng, known).to_vec(),
        at if at < share + 15 => foreign(prng, known).to_vec(),
        at if at < share + 22 => other_length(prng, known),
        _ => ascii(prng).to_vec(),
    }
}

/// One byte is another one, often the last.
fn near(prng: &mut Prng, mut name: Name) -> Name {
    let at = prng.pick(&[0, 3, 7, 7]);
    name[at] ^= 1 + prng.below(127) as u8;
    name
}

/// One byte or all are 128 or more.
fn foreign(prng: &mut Prng, mut name: Name) -> Name {
    match prng.below(4) {
        0 => name.iter_mut().for_each(|byte| *byte |= 128),
        1 => name[prng.below(8) as usize] = 128 + prng.below(128) as u8,
        _ => name[prng.below(8) as usize] = 128,
    }
    name
}

fn other_length(prng: &mut Prng, name: Name) -> Vec<u8> {
    let len = prng.pick(&[0, 1, 7, 7, 9, 9, 16]);
    name.into_iter().cycle().take(len).collect()
}
