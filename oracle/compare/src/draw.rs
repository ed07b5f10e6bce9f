//! Draws settings of any numbers, calls and damages.

use archive::ffi::Setting;
use archive::{ROOM, setting};
use sample::draw::{self, Player, Start};
use sample::prng::Prng;
use throttle::plain::{Call, Config, HALF_OPEN, State, Ticket};

use crate::act::{Damage, Finishing, Op, Step};
use crate::damage::FIELDS;
use crate::expect::knows;

/// A full or nearly full list of times that all differ, so that one goes at a
/// time, and a reading about where the first one goes.
pub fn rising_start(prng: &mut Prng, config: &Config) -> Start {
    let (len, first) = (4094 + prng.below(3), prng.below(100));
    let state = State {
        generation: u64::MAX - prng.below(3),
        items: (first..first + len).collect(),
        ..State::default()
    };
    let clock = prng.near(config.period_ms.saturating_add(first));
    Start { state, clock }
}

/// The next step of a sequence.
pub fn step(prng: &mut Prng, player: &mut Player, config: &Config, state: &State) -> Step {
    let now = player.reading(prng, config, state);
    let op = match prng.below(300) {
        0..=11 => finish(prng, state),
        12..=15 => Op::Board,
        16..=19 => Op::IsSound,
        20 => Op::Build(any_setting(prng)),
        _ => match player.call(prng, state) {
            Call::Charge { .. } => Op::Board,
            call => Op::Call(call),
        },
    };
    spoil(prng, state, Step::new(now, op))
}

/// Any byte for true. At times a wrong count of places, an unknown kind or a damaged record.
pub fn spoil(prng: &mut Prng, state: &State, mut step: Step) -> Step {
    step.how.unread = prng.pick(&[0, 1, 7, u64::MAX]);
    step.how.yes = 1 + prng.below(255) as u8;
    if prng.percent(2) {
        step.how.places = prng.pick(&[0, 1, 4095, 4097, ROOM]);
    }
    if prng.percent(4) {
        step.damage = Some(damage(prng, state));
    }
    match &step.op {
        Op::Call(call) if prng.percent(4) => {
            let kind = prng.pick(&[0, 1, 2, 3, 4, 5, 127, 255]);
            step.how.kind = Some(kind).filter(|&kind| !knows(call, kind));
        }
        _ => {}
    }
    step
}

fn damage(prng: &mut Prng, state: &State) -> Damage {
    let len = state.items.len();
    let place = match prng.below(6) {
        0 => 0,
        1 => 4095,
        2 => len.saturating_sub(1),
        3 => len,
        4 => len + 1,
        _ => prng.below(4096) as usize,
    };
    let spot = match prng.percent(65) {
        true => prng.below(FIELDS as u64) as usize,
        false => FIELDS + place,
    };
    let value = match prng.below(8) {
        0..=3 => prng.below(6),
        4 => prng.pick(&[4095, 4096, 4097, 0x3ff0_0000_0000_0001, 1 << 63]),
        5 => prng.near(len as u64),
        6 => u64::MAX,
        _ => prng.next(),
    };
    Damage { spot, value }
}

fn finish(prng: &mut Prng, state: &State) -> Op {
    let many = if prng.percent(5) { 40 } else { 7 };
    let count = prng.below(many);
    let calls: Vec<Finishing> = (0..count).map(|_| finishing(prng, state)).collect();
    let short = (count > 0 && prng.percent(5)).then(|| prng.below(5) as usize);
    Op::Finish { calls, short }
}

fn finishing(prng: &mut Prng, state: &State) -> Finishing {
    let present = state.generation;
    let generation = match prng.below(12) {
        0..=8 => present,
        9 => present.wrapping_add(1),
        10 => present.wrapping_sub(1),
        _ => prng.next(),
    };
    let probe = prng.percent(if state.state == HALF_OPEN { 80 } else { 30 });
    Finishing {
        ticket: Ticket { generation, probe },
        settles: prng.percent(65),
        mark: prng.percent(60),
    }
}

/// A setting with some of its numbers replaced by any others.
pub fn any_setting(prng: &mut Prng) -> Setting {
    let mut setting = setting(&draw::settings(prng));
    for _ in 0..prng.below(4) {
        match prng.below(10) {
            0 => setting.kind = prng.pick(&[0, 1, 2, 3, 4, 255]),
            1 => setting.limit = narrow(prng),
            2 => setting.ratio = f64::from_bits(prng.next()),
            3 => setting.min_calls = narrow(prng),
            4 => setting.period_secs = prng.next() >> prng.below(64),
            5 => setting.period_nanos = nanos(prng),
            6 => setting.cooldown_secs = prng.next() >> prng.below(64),
            7 => setting.cooldown_nanos = nanos(prng),
            8 => setting.trials = narrow(prng),
            _ => setting.required = narrow(prng),
        }
    }
    setting
}

fn narrow(prng: &mut Prng) -> u32 {
    let any = (prng.next() >> 32 >> prng.below(32)) as u32;
    prng.pick(&[0, 1, 2, 4095, 4096, 4097, u32::MAX, any, any])
}

fn nanos(prng: &mut Prng) -> u32 {
    let any = (prng.next() >> 32) as u32;
    prng.pick(&[0, 999_999, 999_999_999, 1_000_000_000, u32::MAX, any])
}
