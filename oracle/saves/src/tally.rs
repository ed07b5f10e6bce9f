//! Counts what calls told, what the damages did, and which breakers were saved and came back.

use std::fmt;

use throttle::plain::{HALF_OPEN, RATIO};

use crate::block::BLOCK;
use crate::body::Name;
use crate::draw::{KINDS, Told};
use crate::reader::MOST;
use crate::record::Record;
use crate::refusal::{REASONS, Refusal};
use crate::world::{Call, OPS, Op, World};

/// What a call on a damaged buffer is told; 13 of either pass for itself.
const TOLD: [&str; 7] = ["0", "3", "4", "13", "14", "13 last", "15"];

const SIZES: [&str; 5] = [
    "buffers of 0 blocks",
    "buffers of 1 to 8 blocks",
    "buffers of 9 to 59 blocks",
    "buffers of 60 to 127 blocks",
    "buffers of 128 blocks",
];

const KEPT: [&str; 6] = [
    "buffers with no save",
    "buffers with 1 save",
    "buffers with 2 saves",
    "buffers with 3 saves",
    "buffers with 4 or more saves",
    "buffers with another block behind the used length",
];

/// Of saves and returns.
const HANDED: [&str; 4] = [
    "calls with a buffer over 65,536 bytes",
    "calls with a buffer that isn't whole blocks",
    "calls with a used length past the buffer",
    "calls with a used length that isn't whole blocks",
];

const LISTS: [&str; 6] = [
    "saves of 0 items",
    "saves of 1 item",
    "saves of 2 to 9 items",
    "saves of 10 to 4,095 items",
    "saves of 4,096 items",
    "saves of as many outcomes as the window",
];

const RUNS: [&str; 6] = [
    "saves in 1 block",
    "saves in 2 blocks",
    "saves in 3 to 9 blocks",
    "saves in 10 to 66 blocks",
    "saves in 67 blocks",
    "saves that end with the buffer",
];

const RETURNS: [&str; 6] = [
    "returns to inflight above 0",
    "returns to trait probes above 0",
    "returns to successes above 0",
    "returns to a shorter list",
    "returns to 4,096 items",
    "generation wraps",
];

#[derive(Default)]
pub struct Tally {
    pub buffers: u64,
    /// How often each kind of damage was done.
    pub damages: [u64; KINDS.len()],
    /// For each call not refused, then for each reason.
    told: [[u64; REASONS.len() + 1]; OPS.len()],
    /// With the sums left and with the sums made right.
    met: [[[u64; TOLD.len()]; 2]; KINDS.len()],
    sizes: [u64; SIZES.len()],
    kept: [u64; KEPT.len()],
    handed: [u64; HANDED.len()],
    /// By policy and state.
    saved: [[u64; 3]; 3],
    returned: [[u64; 3]; 3],
    lists: [u64; LISTS.len()],
    runs: [u64; RUNS.len()],
    returns: [u64; RETURNS.len()],
}

/// The first of these bounds that a number doesn't pass.
fn class(number: usize, bounds: &[usize]) -> usize {
    let passed = bounds.iter().take_while(|&&bound| number > bound);
    passed.count()
}

impl Tally {
    pub fn calls(&self) -> u64 {
        self.told.iter().flatten().sum()
    }

    /// A filled buffer.
    pub fn buffer(&mut self, size: usize, used: usize, names: &[Name]) {
        self.buffers += 1;
        self.sizes[class(size / BLOCK, &[0, 8, 59, 127])] += 1;
        self.kept[class(names.len(), &[0, 1, 2, 3])] += 1;
        self.kept[5] += u64::from(used < size);
    }

    pub fn note(&mut self, told: &Told, before: &World, after: &World) {
        let reason = told.refusal.map_or(0, |refusal| 1 + refusal.place());
        self.told[told.call.op.index()][reason] += 1;
        match (&told.call.op, told.refusal) {
            (Op::Save(_), None) => self.note_save(told, &before.record),
            (Op::Restore(_), None) => self.note_return(told, before, after),
            (Op::Reconfigure(_), None) => self.returns[5] += wrapped(before, after),
            _ => {}
        }
        if matches!(told.call.op, Op::Save(_) | Op::Restore(_)) {
            self.note_handed(&told.call);
        }
        if !matches!(told.call.op, Op::Reconfigure(_)) {
            for damage in &told.damages {
                let row = &mut self.met[damage.kind][usize::from(damage.mended)];
                row[column(told.refusal)] += 1;
            }
        }
    }

    fn note_handed(&mut self, call: &Call) {
        let Call { size, used, .. } = *call;
        let whole = |bytes: usize| bytes.is_multiple_of(BLOCK);
        let wrong = [size > MOST, !whole(size), used > size, !whole(used)];
        for (count, wrong) in self.handed.iter_mut().zip(wrong) {
            *count += u64::from(wrong);
        }
    }

    fn note_save(&mut self, told: &Told, record: &Record) {
        let end = told.answer.values[0] as usize;
        let blocks = (end - told.call.used) / BLOCK;
        self.saved[usize::from(record.kind) - 1][usize::from(record.state)] += 1;
        self.lists[class(record.len as usize, &[0, 1, 9, 4095])] += 1;
        self.lists[5] += u64::from(record.kind == RATIO && record.len == record.limit);
        self.runs[class(blocks, &[1, 2, 9, 66])] += 1;
        self.runs[5] += u64::from(end == told.call.size);
    }

    fn note_return(&mut self, told: &Told, before: &World, after: &World) {
        let record = &after.record;
        self.returned[usize::from(record.kind) - 1][usize::from(record.state)] += 1;
        self.returns[2] += u64::from(record.successes > 0);
        self.returns[3] += u64::from(record.len < before.record.len);
        self.returns[4] += u64::from(record.len == 4096);
        self.returns[5] += wrapped(before, after);
        if record.state == HALF_OPEN {
            let (inflight, trait_probes) = saved_counts(told, before);
            self.returns[0] += u64::from(inflight > 0);
            self.returns[1] += u64::from(trait_probes > 0);
        }
    }

    /// What a sample must hold and this one doesn't.
    pub fn missing(&self) -> Vec<String> {
        let mut missing = Vec::new();
        let mut least = |what: String, count: u64, least: u64| {
            if count < least {
                missing.push(format!("{what}: {count} of {least}"));
            }
        };
        for (op, row) in OPS.iter().zip(&self.told) {
            least(format!("{op} told 0"), row[0], 10);
            for (&(reason, number, what), &count) in REASONS.iter().zip(&row[1..]) {
                if can_be(op, reason) {
                    least(format!("{op} told {number}, {what}"), count, 2);
                }
            }
        }
        let damages = KINDS.iter().map(|kind| kind.0).zip(self.damages);
        let classes = (HANDED.into_iter().zip(self.handed))
            .chain(LISTS.into_iter().zip(self.lists))
            .chain(RUNS.into_iter().zip(self.runs))
            .chain(RETURNS.into_iter().zip(self.returns));
        for (what, count) in damages.chain(classes) {
            least(what.into(), count, 1);
        }
        for (place, &count) in self.returned.iter().flatten().enumerate() {
            least(format!("returns to {}", POLICY_STATE[place]), count, 1);
        }
        missing
    }
}

const POLICY_STATE: [&str; 9] = [
    "Consecutive Closed",
    "Consecutive HalfOpen",
    "Consecutive Open",
    "Ratio Closed",
    "Ratio HalfOpen",
    "Ratio Open",
    "Windowed Closed",
    "Windowed HalfOpen",
    "Windowed Open",
];

fn wrapped(before: &World, after: &World) -> u64 {
    u64::from(after.record.generation < before.record.generation)
}

/// Inflight and trait probes of the save that was returned to.
fn saved_counts(told: &Told, world: &World) -> (u32, u32) {
    let Op::Restore(name) = &told.call.op else {
        return (0, 0);
    };
    let saves = crate::RIGHT.read(&world.buffer[..told.call.size], told.call.used);
    let saves = saves.unwrap_or_default();
    let save = saves.iter().find(|save| save.name[..] == name[..]);
    save.map_or((0, 0), |save| {
        (save.record.inflight, save.record.trait_probes)
    })
}

/// Whether a call can be refused so.
fn can_be(op: &str, reason: Refusal) -> bool {
    use Refusal::*;
    match reason {
        Places | Unsound => op != "check_block",
        Kind | Nanos | Limit => op == "reconfigure",
        Sizes | Sum | Version | Header | Zero => op != "reconfigure",
        Body | Saved | Twice | Name => op == "save" || op == "restore",
        Taken | Room => op == "save",
        Absent => op == "restore",
    }
}

/// Its place in `TOLD`.
fn column(refusal: Option<Refusal>) -> usize {
    let Some(refusal) = refusal else { return 0 };
    match (refusal, refusal.number()) {
        (_, 3) => 1,
        (_, 4) => 2,
        (Refusal::Sizes | Refusal::Sum, _) => 3,
        (_, 14) => 4,
        (_, 13) => 5,
        _ => 6,
    }
}

impl fmt::Display for Tally {
    fn fmt(&self, f: &mut fmt::Formatter<'_>) -> fmt::Result {
        writeln!(f, "buffers: {}\ncalls: {}", self.buffers, self.calls())?;
        self.print_told(f)?;
        self.print_damages(f)?;
        let policies = POLICY_STATE.iter();
        let pairs = self
            .saved
            .iter()
            .flatten()
            .zip(self.returned.iter().flatten());
        for (what, (saved, returned)) in policies.zip(pairs) {
            writeln!(f, "{what}: saved {saved}, returned to {returned}")?;
        }
        let classes = (SIZES.into_iter().zip(self.sizes))
            .chain(KEPT.into_iter().zip(self.kept))
            .chain(HANDED.into_iter().zip(self.handed))
            .chain(LISTS.into_iter().zip(self.lists))
            .chain(RUNS.into_iter().zip(self.runs));
        let mut all = classes.chain(RETURNS.into_iter().zip(self.returns));
        all.try_for_each(|(what, count)| writeln!(f, "{what}: {count}"))
    }
}

impl Tally {
    fn print_told(&self, f: &mut fmt::Formatter<'_>) -> fmt::Result {
        for (op, row) in OPS.iter().zip(&self.told) {
            let all: u64 = row.iter().sum();
            write!(f, "{op}: {all}, told 0: {}", row[0])?;
            for (&(_, number, what), count) in REASONS.iter().zip(&row[1..]) {
                if *count > 0 {
                    write!(f, ", {number} {what}: {count}")?;
                }
            }
            writeln!(f)?;
        }
        Ok(())
    }

    fn print_damages(&self, f: &mut fmt::Formatter<'_>) -> fmt::Result {
        write!(f, "{:34}{:>9}", "damage", "done")?;
        TOLD.iter().try_for_each(|name| write!(f, "{name:>9}"))?;
        writeln!(f)?;
        for ((name, _), (rows, done)) in KINDS.iter().zip(self.met.iter().zip(self.damages)) {
            for (row, sums) in rows.iter().zip(["", ", sums right"]) {
                let done = if sums.is_empty() {
                    done.to_string()
                } else {
                    String::new()
                };
                write!(f, "{:34}{done:>9}", format!("{name}{sums}"))?;
                row.iter().try_for_each(|count| write!(f, "{count:>9}"))?;
                writeln!(f)?;
            }
        }
        Ok(())
    }
}
