//! Save, return, new settings. Refused with any number, a call leaves all.

use throttle::plain::State;
use throttle::scope::PLACES;

use crate::Model;
use crate::block::{BLOCK, NEWEST};
use crate::body::{Name, Save, join};
use crate::record::Record;
use crate::refusal::Refusal;
use crate::setting::Setting;
use crate::slip::Slip;

impl Model {
    /// Puts a save at the used length; gives the used length after it.
    pub fn save(
        &self,
        record: &Record,
        list: &[u64],
        saves: &mut [u8],
        used: usize,
        name: &[u8],
    ) -> Result<usize, Refusal> {
        let (name, there) = self.ready(record, list, saves, used, name)?;
        if self.finds(&there, &name).is_some() {
            return Err(Refusal::Taken);
        }
        let items = list[..record.len as usize].to_vec();
        let record = *record;
        let save = Save {
            name,
            record,
            items,
        };
        let run = self.split(NEWEST, &join(NEWEST, &save));
        let free = saves.len() - used;
        let free = if self.slipped(Slip::LastBlock) {
            free.saturating_sub(BLOCK)
        } else {
            free
        };
        if run.len() > free {
            return Err(Refusal::Room);
        }
        saves[used..used + run.len()].copy_from_slice(&run);
        Ok(used + run.len())
    }

    /// Puts the save of this name in force.
    pub fn restore(
        &self,
        record: &mut Record,
        list: &mut [u64],
        saves: &[u8],
        used: usize,
        name: &[u8],
    ) -> Result<(), Refusal> {
        let (name, there) = self.ready(record, list, saves, used, name)?;
        let save = self.finds(&there, &name).ok_or(Refusal::Absent)?;
        let saved = save.record;
        let keep = |slip, number| if self.slipped(slip) { number } else { 0 };
        let from = match self.slipped(Slip::SavedGeneration) {
            true => saved.generation,
            false => record.generation,
        };
        *record = Record {
            generation: self.next(from),
            inflight: keep(Slip::InflightKept, saved.inflight),
            trait_probes: keep(Slip::TraitProbesKept, saved.trait_probes),
            ..saved
        };
        if self.slipped(Slip::SuccessesLost) {
            record.successes = 0;
        }
        let (first, rest) = list.split_at_mut(save.items.len());
        first.copy_from_slice(&save.items);
        if !self.slipped(Slip::PlacesLeft) {
            rest.fill(0);
        }
        Ok(())
    }

    /// Puts new settings in force: a fresh record of the next generation.
    pub fn reconfigure(
        &self,
        record: &mut Record,
        list: &mut [u64],
        setting: &Setting,
    ) -> Result<(), Refusal> {
        ready_breaker(record, list)?;
        let config = setting.config()?;
        let kept = self.slipped(Slip::OpenUntilKept);
        let state = State {
            generation: self.next(record.generation),
            open_until: if kept { record.open_until } else { 0 },
            ..State::default()
        };
        *record = Record::new(&config, &state);
        list.fill(0);
        Ok(())
    }

    fn next(&self, generation: u64) -> u64 {
        match self.slipped(Slip::GenerationStops) {
            true => generation.saturating_add(1),
            false => generation.wrapping_add(1),
        }
    }

    /// The tests that save and return share: 3, 4, the buffer's, then 15 for the name asked.
    fn ready(
        &self,
        record: &Record,
        list: &[u64],
        saves: &[u8],
        used: usize,
        name: &[u8],
    ) -> Result<(Name, Vec<Save>), Refusal> {
        if self.slipped(Slip::BufferFirst) {
            self.read(saves, used)?;
        }
        ready_breaker(record, list)?;
        if self.slipped(Slip::NameFirst) {
            self.name(name)?;
        }
        let there = self.read(saves, used)?;
        Ok((self.name(name)?, there))
    }

    /// Eight ASCII bytes.
    fn name(&self, name: &[u8]) -> Result<Name, Refusal> {
        let eight = name.try_into().map_err(|_| Refusal::Name)?;
        match self.is_ascii(name) {
            true => Ok(eight),
            false => Err(Refusal::Name),
        }
    }
}

fn ready_breaker(record: &Record, list: &[u64]) -> Result<(), Refusal> {
    if list.len() != PLACES {
        return Err(Refusal::Places);
    }
    match record.sound_on(list) {
        true => Ok(()),
        false => Err(Refusal::Unsound),
    }
}
