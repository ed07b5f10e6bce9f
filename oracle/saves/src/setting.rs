//! A setting as it is handed in: any numbers.

use throttle::Subject;
use throttle::plain::{CONSECUTIVE, Config, RATIO, Settings, WINDOWED};
use throttle::scope::PLACES;

use crate::refusal::Refusal;

#[derive(Clone, Copy, Debug, Default, PartialEq, Eq)]
pub struct Setting {
    pub kind: u8,
    pub limit: u32,
    pub ratio_bits: u64,
    pub min_calls: u32,
    pub period_secs: u64,
    pub period_nanos: u32,
    pub cooldown_secs: u64,
    pub cooldown_nanos: u32,
    pub trials: u32,
    pub required: u32,
}

impl Setting {
    /// `None` for a number too wide for its field.
    pub fn from_numbers(numbers: [u64; 10]) -> Option<Self> {
        let narrow = |number: u64| u32::try_from(number).ok();
        Some(Self {
            kind: numbers[0].try_into().ok()?,
            limit: narrow(numbers[1])?,
            ratio_bits: numbers[2],
            min_calls: narrow(numbers[3])?,
            period_secs: numbers[4],
            period_nanos: narrow(numbers[5])?,
            cooldown_secs: numbers[6],
            cooldown_nanos: narrow(numbers[7])?,
            trials: narrow(numbers[8])?,
            required: narrow(numbers[9])?,
        })
    }

    pub fn numbers(&self) -> [u64; 10] {
        [
            self.kind.into(),
            self.limit.into(),
            self.ratio_bits,
            self.min_calls.into(),
            self.period_secs,
            self.period_nanos.into(),
            self.cooldown_secs,
            self.cooldown_nanos.into(),
            self.trials.into(),
            self.required.into(),
        ]
    }

    /// What the Rust's builder makes of it. Only a Windowed one has a period.
    pub fn config(&self) -> Result<Config, Refusal> {
        if !matches!(self.kind, CONSECUTIVE | RATIO | WINDOWED) {
            return Err(Refusal::Kind);
        }
        let settings = Settings::from_numbers(self.numbers()).ok_or(Refusal::Nanos)?;
        if self.kind != CONSECUTIVE && self.limit as usize > PLACES {
            return Err(Refusal::Limit);
        }
        Ok(Subject::new(&settings).config())
    }
}
