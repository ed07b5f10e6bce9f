//! Saves of breakers, to come back to.
use core::fmt;

use crate::breaker::CircuitBreaker;
use crate::builder::CircuitBreakerBuilder;
use crate::clock::Clock;
use crate::error::ThrottleError;
use crate::ffi::{BLOCK, NAME, SAVES};
use crate::owned::Owned;

/// Where the body of a block begins, and in the first block of a save the name.
const BODY: usize = 8;

/// Breakers saved under names of 8 bytes of ASCII, in 65,536 bytes: at most 128 saves, or one of 4,096 times.
///
/// Save a breaker before it moves to new settings; [`restore`](Self::restore) comes back to it, with its
/// settings, state and history. Permits of before have no effect on what was restored. The
/// [bytes](Self::as_bytes) may be kept in a file, and are [tested whole](Self::from_bytes) when they come back.
///
/// The times in a save are readings of the breaker's clock. [`SystemClock`](crate::SystemClock) counts from where
/// it was made: saves that a later process reads need a clock that goes on, such as the time of day.
///
/// # Examples
///
/// ```
/// use std::time::Duration;
/// use pudvirez::{BreakerState, Checkpoints, CircuitBreaker, Decision, ManualClock, ThrottleError, Trip};
///
/// let day = CircuitBreaker::builder().trip(Trip::Consecutive(1)).cooldown(Duration::from_secs(1));
/// let breaker = day.build(ManualClock::new(0))?;
/// breaker.try_acquire(Decision::Acquired)?.failure()?;
///
/// let mut saves = Checkpoints::new();
/// saves.save("EVENING1", &breaker)?;
/// breaker.reconfigure(CircuitBreaker::builder().trip(Trip::Consecutive(5)))?;
/// assert_eq!(breaker.state(), BreakerState::Closed);
///
/// let read = Checkpoints::from_bytes(saves.as_bytes())?;
/// assert_eq!(read.names().collect::<Vec<_>>(), ["EVENING1"]);
/// read.restore("EVENING1", &breaker)?;
/// assert_eq!(breaker.state(), BreakerState::Open);
/// # Ok::<(), ThrottleError>(())
/// ```
#[derive(Clone, PartialEq, Eq)]
pub struct Checkpoints {
    bytes: Box<[u8]>,
    used: usize,
}

impl Checkpoints {
    /// None yet.
    #[must_use]
    pub fn new() -> Self {
        Self {
            bytes: vec![0; SAVES].into_boxed_slice(),
            used: 0,
        }
    }

    /// Those of [`as_bytes`](Self::as_bytes), tested whole. No bytes are no saves. The sums find accidents, not
    /// changes made on purpose.
    ///
    /// # Errors
    ///
    /// - [`ThrottleError::Damaged`] for bytes that are not whole saves, or over 65,536.
    /// - [`ThrottleError::Version`] where sizes and sums are right and a version is unknown.
    pub fn from_bytes(bytes: &[u8]) -> Result<Self, ThrottleError> {
        let mut any = Owned::build(CircuitBreakerBuilder::new().setting())?;
        // no save has the empty name, so that bytes without damage are told `Name`
        match any.restore(bytes, &[]) {
            Ok(()) | Err(ThrottleError::Name) => {}
            Err(refused) => return Err(refused),
        }
        let mut saves = Self::new();
        saves.bytes[..bytes.len()].copy_from_slice(bytes);
        saves.used = bytes.len();
        Ok(saves)
    }

    /// The saves as bytes, in blocks of 512.
    #[must_use]
    pub fn as_bytes(&self) -> &[u8] {
        &self.bytes[..self.used]
    }

    /// Saves a breaker, which stays as it is.
    ///
    /// # Errors
    ///
    /// [`ThrottleError::Name`] where the name is not 8 bytes of ASCII or already there, or no room is left; the
    /// saves stay as they were.
    pub fn save<C: Clock>(
        &mut self,
        name: &str,
        breaker: &CircuitBreaker<C>,
    ) -> Result<(), ThrottleError> {
        self.used = breaker
            .lock()
            .save(&mut self.bytes, self.used, name.as_bytes())?;
        Ok(())
    }

    /// Puts the save of a name in force, with no trial out. Permits of before have no effect any more.
    ///
    /// # Errors
    ///
    /// [`ThrottleError::Name`] where the name is not there; the breaker stays as it was.
    pub fn restore<C: Clock>(
        &self,
        name: &str,
        breaker: &CircuitBreaker<C>,
    ) -> Result<(), ThrottleError> {
        breaker.lock().restore(self.as_bytes(), name.as_bytes())
    }

    /// The names, in the order in which they were saved.
    pub fn names(&self) -> impl Iterator<Item = &str> {
        // whole saves: a test or the save itself put them there
        let mut rest = self.as_bytes();
        core::iter::from_fn(move || {
            let first = rest.get(..BLOCK)?;
            let blocks = usize::from(u16::from_le_bytes([first[4], first[5]]));
            rest = &rest[BLOCK * blocks..];
            core::str::from_utf8(&first[BODY..BODY + NAME]).ok()
        })
    }
}

impl Default for Checkpoints {
    fn default() -> Self {
        Self::new()
    }
}

impl fmt::Debug for Checkpoints {
    fn fmt(&self, f: &mut fmt::Formatter<'_>) -> fmt::Result {
        f.debug_list().entries(self.names()).finish()
    }
}
