//! Why a call is refused, with the numbers.
use core::fmt;
use core::time::Duration;

use crate::ffi::{told as number, Told, Waited};

/// Why a call was refused, with the number of document 01's table.
///
/// # Examples
///
/// ```
/// use pudvirez::{CircuitBreaker, ManualClock, ThrottleError, Trip};
///
/// let wide = Trip::Ratio { window: 4097, ratio: 0.5, min_calls: 1 };
/// let refused = CircuitBreaker::builder().trip(wide).build(ManualClock::new(0)).unwrap_err();
/// assert_eq!(refused, ThrottleError::Limit);
/// assert_eq!(refused.number(), 2);
/// ```
#[non_exhaustive]
#[derive(Debug, Clone, Copy, PartialEq, Eq, Hash)]
pub enum ThrottleError {
    /// 1: a time of a wait over 2^62 nanoseconds. (Also nanoseconds of 10^9 or more, which a `Duration`
    /// can't hold.)
    Time,
    /// 2: a window or a number of failures over 4,096.
    Limit,
    /// 3: a storage of other than 4,096 places. The types of this crate can't meet it.
    Storage,
    /// 4: a record or list that is not sound. The types of this crate can't meet it.
    Unsound,
    /// 5: a failure while closed, with 4,096 older times left. See
    /// [`Permit::failure`](crate::Permit::failure).
    Full,
    /// 6: the breaker sheds.
    CircuitOpen {
        /// What is left of the cooldown; zero in half-open with all trials out.
        retry_after: Duration,
    },
    /// 7: the inner limiter says retry. In throttle-net this is `Ok(None)`.
    InnerRetry,
    /// 8: the inner limiter can never grant the call.
    CostExceedsCapacity {
        /// The units asked for, which are 1.
        cost: u32,
        /// The inner limiter's capacity, as it was handed in.
        capacity: u32,
    },
    /// 9: the inner limiter did not grant the call, or not for use, before the deadline.
    DeadlineExceeded,
    /// 11: a turn of a wait that has ended. (Also an unknown reply kind, which the types of this crate
    /// can't meet.)
    Turn,
    /// 13: bytes that are no saves: a wrong length, sum, header, zero byte or body, a saved record that is
    /// not sound, or a name that is there twice.
    Damaged,
    /// 14: saves of an unknown version.
    Version,
    /// 15: a name that is not 8 bytes of ASCII, that is absent, or already there; or no room for the save.
    Name,
}

impl ThrottleError {
    /// The number in document 01's table.
    #[must_use]
    pub const fn number(&self) -> u32 {
        match self {
            Self::Time => number::TIME,
            Self::Limit => number::LIMIT,
            Self::Storage => number::STORAGE,
            Self::Unsound => number::UNSOUND,
            Self::Full => number::FULL,
            Self::CircuitOpen { .. } => number::CIRCUIT_OPEN,
            Self::InnerRetry => number::INNER_RETRY,
            Self::CostExceedsCapacity { .. } => number::COST_EXCEEDS_CAPACITY,
            Self::DeadlineExceeded => number::DEADLINE_EXCEEDED,
            Self::Turn => number::TURN,
            Self::Damaged => number::DAMAGED,
            Self::Version => number::VERSION,
            Self::Name => number::NAME,
        }
    }
}

impl fmt::Display for ThrottleError {
    fn fmt(&self, f: &mut fmt::Formatter<'_>) -> fmt::Result {
        write!(f, "refused with {}: ", self.number())?;
        match self {
            Self::Time => f.write_str("a time over its bound"),
            Self::Limit => f.write_str("window or failures over 4,096"),
            Self::Storage => f.write_str("a storage of other than 4,096 places"),
            Self::Unsound => f.write_str("record or list not sound"),
            Self::Full => f.write_str("a failure with 4,096 older times left"),
            Self::CircuitOpen { retry_after } => write!(
                f,
                "circuit breaker is open; request shed, retry in {retry_after:?}"
            ),
            Self::InnerRetry => f.write_str("the inner limiter says retry"),
            Self::CostExceedsCapacity { cost, capacity } => write!(
                f,
                "requested cost {cost} exceeds limiter capacity {capacity}; it can never be granted"
            ),
            Self::DeadlineExceeded => {
                f.write_str("deadline passed before the request could be granted")
            }
            Self::Turn => f.write_str("a wait that has ended, or an unknown reply kind"),
            Self::Damaged => f.write_str("saves that are damaged"),
            Self::Version => f.write_str("saves of an unknown version"),
            Self::Name => f.write_str(
                "a name that is not 8 bytes of ASCII, absent or already there, or no room",
            ),
        }
    }
}

impl std::error::Error for ThrottleError {}

/// What was told, if it is no refusal.
pub(crate) fn checked(told: Told) -> Result<Told, ThrottleError> {
    Err(match told.number {
        number::OK => return Ok(told),
        number::TIME => ThrottleError::Time,
        number::LIMIT => ThrottleError::Limit,
        number::STORAGE => ThrottleError::Storage,
        number::UNSOUND => ThrottleError::Unsound,
        number::FULL => ThrottleError::Full,
        number::CIRCUIT_OPEN => ThrottleError::CircuitOpen {
            retry_after: Duration::from_millis(told.v1),
        },
        number::INNER_RETRY => ThrottleError::InnerRetry,
        number::COST_EXCEEDS_CAPACITY => ThrottleError::CostExceedsCapacity {
            cost: units(told.v1),
            capacity: units(told.v2),
        },
        number::TURN => ThrottleError::Turn,
        number::DAMAGED => ThrottleError::Damaged,
        number::VERSION => ThrottleError::Version,
        number::NAME => ThrottleError::Name,
        other => unreachable!("the C interface tells no number {other}"),
    })
}

/// What a call of a wait was told, if it is no refusal.
pub(crate) fn checked_wait(told: Waited) -> Result<Waited, ThrottleError> {
    if told.number == number::DEADLINE_EXCEEDED {
        return Err(ThrottleError::DeadlineExceeded);
    }
    checked(Told {
        number: told.number,
        v1: told.v1,
        v2: told.v2,
        v3: told.v3,
    })?;
    Ok(told)
}

/// Units that were told: 0, 1, or a capacity of 32 bits that was handed in.
pub(crate) fn units(told: u64) -> u32 {
    u32::try_from(told).expect("no more units than were handed in")
}
