//! The reply of an inner limiter.
use core::time::Duration;

use crate::ffi::decision::{ACQUIRED, IMPOSSIBLE, RETRY};

/// What the inner limiter, which stands behind the breaker, replied to a request of 1 unit.
#[derive(Debug, Clone, Copy, PartialEq, Eq, Hash)]
pub enum Decision {
    /// The unit was granted and has been deducted. Also for a breaker without an inner limiter.
    Acquired,
    /// ThrottleError this time.
    Retry {
        /// The wait until the same request can be granted.
        after: Duration,
    },
    /// The request can never be granted.
    Impossible {
        /// The inner limiter's capacity, handed back in the refusal.
        capacity: u32,
    },
}

impl Decision {
    /// Whether the unit was granted.
    ///
    /// # Examples
    ///
    /// ```
    /// use pudvirez::Decision;
    ///
    /// assert!(Decision::Acquired.is_acquired());
    /// assert!(!Decision::Impossible { capacity: 0 }.is_acquired());
    /// ```
    #[must_use]
    pub const fn is_acquired(&self) -> bool {
        matches!(self, Self::Acquired)
    }

    /// The wait before a retry can succeed, if this is a retry.
    ///
    /// # Examples
    ///
    /// ```
    /// use std::time::Duration;
    /// use pudvirez::Decision;
    ///
    /// let after = Duration::from_millis(20);
    /// assert_eq!(Decision::Retry { after }.retry_after(), Some(after));
    /// assert_eq!(Decision::Acquired.retry_after(), None);
    /// ```
    #[must_use]
    pub const fn retry_after(&self) -> Option<Duration> {
        match self {
            Self::Retry { after } => Some(*after),
            _ => None,
        }
    }

    /// Kind, milliseconds and capacity, as the C interface takes them.
    pub(crate) fn numbers(self) -> (u8, u64, u32) {
        match self {
            Self::Acquired => (ACQUIRED, 0, 0),
            Self::Retry { after } => {
                let ms = u64::try_from(after.as_millis()).unwrap_or(u64::MAX);
                (RETRY, ms, 0)
            }
            Self::Impossible { capacity } => (IMPOSSIBLE, 0, capacity),
        }
    }
}
