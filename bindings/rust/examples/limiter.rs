//! A breaker before a rate limiter of our own, which is asked only where the breaker admits.
//!
//!     tools/archive
//!     cargo run --example limiter        # in bindings/rust
//!
//! The service fails from the third call on. Once the breaker is open no call takes a unit.
use std::time::Duration;

use pudvirez::{BreakerState, CircuitBreaker, Decision, ManualClock, ThrottleError, Trip};

/// A bucket of units, one of which is added each 100 ms.
struct Bucket {
    units: u32,
    capacity: u32,
    asked: u32,
}

impl Bucket {
    fn acquire(&mut self) -> Decision {
        self.asked += 1;
        match (self.units, self.capacity) {
            (_, 0) => Decision::Impossible { capacity: 0 },
            (0, _) => Decision::Retry {
                after: Duration::from_millis(100),
            },
            _ => {
                self.units -= 1;
                Decision::Acquired
            }
        }
    }

    fn refill(&mut self) {
        self.units = self.capacity.min(self.units + 1);
    }
}

/// The service: its first two calls succeed.
fn service(call: u32) -> bool {
    call < 2
}

fn main() -> Result<(), ThrottleError> {
    let clock = ManualClock::new(0);
    let breaker = CircuitBreaker::builder()
        .trip(Trip::Consecutive(2))
        .cooldown(Duration::from_secs(1))
        .build(&clock)?;
    let mut bucket = Bucket {
        units: 3,
        capacity: 3,
        asked: 0,
    };
    let (mut made, mut shed) = (0, 0);
    for tick in 0..10 {
        clock.set(100 * tick);
        bucket.refill();
        match breaker.try_acquire_with(|| bucket.acquire()) {
            Ok(permit) if service(made) => {
                made += 1;
                permit.success();
            }
            Ok(permit) => {
                made += 1;
                permit.failure()?;
            }
            Err(ThrottleError::CircuitOpen { retry_after }) => {
                shed += 1;
                println!("{} ms: shed, retry in {retry_after:?}", 100 * tick);
            }
            Err(refused) => println!("{} ms: {refused}", 100 * tick),
        }
    }
    println!(
        "{made} calls made, {shed} shed, {} units left",
        bucket.units
    );
    assert_eq!(breaker.state(), BreakerState::Open);
    assert_eq!((made, shed), (4, 6));
    assert_eq!((bucket.asked, bucket.units), (4, 3));
    Ok(())
}
