//! A desk saves its breaker before it moves to new settings, keeps the save in a file, and comes back.
//!
//!     tools/archive                          # at the top of the repository
//!     cargo run --example checkpoints        # in bindings/rust
//!
//! A call from before the move has no effect, neither on the new settings nor on what came back.
use std::error::Error;
use std::fs;
use std::path::PathBuf;
use std::time::Duration;

use pudvirez::{BreakerState, Checkpoints, CircuitBreaker, Decision, ManualClock};
use pudvirez::{ThrottleError, Trip};

/// A file that goes when the example ends.
struct Temporary(PathBuf);

impl Drop for Temporary {
    fn drop(&mut self) {
        let _ = fs::remove_file(&self.0);
    }
}

/// A breaker that three failures within a minute open, and that has seen two.
fn desk() -> Result<CircuitBreaker<ManualClock>, ThrottleError> {
    let three = Trip::Windowed {
        failures: 3,
        period: Duration::from_secs(60),
    };
    let breaker = CircuitBreaker::builder()
        .trip(three)
        .build(ManualClock::new(1000))?;
    breaker.record_failure()?;
    breaker.record_failure()?;
    Ok(breaker)
}

fn main() -> Result<(), Box<dyn Error>> {
    let name = format!("pudvirez-checkpoints-{}", std::process::id());
    let file = Temporary(std::env::temp_dir().join(name));
    let breaker = desk()?;
    // Two calls that are still out when the desk moves.
    let one = breaker.try_acquire(Decision::Acquired)?;
    let other = breaker.try_acquire(Decision::Acquired)?;

    let mut saves = Checkpoints::new();
    saves.save("MONDAY01", &breaker)?;
    let again = saves.save("MONDAY01", &breaker);
    assert_eq!(again, Err(ThrottleError::Name));
    fs::write(&file.0, saves.as_bytes())?;
    println!("saved {saves:?}, {} bytes", saves.as_bytes().len());

    breaker.reconfigure(CircuitBreaker::builder().trip(Trip::Consecutive(1)))?;
    one.failure()?;
    assert_eq!(breaker.state(), BreakerState::Closed);
    println!("moved; a failure from before the move did not open it");

    let mut bytes = fs::read(&file.0)?;
    let saves = Checkpoints::from_bytes(&bytes)?;
    let absent = saves.restore("TUESDAY1", &breaker);
    assert_eq!(absent, Err(ThrottleError::Name));
    bytes[100] ^= 1;
    let damaged = Checkpoints::from_bytes(&bytes).unwrap_err();
    assert_eq!(damaged, ThrottleError::Damaged);
    println!("a byte of the file changed: {damaged}");

    saves.restore("MONDAY01", &breaker)?;
    other.failure()?;
    assert_eq!(breaker.state(), BreakerState::Closed);
    breaker.try_acquire(Decision::Acquired)?.failure()?;
    assert_eq!(breaker.state(), BreakerState::Open);
    println!("came back; with the two failures that it held, one more opened it");
    Ok(())
}
