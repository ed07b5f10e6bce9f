//! The unchanged breaker of throttle-net, and a probe that runs it by numbers.

include!(concat!(env!("OUT_DIR"), "/sources.rs"));

pub mod plain;
mod rt;
pub mod scope;
pub mod scripted;
pub mod turns;

pub use circuit::Trip;
pub use circuit::inside::Subject;
pub use decision::Decision;
pub use limiter::Limiter;
