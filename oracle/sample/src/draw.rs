//! What a sequence draws: settings, a start, and call after call.

mod player;
mod settings;
mod start;

pub use player::Player;
pub use settings::{long_ratio, long_windowed, settings};
pub use start::{Start, long_start, start};
