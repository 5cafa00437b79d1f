//! Paces: when each call may begin, so that a peer gets so many in a time, and so many at once.

#[cfg(feature = "tower")]
mod layer;
mod pace;
mod rate;
mod turn;

#[cfg(feature = "tower")]
pub use layer::{PaceCall, PaceLayer, PaceService};
pub use pace::Pace;
pub use rate::Rate;
pub use turn::{TooSoon, Turn};
