//! Storms: what a policy does to a peer that fails for a while, alone or along a parameter.

mod axis;
mod border;
mod population;
mod report;
mod storm;
mod sweep;

pub use axis::{Axis, Measure};
pub use border::{Found, Goal};
pub use population::Population;
pub use report::{PopulationReport, StormReport, StormTotals, StormWindow};
pub use storm::{Storm, StormError};
pub use sweep::{Sweep, SweepReport};
