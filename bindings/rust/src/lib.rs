//! Fesolopi for Rust: a simulator of hard discs in a box that cannot lose a grain quietly.
//!
//! The simulator itself is written in Rattle, where every function is proved to meet its contract; this
//! crate links its archive and lends it tables. What is proved and what a reader must believe stands in
//! `docs/PROVED.md` of the project, what the tables hold in `docs/TABLES.md`.
//!
//! ```
//! use fesolopi::{Domain, Ending, Error, Grain, Halt, Simulation};
//!
//! let domain = Domain { lengths: [9.0, 9.0], periodic: [true, true] };
//! let grain = Grain { position: [3.5, 4.5], velocity: [-1.0, 0.0], value: 0.5, rad: 0.5 };
//! let mut simulation = Simulation::start(&domain, 64, &[grain])?;
//! let first = simulation.run(1.0, 1_000)?;
//! assert_eq!((first.ending, first.clock, first.events), (Ending::Synchronised, 0.0, 1));
//! let lost = simulation.run(1.0, 1_000);
//! assert_eq!(lost, Err(Error::Halted { by: Halt::OnlyCell, clock: 1.0, events: 0 }));
//! assert_eq!(simulation.cells_of(0), [4]);
//! # Ok::<(), Error>(())
//! ```
//!
//! The grain is at the edge of its only cell and moves out of it. A run that went on would have lost it; this
//! one stops with number 9, the grain's cell still lists it, and every later run answers 9 again.
//!
//! Nothing here panics on what tables hold: a run refuses what breaks a standing fact by number 10, and what
//! reads them gives nothing where there is nothing.
#![deny(unsafe_code)]

mod calls;
mod error;
mod event;
#[allow(unsafe_code)]
mod linked;
mod simulation;
pub mod tables;

pub use error::{Error, Halt};
pub use event::{Event, Pending};
pub use simulation::{Domain, Ending, Grain, Report, Simulation};
pub use tables::Tables;

/// The square root of IEEE 754, rounded to nearest; `None` where `d` is negative or a NaN, which the rules
/// refuse by 5.
pub fn square_root(d: f64) -> Option<f64> {
    calls::square_root(d).ok()
}
