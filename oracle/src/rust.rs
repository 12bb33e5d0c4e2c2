// The published Rust as the oracle sees it, whichever of the two trees it comes from.
use crate::leaf::Leaf;
use crate::model::state::{Place, State};
use crate::text::Start;

pub trait Published {
    /// Grains in document 01's order, then the first events. The numbers are not checked.
    fn start(start: &Start) -> Self;
    /// Does one event, with this rate if it is a synchronisation.
    fn step(&mut self, rate: f64);
    /// The whole state; rows have only places in use, and there is never a mark.
    fn picture(&self) -> State;
    /// Its periodic correction, in an edge cell.
    fn correction(dpos: f64, length: f64) -> f64;
    /// Its product of two vectors.
    fn product(a: [f64; 2], b: [f64; 2]) -> f64;
    /// What one scheduling finds; collisions are of grains 0 and 1, all else of grain 0.
    fn planned(leaf: &Leaf, kind: u64, dim: usize) -> Option<Place>;
    /// A position stepped by dt.
    fn stepped(lengths: [f64; 2], pos: [f64; 2], vel: [f64; 2], dt: f64) -> [f64; 2];
    /// The cells that a grain of this radius touches at a position.
    fn cells_touched(lengths: [f64; 2], pos: [f64; 2], rad: f64) -> Vec<usize>;
}

/// The text with its own rules, and with document 01's.
pub type AsPublished = crate::published::simulator::Simulator;
pub type WithRules = crate::ruled::simulator::Simulator;
