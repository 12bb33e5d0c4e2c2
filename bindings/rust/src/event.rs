//! Pending events, as the queue and events tables hold them.
use crate::tables::{FLOATS, NUMBERS};

/// An event that a cell holds.
#[derive(Clone, Copy, Debug, PartialEq)]
pub struct Pending {
    /// When it is due.
    pub time: f64,
    pub event: Event,
}

/// The five kinds, each with the numbers and floats that it needs. Positions and velocities are those that
/// the grains will be given.
#[derive(Clone, Copy, Debug, PartialEq)]
pub enum Event {
    /// Two grains hit each other; both take the mean value.
    Collision { grains: [u64; 2], positions: [[f64; 2]; 2], velocities: [[f64; 2]; 2], value: f64 },
    /// A grain reaches into the cell beside.
    ToNeighbour { grain: u64, cell: u64, position: [f64; 2] },
    /// A grain has left the cell that holds this event.
    OutOfCell { grain: u64, cell: u64, position: [f64; 2] },
    /// A grain hits a wall.
    Wall { grain: u64, position: [f64; 2], velocity: [f64; 2], value: f64 },
    /// All grains are stepped to this time.
    Synchronisation,
    /// None of the kinds: the tables break a standing fact, and a run refuses them by 10.
    Unknown { kind: u64 },
}

impl Pending {
    /// The event of a place's numbers and floats.
    pub(crate) fn of(numbers: &[u64; NUMBERS], floats: &[f64; FLOATS]) -> Pending {
        let &[kind, p, q, cell] = numbers;
        let &[time, a0, a1, b0, b1, c0, c1, d0, d1, value] = floats;
        let event = match kind {
            1 => Event::Collision {
                grains: [p, q],
                positions: [[a0, a1], [b0, b1]],
                velocities: [[c0, c1], [d0, d1]],
                value,
            },
            2 => Event::ToNeighbour { grain: p, cell, position: [a0, a1] },
            3 => Event::OutOfCell { grain: p, cell, position: [a0, a1] },
            4 => Event::Wall { grain: p, position: [a0, a1], velocity: [c0, c1], value },
            5 => Event::Synchronisation,
            kind => Event::Unknown { kind },
        };
        Pending { time, event }
    }
}
