// The archive's four calls, on what a `Lent` holds.
use crate::lent::{junk, Lent};

// the linked calls of the bindings, and nothing else of them
#[path = "../../bindings/rust/src/linked.rs"]
mod linked;

pub use linked::SPENT;

/// What a run answers.
#[derive(Clone, Copy, Debug)]
pub struct Report {
    pub number: u64,
    pub clock: f64,
    pub done: u64,
}

impl Report {
    /// A number and zeros.
    pub fn refused(number: u64) -> Report {
        Report { number, clock: 0., done: 0 }
    }

    pub fn same(&self, other: &Report) -> bool {
        let clocks = self.clock.to_bits() == other.clock.to_bits();
        self.number == other.number && clocks && self.done == other.done
    }
}

/// The box, the counts beside the inputs.
#[derive(Clone, Copy, Debug)]
pub struct Counts {
    pub lengths: [f64; 2],
    pub periodic: [bool; 2],
    pub count: u64,
    pub room: u64,
}

/// A start's number, and the grain that it names.
pub fn start(t: &mut Lent, c: Counts) -> (u64, u64) {
    t.number[0] = junk(0);
    let number = linked::start(
        c.lengths,
        c.periodic,
        c.count,
        c.room,
        &t.inputs,
        &mut t.lists,
        &mut t.grains,
        &mut t.queue,
        &mut t.events,
        &mut t.order,
        &mut t.number[0],
    );
    (number, t.number[0])
}

pub fn run(t: &mut Lent, rate: f64, budget: u32) -> Report {
    t.number[0] = junk(0);
    t.float[0] = f64::from_bits(junk(1));
    let number = linked::run(
        &mut t.lists,
        &mut t.grains,
        &mut t.queue,
        &mut t.events,
        &mut t.order,
        rate,
        budget,
        &mut t.float[0],
        &mut t.number[0],
    );
    Report { number, clock: t.float[0], done: t.number[0] }
}

/// The number, and the lengths of the inputs and the five tables.
pub fn needed(lengths: [f64; 2], count: u64, room: u64) -> (u64, [u64; 6]) {
    let mut told = [0, 1, 2, 3, 4, 5].map(junk);
    let number = linked::needed(lengths, count, room, &mut told);
    (number, told)
}

/// The number and the root.
pub fn square_root(t: &mut Lent, d: f64) -> (u64, f64) {
    t.float[0] = f64::from_bits(junk(0));
    let number = linked::square_root(d, &mut t.float[0]);
    (number, t.float[0])
}
