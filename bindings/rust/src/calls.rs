//! The linked calls on the tables that a simulation owns.
use crate::linked;
use crate::tables::Tables;

/// The number of a start, and the grain that it names.
pub fn start(
    lengths: [f64; 2],
    periodic: [bool; 2],
    count: u64,
    room: u64,
    inputs: &[f64],
    t: &mut Tables,
) -> (u64, u64) {
    let mut grain = 0;
    let Tables { lists, grains, queue, events, order } = t;
    let number = linked::start(
        lengths, periodic, count, room, inputs, lists, grains, queue, events, order, &mut grain,
    );
    (number, grain)
}

/// The number of a run, the clock and the events done.
pub fn run(t: &mut Tables, rate: f64, budget: u32) -> (u64, f64, u64) {
    let (mut clock, mut done) = (0., 0);
    let Tables { lists, grains, queue, events, order } = t;
    let number = linked::run(lists, grains, queue, events, order, rate, budget, &mut clock, &mut done);
    (number, clock, done)
}

/// Tables of zeros, as long as a start needs; empty ones where it would be refused by 1 or 2.
pub fn needed(lengths: [f64; 2], count: u64, room: u64) -> Tables {
    let mut told = [0; 6];
    // the number tells no more than the zeros do
    linked::needed(lengths, count, room, &mut told);
    let [_, lists, grains, queue, events, order] = told.map(|length| length as usize);
    Tables::cleared([lists, grains, queue, events, order])
}

/// The square root, or 5.
pub fn square_root(d: f64) -> Result<f64, u64> {
    let mut root = 0.;
    match linked::square_root(d, &mut root) {
        0 => Ok(root),
        number => Err(number),
    }
}
