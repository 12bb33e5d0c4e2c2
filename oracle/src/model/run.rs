// The public calls: start and run, with their checks in document 01's order.
use super::acts::Act;
use super::facts::broken;
use super::grid::{box_in_range, cells_along, from_p_to_c, GREATEST_RADIUS, LEAST_RADIUS};
use super::state::{Grain, Inputs, Row, State, HEAP, HOMES, MEMBERS};

/// The ends of the sync rate's range.
pub const LEAST_RATE: f64 = 1. / 1_048_576.;
pub const LARGEST_RATE: f64 = 1_048_576.;

/// What a start answers: a number with the grain that 4 names, or a state, which may be halted.
pub enum Started {
    Refused(u64, Option<usize>),
    Done(Box<State>),
}

#[derive(Clone, Copy, PartialEq, Debug)]
pub enum Told {
    Synchronised,
    Spent,
    Refused(u64),
}

/// What a run answers.
#[derive(Clone, Copy, Debug)]
pub struct Report {
    pub told: Told,
    pub clock: f64,
    pub events: u64,
}

impl Report {
    pub fn same(&self, other: &Report) -> bool {
        let clocks = self.clock.to_bits() == other.clock.to_bits();
        self.told == other.told && clocks && self.events == other.events
    }
}

/// If the counts that a state or a start gives are within document 01's sizes.
pub fn counts_in_range(grains: usize, cells: usize, room: u64) -> bool {
    grains <= 256 && (9..=256).contains(&cells) && (16..=256).contains(&room)
}

/// If a grain's start numbers are in range.
fn accepted(lengths: [f64; 2], periodic: [bool; 2], grain: &Inputs) -> bool {
    let [x, y, vx, vy, val, rad] = *grain;
    let inside = |dim: usize, x: f64| {
        let (low, high) = if periodic[dim] { (0., lengths[dim]) } else { (rad, lengths[dim] - rad) };
        low <= x && x <= high
    };
    let speed = |v: f64| (-1024. ..=1024.).contains(&v);
    let size = LEAST_RADIUS..=GREATEST_RADIUS;
    inside(0, x) && inside(1, y) && speed(vx) && speed(vy) && (0. ..=1.).contains(&val) && size.contains(&rad)
}

/// Start: checks 1, 2, 4; then the grains with their entries, and the first events.
pub fn start(lengths: [f64; 2], periodic: [bool; 2], room: u64, grains: &[Inputs]) -> Started {
    if !box_in_range(lengths) {
        return Started::Refused(1, None);
    }
    let cells = cells_along(lengths[0]) * cells_along(lengths[1]);
    if !counts_in_range(grains.len(), cells, room) {
        return Started::Refused(2, None);
    }
    if let Some(bad) = grains.iter().position(|g| !accepted(lengths, periodic, g)) {
        return Started::Refused(4, Some(bad));
    }
    let mut s = Box::new(State {
        room,
        grains: vec![Grain::default(); grains.len()],
        homes: vec![Row::cleared(HOMES); grains.len()],
        members: vec![Row::cleared(MEMBERS); cells],
        queues: vec![Row::cleared(room as usize); cells],
        heap: (0..HEAP as u64).map(|n| if n < cells as u64 { n } else { 0 }).collect(),
        look: (0..HEAP as u64).map(|n| if n < cells as u64 { n } else { 0 }).collect(),
        ..State::empty(lengths, periodic.map(u64::from))
    });
    if let Err(number) = fill(&mut s, grains) {
        s.mark = number;
    }
    Started::Done(s)
}

/// The acts of a start: each grain's numbers, then its entries; after the last, the first events.
fn fill(s: &mut State, grains: &[Inputs]) -> Act {
    for (n, inputs) in grains.iter().enumerate() {
        let grain = Grain::given(inputs, 0.);
        s.store(n as u64, grain)?;
        for cell in from_p_to_c(s.lengths, grain.pos, grain.rad) {
            s.enter(n as u64, cell)?;
        }
    }
    s.init_events()
}

impl State {
    /// A run's checks: 2, the mark, 3, 10. Tables too short for the counts are the decoder's to refuse.
    fn check(&self, rate: f64) -> Act {
        if !counts_in_range(self.grains.len(), self.members.len(), self.room) {
            return Err(2);
        }
        if (5..=9).contains(&self.mark) {
            return Err(self.mark);
        }
        if !(LEAST_RATE..=LARGEST_RATE).contains(&rate) {
            return Err(3);
        }
        if broken(self).is_some() {
            return Err(10);
        }
        Ok(())
    }

    /// Does events until one is a synchronisation or the budget is spent.
    pub fn run(&mut self, rate: f64, budget: u32) -> Report {
        if let Err(number) = self.check(rate) {
            return Report { told: Told::Refused(number), clock: 0., events: 0 };
        }
        let mut told = Told::Spent;
        let mut events = 0;
        while told == Told::Spent && events < u64::from(budget) {
            match self.step(rate) {
                Ok(synchronised) => {
                    events += 1;
                    told = if synchronised { Told::Synchronised } else { Told::Spent };
                }
                Err(number) => told = Told::Refused(number),
            }
        }
        Report { told, clock: self.clock, events }
    }
}
