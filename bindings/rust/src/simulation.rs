//! A simulation: its tables, the calls on them, and what can be read from them.
use crate::calls;
use crate::error::{Error, Halt};
use crate::event::Pending;
use crate::linked::SPENT;
use crate::tables::{Tables, FLOATS, GRAIN, GRAINS_HEAD, HEAP, HOMES, LISTS_HEAD, MEMBERS, NUMBERS};

/// A box.
#[derive(Clone, Copy, Debug, PartialEq)]
pub struct Domain {
    /// From 9 to 48 in each direction.
    pub lengths: [f64; 2],
    /// Periodic, or between two walls.
    pub periodic: [bool; 2],
}

/// A disc.
#[derive(Clone, Copy, Debug, PartialEq)]
pub struct Grain {
    /// At a start from 0 to the length where the box is periodic, and from `rad` to the length less `rad` between walls.
    pub position: [f64; 2],
    /// At a start from -1024 to 1024 in each direction.
    pub velocity: [f64; 2],
    /// At a start from 0 to 1.
    pub value: f64,
    /// Its radius, kept for life: at a start from 0.25 to 0.5.
    pub rad: f64,
}

/// How a run that was not refused came to its end.
#[derive(Clone, Copy, Debug, PartialEq, Eq)]
pub enum Ending {
    /// The last event was a synchronisation: every grain stands at the clock.
    Synchronised,
    /// The budget is spent. A second run goes on as one longer run would have.
    Spent,
}

/// What a run tells.
#[derive(Clone, Copy, Debug, PartialEq)]
pub struct Report {
    pub ending: Ending,
    /// The time of the last event done.
    pub clock: f64,
    /// The events done.
    pub events: u64,
}

/// A simulation and the tables that it lives in. Two are equal if their tables hold the same bits.
#[derive(Clone, Debug, PartialEq, Eq)]
pub struct Simulation {
    tables: Tables,
}

impl Simulation {
    /// Starts with room for so many events in each cell, 16 to 256. Refused by 1, 2 or 4.
    ///
    /// A start may halt, as a run may. The simulation is then given back as it was when it halted:
    /// [`halted`](Simulation::halted) tells by what, and so does every run.
    pub fn start(domain: &Domain, room: u64, grains: &[Grain]) -> Result<Simulation, Error> {
        let count = grains.len() as u64;
        let inputs: Vec<f64> = grains
            .iter()
            .flat_map(|g| [g.position[0], g.position[1], g.velocity[0], g.velocity[1], g.value, g.rad])
            .collect();
        let mut tables = calls::needed(domain.lengths, count, room);
        let (number, lowest) =
            calls::start(domain.lengths, domain.periodic, count, room, &inputs, &mut tables);
        match number {
            1 => Err(Error::Length),
            2 => Err(Error::Count),
            4 => Err(Error::Grain { lowest }),
            // 0, and 5 to 9, which the tables' mark holds
            _ => Ok(Simulation { tables }),
        }
    }

    /// A simulation in tables of any content and any length. Nothing is tested here: each run tests all of
    /// it, and refuses by 2 or 10 what is not right.
    pub fn from_tables(tables: Tables) -> Simulation {
        Simulation { tables }
    }

    /// Does events until one is a synchronisation or the budget is spent. `rate` is the time from one
    /// synchronisation to the next, 2^-20 to 2^20. Refused by 2, 3 or 10; halted by 5 to 9.
    pub fn run(&mut self, rate: f64, budget: u32) -> Result<Report, Error> {
        let (number, clock, events) = calls::run(&mut self.tables, rate, budget);
        match (number, Halt::of(number)) {
            (0, _) => Ok(Report { ending: Ending::Synchronised, clock, events }),
            (SPENT, _) => Ok(Report { ending: Ending::Spent, clock, events }),
            (2, _) => Err(Error::Count),
            (3, _) => Err(Error::Rate),
            (_, Some(by)) => Err(Error::Halted { by, clock, events }),
            // 10; there is no other number
            _ => Err(Error::Fact),
        }
    }

    /// What it was halted by, if it was.
    pub fn halted(&self) -> Option<Halt> {
        Halt::of(self.mark())
    }

    /// The tables, to read every place.
    pub fn tables(&self) -> &Tables {
        &self.tables
    }

    /// The tables, given back.
    pub fn into_tables(self) -> Tables {
        self.tables
    }
}

/// What the tables hold. Where they are too short, or an index is past its count, there is nothing: `None`,
/// an empty list, or 0.
impl Simulation {
    /// The halt mark: 0, or 5 to 9.
    pub fn mark(&self) -> u64 {
        self.header(0)
    }

    /// How many grains there are.
    pub fn count(&self) -> u64 {
        self.header(1)
    }

    /// How many cells the box has.
    pub fn cells(&self) -> u64 {
        self.header(2)
    }

    /// How many events a cell has room for.
    pub fn room(&self) -> u64 {
        self.header(3)
    }

    /// The box. A flag that is none reads as periodic.
    pub fn domain(&self) -> Domain {
        Domain {
            lengths: [0, 1].map(|dim| self.tables.grains.get(dim).copied().unwrap_or(0.)),
            periodic: [4, 5].map(|place| self.header(place) != 0),
        }
    }

    /// The clock: the time of the last event.
    pub fn clock(&self) -> f64 {
        self.tables.grains.get(2).copied().unwrap_or(0.)
    }

    /// A grain, as it was at its own [`time`](Simulation::time).
    pub fn grain(&self, index: u64) -> Option<Grain> {
        let [x, y, vx, vy, _, value, rad] = *self.grain_floats(index)?;
        Some(Grain { position: [x, y], velocity: [vx, vy], value, rad })
    }

    /// The time that a grain was last stepped to: the clock after a synchronisation, and otherwise at most
    /// the clock.
    pub fn time(&self, index: u64) -> Option<f64> {
        Some(self.grain_floats(index)?[4])
    }

    /// All grains, in index order.
    pub fn grains(&self) -> impl Iterator<Item = Grain> + '_ {
        (0..self.count()).map_while(|index| self.grain(index))
    }

    /// The cells that list a grain, in the grain's order.
    pub fn cells_of(&self, grain: u64) -> &[u64] {
        if grain >= self.count() {
            return &[];
        }
        self.row(at(LISTS_HEAD, grain, 1 + HOMES), HOMES)
    }

    /// The grains that a cell lists, in its order.
    pub fn grains_of(&self, cell: u64) -> &[u64] {
        if cell >= self.cells() {
            return &[];
        }
        let cells = at(LISTS_HEAD, self.count(), 1 + HOMES);
        self.row(cells.and_then(|base| at(base, cell, 1 + MEMBERS)), MEMBERS)
    }

    /// The events that a cell holds, in their order: the first is the next due.
    pub fn pending(&self, cell: u64) -> impl Iterator<Item = Pending> + '_ {
        let room = if cell < self.cells() { self.room() } else { 0 };
        let base = at(1, room, NUMBERS).and_then(|width| at(0, cell, width));
        let count = base.and_then(|b| self.tables.queue.get(b).copied()).unwrap_or(0).min(room);
        (0..count).map_while(move |n| {
            let numbers = chunk(&self.tables.queue, at(base?.checked_add(1)?, n, NUMBERS)?)?;
            let floats = chunk(&self.tables.events, at(at(0, cell, at(0, room, FLOATS)?)?, n, FLOATS)?)?;
            Some(Pending::of(numbers, floats))
        })
    }

    /// The time of a cell's first event, [`pending`](Simulation::pending)'s first; `None` where it holds none.
    pub fn head_time(&self, cell: u64) -> Option<f64> {
        self.pending(cell).next().map(|event| event.time)
    }

    /// The heap: as many cell numbers as there are cells, the one with the earliest event first.
    pub fn heap(&self) -> &[u8] {
        self.places(0)
    }

    /// For each cell, its index in the heap.
    pub fn lookups(&self) -> &[u8] {
        self.places(HEAP)
    }

    fn header(&self, place: usize) -> u64 {
        self.tables.lists.get(place).copied().unwrap_or(0)
    }

    fn grain_floats(&self, index: u64) -> Option<&[f64; GRAIN]> {
        if index >= self.count() {
            return None;
        }
        chunk(&self.tables.grains, at(GRAINS_HEAD, index, GRAIN)?)
    }

    /// A row of the lists: a count, then its places. A count past them reads as all of them.
    fn row(&self, base: Option<usize>, places: usize) -> &[u64] {
        let row = base.and_then(|b| self.tables.lists.get(b..)).unwrap_or(&[]);
        let Some((&count, rest)) = row.split_first() else { return &[] };
        let used = usize::try_from(count).unwrap_or(places).min(places).min(rest.len());
        &rest[..used]
    }

    fn places(&self, from: usize) -> &[u8] {
        let used = usize::try_from(self.cells()).unwrap_or(HEAP).min(HEAP);
        let rest = self.tables.order.get(from..).unwrap_or(&[]);
        &rest[..used.min(rest.len())]
    }
}

/// Place `base + index * width`, if there is such a number.
fn at(base: usize, index: u64, width: usize) -> Option<usize> {
    usize::try_from(index).ok()?.checked_mul(width)?.checked_add(base)
}

/// The `N` items from `from` on, if the table has them.
fn chunk<T, const N: usize>(table: &[T], from: usize) -> Option<&[T; N]> {
    table.get(from..)?.first_chunk()
}
