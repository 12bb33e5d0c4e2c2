// The state of a simulation as the tables hold it: every number raw, so that a state which no start
// reaches can be held, tested and refused.

pub const COLLISION: u64 = 1;
pub const NEIGHBOUR: u64 = 2;
pub const OUT: u64 = 3;
pub const WALL: u64 = 4;
pub const SYNC: u64 = 5;

/// Grains a cell lists, cells a grain lists, places of heap and lookups.
pub const MEMBERS: usize = 32;
pub const HOMES: usize = 8;
pub const HEAP: usize = 256;

/// What a start is given of a grain: x, y, vx, vy, val, rad.
pub const INPUTS: usize = 6;
pub type Inputs = [f64; INPUTS];

#[derive(Clone, Copy, Default)]
pub struct Grain {
    pub pos: [f64; 2],
    pub vel: [f64; 2],
    pub time: f64,
    pub val: f64,
    /// Its radius, kept for life; 0 until the grain is stored.
    pub rad: f64,
}

impl Grain {
    /// A grain that a start is given, at a time.
    pub fn given(&[x, y, vx, vy, val, rad]: &Inputs, time: f64) -> Grain {
        Grain { pos: [x, y], vel: [vx, vy], time, val, rad }
    }

    /// The floats, in table order.
    pub fn floats(&self) -> [f64; 7] {
        let Grain { pos, vel, time, val, rad } = *self;
        [pos[0], pos[1], vel[0], vel[1], time, val, rad]
    }
}

/// A place for one pending event. Collision: a, b positions and c, d velocities of p and q, val the mean
/// value. Moves: a position, cell entered or left. Wall: a position, c velocity, val value.
#[derive(Clone, Copy, Default)]
pub struct Place {
    pub kind: u64,
    pub p: u64,
    pub q: u64,
    pub cell: u64,
    pub time: f64,
    pub a: [f64; 2],
    pub b: [f64; 2],
    pub c: [f64; 2],
    pub d: [f64; 2],
    pub val: f64,
}

impl Place {
    /// The floats behind the time, in table order.
    pub fn floats(&self) -> [f64; 9] {
        let Place { a, b, c, d, val, .. } = *self;
        [a[0], a[1], b[0], b[1], c[0], c[1], d[0], d[1], val]
    }

    pub fn names(&self, grain: u64) -> bool {
        match self.kind {
            COLLISION => self.p == grain || self.q == grain,
            SYNC => false,
            _ => self.p == grain,
        }
    }
}

/// A fixed run of places, of which the first `count` are in use. What lies behind them may be anything.
#[derive(Clone)]
pub struct Row<T> {
    pub count: u64,
    pub places: Vec<T>,
}

impl<T: Clone + Default> Row<T> {
    pub fn cleared(places: usize) -> Row<T> {
        Row { count: 0, places: vec![T::default(); places] }
    }

    /// A row that has no place but those in use.
    pub fn of(places: Vec<T>) -> Row<T> {
        Row { count: places.len() as u64, places }
    }

    pub fn live(&self) -> &[T] {
        &self.places[..self.count as usize]
    }

    pub fn full(&self) -> bool {
        self.count as usize == self.places.len()
    }

    /// Puts `item` before place `at`; the first place that was not in use is taken.
    pub fn insert(&mut self, at: usize, item: T) {
        let count = self.count as usize;
        self.places[count] = item;
        self.places[at..=count].rotate_right(1);
        self.count += 1;
    }

    /// Keeps the items that pass, in their order; each place given up is cleared.
    pub fn keep(&mut self, pass: impl Fn(&T) -> bool) {
        let kept: Vec<T> = self.live().iter().filter(|x| pass(x)).cloned().collect();
        for (n, place) in self.places[..self.count as usize].iter_mut().enumerate() {
            *place = kept.get(n).cloned().unwrap_or_default();
        }
        self.count = kept.len() as u64;
    }

    pub fn remove(&mut self, at: usize) -> T {
        let count = self.count as usize;
        let item = std::mem::take(&mut self.places[at]);
        self.places[at..count].rotate_left(1);
        self.count -= 1;
        item
    }
}

/// An update of the heap: the cell, its head before and after it changed, and the swaps.
#[derive(Clone, Copy)]
pub struct Update {
    pub cell: usize,
    pub before: Option<f64>,
    pub after: Option<f64>,
    pub swaps: u64,
}

#[derive(Clone, Default)]
pub struct State {
    pub lengths: [f64; 2],
    /// 1 where the direction is periodic, 0 where it is wall-bounded.
    pub periodic: [u64; 2],
    pub clock: f64,
    pub mark: u64,
    pub room: u64,
    pub grains: Vec<Grain>,
    /// For each grain, the cells that list it.
    pub homes: Vec<Row<u64>>,
    /// For each cell, the grains it lists.
    pub members: Vec<Row<u64>>,
    /// For each cell, its pending events.
    pub queues: Vec<Row<Place>>,
    pub heap: Vec<u64>,
    pub look: Vec<u64>,
    /// The heap's updates, in their order, for whoever asks for them; it is for them to take them out.
    pub updates: Option<Vec<Update>>,
}

impl State {
    /// A box with nothing in it, not even cells.
    pub fn empty(lengths: [f64; 2], periodic: [u64; 2]) -> State {
        State { lengths, periodic, ..State::default() }
    }

    pub fn is_periodic(&self, dim: usize) -> bool {
        self.periodic[dim] == 1
    }
}
