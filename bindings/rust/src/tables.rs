//! The five tables that a simulation lives in, as plain data, and the sizes of what they hold. The oracle has them from here.

/// Numbers ahead of the lists; floats ahead of the grains.
pub const LISTS_HEAD: usize = 6;
pub const GRAINS_HEAD: usize = 3;
/// Behind its count, the cells that a grain lists; the grains that a cell lists.
pub const HOMES: usize = 8;
pub const MEMBERS: usize = 32;
/// Floats of a grain.
pub const GRAIN: usize = 7;
/// Numbers and floats of an event's place.
pub const NUMBERS: usize = 4;
pub const FLOATS: usize = 10;
/// Places of the heap, and of the lookups behind it.
pub const HEAP: usize = 256;

/// The tables, laid out as `docs/TABLES.md` says. They may hold anything and be of any length.
#[derive(Clone, Debug, Default)]
pub struct Tables {
    /// The halt mark, the counts, the box's flags, and who lists whom.
    pub lists: Vec<u64>,
    /// The box's lengths, the clock, and the grains' floats.
    pub grains: Vec<f64>,
    /// For each cell, how many events it holds, and their kinds, grains and cells.
    pub queue: Vec<u64>,
    /// For each cell, its events' times and floats.
    pub events: Vec<f64>,
    /// The heap of cells and its lookups.
    pub order: Vec<u8>,
}

impl Tables {
    /// Tables of these lengths, in the order above, every place zero.
    pub fn cleared([lists, grains, queue, events, order]: [usize; 5]) -> Tables {
        Tables {
            lists: vec![0; lists],
            grains: vec![0.; grains],
            queue: vec![0; queue],
            events: vec![0.; events],
            order: vec![0; order],
        }
    }

    /// The lengths, in the order above.
    pub fn lengths(&self) -> [usize; 5] {
        let Tables { lists, grains, queue, events, order } = self;
        [lists.len(), grains.len(), queue.len(), events.len(), order.len()]
    }
}

/// Tables are equal if they hold the same bits: a NaN equals itself, and +0 differs from -0.
impl PartialEq for Tables {
    fn eq(&self, other: &Tables) -> bool {
        let same = |a: &[f64], b: &[f64]| {
            a.len() == b.len() && a.iter().zip(b).all(|(x, y)| x.to_bits() == y.to_bits())
        };
        self.lists == other.lists
            && same(&self.grains, &other.grains)
            && self.queue == other.queue
            && same(&self.events, &other.events)
            && self.order == other.order
    }
}

impl Eq for Tables {}
