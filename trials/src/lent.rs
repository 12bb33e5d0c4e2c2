// What a caller lends: the inputs, the five tables and the places for answers, each between pages that
// nobody may touch.
use crate::guarded::{Guarded, Side, Word};
use oracle::model::state::INPUTS;
use oracle::tables::{needed, Tables};

/// What a slice may be longer than any counts need.
const MORE: usize = 4096;

pub struct Lent {
    pub inputs: Guarded<f64>,
    pub lists: Guarded<u64>,
    pub grains: Guarded<f64>,
    pub queue: Guarded<u64>,
    pub events: Guarded<f64>,
    pub order: Guarded<u8>,
    /// One number and one float that a call answers by.
    pub number: Guarded<u64>,
    pub float: Guarded<f64>,
}

/// The names of the tables, in their order.
pub const NAMES: [&str; 5] = ["lists", "grains", "queue", "events", "order"];

/// A word that no rule gives, another for each place; every other one, as a float, is a NaN of its own pattern.
pub fn junk(place: usize) -> u64 {
    let word = (place as u64 + 1).wrapping_mul(0x9E37_79B9_7F4A_7C15);
    if place % 2 == 0 {
        word
    } else {
        word | 0x7FF0 << 48
    }
}

/// Fills the places of a table from one on.
fn fill<T: Word>(table: &mut [T], from: usize) {
    for (n, place) in table.iter_mut().enumerate().skip(from) {
        *place = T::of(junk(n));
    }
}

impl Default for Lent {
    fn default() -> Lent {
        let [lists, grains, queue, events, order] = needed(256, 256, 256).map(|most| most + MORE);
        let mut lent = Lent {
            inputs: Guarded::new(INPUTS * 256 + MORE),
            lists: Guarded::new(lists),
            grains: Guarded::new(grains),
            queue: Guarded::new(queue),
            events: Guarded::new(events),
            order: Guarded::new(order),
            number: Guarded::new(1),
            float: Guarded::new(1),
        };
        lent.number.place(1, Side::High);
        lent.float.place(1, Side::High);
        lent
    }
}

impl Lent {
    /// Tables of these lengths, at one end of their memory.
    pub fn place(&mut self, lengths: [usize; 5], side: Side) {
        let [lists, grains, queue, events, order] = lengths;
        self.lists.place(lists, side);
        self.grains.place(grains, side);
        self.queue.place(queue, side);
        self.events.place(events, side);
        self.order.place(order, side);
        self.number.place(1, side);
        self.float.place(1, side);
    }

    /// Tables with this content.
    pub fn hold(&mut self, t: &Tables, side: Side) {
        self.place(t.lengths(), side);
        self.lists.copy_from_slice(&t.lists);
        self.grains.copy_from_slice(&t.grains);
        self.queue.copy_from_slice(&t.queue);
        self.events.copy_from_slice(&t.events);
        self.order.copy_from_slice(&t.order);
    }

    /// The tables of another.
    pub fn copy(&mut self, other: &Lent, side: Side) {
        self.place(other.lengths(), side);
        self.lists.copy_from_slice(&other.lists);
        self.grains.copy_from_slice(&other.grains);
        self.queue.copy_from_slice(&other.queue);
        self.events.copy_from_slice(&other.events);
        self.order.copy_from_slice(&other.order);
    }

    pub fn lengths(&self) -> [usize; 5] {
        [self.lists.len(), self.grains.len(), self.queue.len(), self.events.len(), self.order.len()]
    }

    /// Inputs with these floats.
    pub fn hand_in(&mut self, inputs: &[f64], side: Side) {
        self.inputs.place(inputs.len(), side);
        self.inputs.copy_from_slice(inputs);
    }

    /// Fills each table from a place on with words that no rule gives.
    pub fn spoil(&mut self, from: [usize; 5]) {
        fill(&mut self.lists, from[0]);
        fill(&mut self.grains, from[1]);
        fill(&mut self.queue, from[2]);
        fill(&mut self.events, from[3]);
        fill(&mut self.order, from[4]);
    }

    /// Changes one bit of a table's place.
    pub fn flip(&mut self, table: usize, place: usize, bit: u32) {
        match table {
            0 => self.lists[place] ^= 1 << bit,
            1 => self.grains[place] = f64::from_bits(self.grains[place].to_bits() ^ 1 << bit),
            2 => self.queue[place] ^= 1 << bit,
            3 => self.events[place] = f64::from_bits(self.events[place].to_bits() ^ 1 << bit),
            _ => self.order[place] ^= 1 << (bit % 8),
        }
    }
}
