// Tables compared word for word: with a state's encoding, and with other tables.
use crate::guarded::Word;
use crate::lent::{junk, Lent, NAMES};
use oracle::model::state::{Place, Row, State};
use oracle::tables::{Tables, FLOATS, HEAP, HOMES, MEMBERS, NUMBERS};
use std::fmt;

/// The first place of a table that does not hold what it should.
#[derive(Clone, Debug)]
pub struct Difference {
    pub table: &'static str,
    pub place: usize,
    pub holds: u64,
    pub expected: u64,
}

impl fmt::Display for Difference {
    fn fmt(&self, f: &mut fmt::Formatter) -> fmt::Result {
        let Difference { table, place, holds, expected } = self;
        write!(f, "table {table}, place {place}: {holds:016X}, not {expected:016X}")
    }
}

/// What is to lie beyond the places that the counts need.
#[derive(Clone, Copy)]
pub enum Beyond {
    /// As an accepted start leaves it.
    Cleared,
    /// As it was spoilt.
    Junk,
}

/// A table read from its first place on.
struct Reading<'a, T> {
    name: &'static str,
    table: &'a [T],
    at: usize,
}

impl<'a, T: Word> Reading<'a, T> {
    fn new(name: &'static str, table: &'a [T]) -> Reading<'a, T> {
        Reading { name, table, at: 0 }
    }

    #[inline]
    fn word(&mut self, expected: u64) -> Result<(), Difference> {
        let holds = self.table[self.at].bits();
        if holds != expected {
            return Err(Difference { table: self.name, place: self.at, holds, expected });
        }
        self.at += 1;
        Ok(())
    }

    fn words(&mut self, expected: impl IntoIterator<Item = u64>) -> Result<(), Difference> {
        expected.into_iter().try_for_each(|word| self.word(word))
    }

    /// So many zeros.
    fn zeros(&mut self, places: usize) -> Result<(), Difference> {
        let run = &self.table[self.at..self.at + places];
        if run.iter().fold(0, |all, word| all | word.bits()) != 0 {
            return self.words(run.iter().map(|_| 0));
        }
        self.at += places;
        Ok(())
    }

    /// A count, the places in use, and cleared ones up to so many.
    fn row(&mut self, row: &Row<u64>, places: usize) -> Result<(), Difference> {
        self.word(row.count)?;
        self.words(row.live().iter().copied())?;
        self.zeros(places - row.live().len())
    }

    fn rest(mut self, beyond: Beyond) -> Result<(), Difference> {
        let left = self.table.len() - self.at;
        match beyond {
            Beyond::Cleared => self.zeros(left),
            Beyond::Junk => self.words((self.at..self.table.len()).map(|n| T::of(junk(n)).bits())),
        }
    }
}

/// If the tables hold a reached state: its live places, and zeros in every other.
pub fn holds_state(t: &Lent, s: &State, beyond: Beyond) -> Result<(), Difference> {
    lists(t, s, beyond)?;
    grains(t, s, beyond)?;
    queue(t, s, beyond)?;
    events(t, s, beyond)?;
    order(t, s, beyond)
}

fn lists(t: &Lent, s: &State, beyond: Beyond) -> Result<(), Difference> {
    let mut at = Reading::new(NAMES[0], &t.lists);
    let counts = [s.grains.len() as u64, s.members.len() as u64, s.room];
    at.words([s.mark].into_iter().chain(counts).chain(s.periodic))?;
    s.homes.iter().try_for_each(|row| at.row(row, HOMES))?;
    s.members.iter().try_for_each(|row| at.row(row, MEMBERS))?;
    at.rest(beyond)
}

fn grains(t: &Lent, s: &State, beyond: Beyond) -> Result<(), Difference> {
    let mut at = Reading::new(NAMES[1], &t.grains);
    at.words([s.lengths[0], s.lengths[1], s.clock].map(f64::to_bits))?;
    for g in &s.grains {
        at.words(g.floats().map(f64::to_bits))?;
    }
    at.rest(beyond)
}

fn queue(t: &Lent, s: &State, beyond: Beyond) -> Result<(), Difference> {
    let mut at = Reading::new(NAMES[2], &t.queue);
    for queue in &s.queues {
        at.word(queue.count)?;
        queue.live().iter().try_for_each(|e: &Place| at.words([e.kind, e.p, e.q, e.cell]))?;
        at.zeros(NUMBERS * (s.room as usize - queue.live().len()))?;
    }
    at.rest(beyond)
}

fn events(t: &Lent, s: &State, beyond: Beyond) -> Result<(), Difference> {
    let mut at = Reading::new(NAMES[3], &t.events);
    for queue in &s.queues {
        for e in queue.live() {
            at.word(e.time.to_bits())?;
            at.words(e.floats().map(f64::to_bits))?;
        }
        at.zeros(FLOATS * (s.room as usize - queue.live().len()))?;
    }
    at.rest(beyond)
}

fn order(t: &Lent, s: &State, beyond: Beyond) -> Result<(), Difference> {
    let mut at = Reading::new(NAMES[4], &t.order);
    for half in [&s.heap, &s.look] {
        at.words(half.iter().copied())?;
        at.zeros(HEAP - half.len())?;
    }
    at.rest(beyond)
}

fn same<T: Word>(name: &'static str, holds: &[T], expected: &[T]) -> Result<(), Difference> {
    let differ = |all: u64, (a, b): (&T, &T)| all | (a.bits() ^ b.bits());
    if holds.iter().zip(expected).fold(0, differ) == 0 {
        return Ok(());
    }
    Reading::new(name, holds).words(expected.iter().map(|word| word.bits()))
}

/// If the tables are those of another, which are as long.
pub fn holds_same(t: &Lent, other: &Lent) -> Result<(), Difference> {
    same(NAMES[0], &t.lists, &other.lists)?;
    same(NAMES[1], &t.grains, &other.grains)?;
    same(NAMES[2], &t.queue, &other.queue)?;
    same(NAMES[3], &t.events, &other.events)?;
    same(NAMES[4], &t.order, &other.order)
}

/// If the tables are these, which are as long.
pub fn holds_tables(t: &Lent, tables: &Tables) -> Result<(), Difference> {
    same(NAMES[0], &t.lists, &tables.lists)?;
    same(NAMES[1], &t.grains, &tables.grains)?;
    same(NAMES[2], &t.queue, &tables.queue)?;
    same(NAMES[3], &t.events, &tables.events)?;
    same(NAMES[4], &t.order, &tables.order)
}

/// If every place is still as it was spoilt.
pub fn still_spoilt(t: &Lent) -> Result<(), Difference> {
    Reading::new(NAMES[0], &t.lists).rest(Beyond::Junk)?;
    Reading::new(NAMES[1], &t.grains).rest(Beyond::Junk)?;
    Reading::new(NAMES[2], &t.queue).rest(Beyond::Junk)?;
    Reading::new(NAMES[3], &t.events).rest(Beyond::Junk)?;
    Reading::new(NAMES[4], &t.order).rest(Beyond::Junk)
}

/// If two lists of floats have the same bits.
pub fn same_bits(a: &[f64], b: &[f64]) -> bool {
    a.len() == b.len() && a.iter().zip(b).all(|(x, y)| x.to_bits() == y.to_bits())
}
