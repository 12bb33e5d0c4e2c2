// What the differential runs count.
use oracle::report::{head, parted, row, tally};
use std::collections::BTreeMap;

#[derive(Default)]
pub struct Figures {
    pub starts: u64,
    /// Starts refused, by number; starts halted, by number.
    pub refused: BTreeMap<u64, u64>,
    pub halted_at_start: BTreeMap<u64, u64>,
    /// Events after each of which the whole state was compared; those of them inside the domain.
    pub events: u64,
    pub inside: u64,
    /// The events by their kind, by the most cells that a box of their size has, and by the radii of their grains.
    pub kinds: BTreeMap<u64, u64>,
    pub cells: BTreeMap<u64, u64>,
    pub radii: BTreeMap<&'static str, u64>,
    /// Runs of other budgets than 1, and the events in them.
    pub splits: u64,
    pub split_events: u64,
    pub rates: u64,
    /// How runs left the domain: by equal times, which were compared further, or by a halt; halts after
    /// equal times; and the runs that came to no halt.
    pub equal_times: u64,
    pub halted: BTreeMap<u64, u64>,
    pub halted_later: BTreeMap<u64, u64>,
    pub ended: u64,
    pub mismatches: u64,
}

pub fn count<N: Ord>(tally: &mut BTreeMap<N, u64>, name: N) {
    *tally.entry(name).or_default() += 1;
}

/// The class of a box with so many cells.
pub fn class(cells: usize) -> u64 {
    [9, 20, 64].into_iter().find(|&most| cells as u64 <= most).unwrap_or(256)
}

impl Figures {
    pub fn print(&self) {
        let count = |what: &str, many: u64| row(&[what, &parted(many)]);
        let counts = |what: &str, counts: &BTreeMap<u64, u64>| row(&[what, &tally(counts)]);
        head(&["What", "How many"]);
        count("starts", self.starts);
        counts("refused, by number", &self.refused);
        counts("halted in the start, by number", &self.halted_at_start);
        count("events compared, whole tables after each", self.events);
        count("inside the domain, with the published Rust", self.inside);
        count("outside it, with the model", self.events - self.inside);
        counts("by kind (docs/TABLES.md)", &self.kinds);
        counts("by cells of the box, up to 9, 20, 64 and 256", &self.cells);
        row(&["by radii", &tally(&self.radii)]);
        count("runs of j+k, and of j and k, and of single events", self.splits);
        count("events of these", self.split_events);
        count("changes of the rate", self.rates);
        counts("runs that left the domain by a halt, by number", &self.halted);
        count("runs that left it by equal times, and were compared further", self.equal_times);
        counts("of them halted later, by number", &self.halted_later);
        count("runs that came to their last event", self.ended);
        println!("mismatches: {}", self.mismatches);
    }
}
