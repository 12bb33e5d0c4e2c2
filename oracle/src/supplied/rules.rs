// Document 01's rules that replace functions of the published text (the `ruled` tree uses them).
use super::cell::CellPosition;
use super::event::Event;
use std::cmp::Ordering;

/// Where an event goes in: after every one that is not later. Answers as a search that finds none equal.
pub fn after_all_not_later(
    events: &[Event],
    against_new: impl Fn(&Event) -> Ordering,
) -> Result<usize, usize> {
    Err(events.partition_point(|event| against_new(event) != Ordering::Greater))
}

/// Periodic correction: in an edge cell, what lies beyond half the length comes back by one length.
pub fn correct_periodicity(dpos: f64, length: f64, cell_position: &CellPosition) -> f64 {
    let half = length / 2.;
    match cell_position {
        CellPosition::Centre => dpos,
        _ if dpos < -half => dpos + length,
        _ if dpos > half => dpos - length,
        _ => dpos,
    }
}
