// The two calls beside start and run: the lengths needed, and the square root.
use super::starts::cells;
use super::values::{bound, float};
use super::{Outcome, Trial};
use crate::calls;
use crate::square_roots::right;
use crate::starts::one_of;
use oracle::model::grid::box_in_range;
use oracle::model::run::counts_in_range;
use oracle::model::state::INPUTS;
use oracle::tables::needed;

impl Trial<'_> {
    pub fn needed(&mut self) -> Outcome {
        let r = &mut self.random;
        let lengths = [0; 2].map(|_| {
            let within = r.between(9., 48.);
            one_of([within, within, 9., 48., float(r, 9., &[]), float(r, 48., &[])], r)
        });
        let count = one_of([r.below(257), bound(r), r.bits()], r);
        let room = one_of([16 + r.below(241), bound(r), r.bits()], r);
        let cells = cells(lengths);
        let grains = usize::try_from(count).unwrap_or(usize::MAX);
        let number = if !box_in_range(lengths) {
            1
        } else if !counts_in_range(grains, cells, room) {
            2
        } else {
            0
        };
        let mut places = [0; 6];
        if number == 0 {
            let tables = needed(grains, cells, room as usize).map(|n| n as u64);
            places[0] = INPUTS as u64 * count;
            places[1..].copy_from_slice(&tables);
        }
        let told = calls::needed(lengths, count, room);
        self.tally.count("needed", told.0);
        if told != (number, places) {
            return Err(format!(
                "needed for {lengths:?}, {count}, {room}: {told:?}, not {number}, {places:?}"
            ));
        }
        Ok(())
    }

    pub fn root(&mut self) -> Outcome {
        let r = &mut self.random;
        let d = float(r, 2., &[]);
        let d = if r.once_in(2) { d.abs() } else { d };
        let told = calls::square_root(self.lent, d);
        self.tally.count("square root", told.0);
        right(d, told)
    }
}
