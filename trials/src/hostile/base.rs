// The state that a block of cases begins from: a start and some runs, by the model.
use crate::starts::{largest_start, small_start, trial_start};
use oracle::model::run::Started;
use oracle::model::state::State;
use oracle::random::Random;
use oracle::starts::random_rate;
use oracle::tables::Tables;
use oracle::text::Start;

pub struct Base {
    pub start: Start,
    pub state: State,
    pub tables: Tables,
}

impl Base {
    /// Draws until a start is accepted. Few of those that halt, then or later, are kept.
    pub fn new(r: &mut Random) -> Base {
        loop {
            let start = match r.below(1000) {
                0 => largest_start(r),
                1..250 => trial_start(r),
                _ => small_start(r),
            };
            let Started::Done(state) = start.model() else { continue };
            let mut state = *state;
            for _ in 0..r.below(12) {
                state.run(random_rate(r), r.below(24) as u32);
            }
            if state.mark != 0 && !r.once_in(4) {
                continue;
            }
            let tables = Tables::of(&state);
            return Base { start, state, tables };
        }
    }
}
