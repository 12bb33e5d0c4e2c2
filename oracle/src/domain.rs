// The domain of the Rust comparison: accepted starts, no refusal met, no two equal times in one cell's list.
use crate::model::run::Started;
use crate::model::state::State;
use crate::text::Start;
use std::fmt;

/// Why a run is no longer compared with the text as published.
#[derive(Clone, Copy)]
pub enum Cause {
    EqualTimes { cell: usize },
    Refusal(u64),
}

impl fmt::Display for Cause {
    fn fmt(&self, f: &mut fmt::Formatter) -> fmt::Result {
        match self {
            Cause::EqualTimes { cell } => write!(f, "equal times in the list of cell {cell}"),
            Cause::Refusal(number) => write!(f, "refusal {number}"),
        }
    }
}

/// The first cell whose list holds two equal times.
pub fn equal_times(s: &State) -> Option<Cause> {
    let equal = |c: &usize| s.queues[*c].live().windows(2).any(|w| w[0].time == w[1].time);
    (0..s.queues.len()).find(equal).map(|cell| Cause::EqualTimes { cell })
}

/// The model run beside something else, watched for the event that leads out of the domain.
pub struct Watch {
    pub state: Box<State>,
    pub events: u64,
    /// At which event the domain was left, and why; 0 is the start.
    pub left: Option<(u64, Cause)>,
}

impl Watch {
    /// An accepted start, or the refusal with the grain that it names.
    pub fn start(start: &Start) -> Result<Watch, (u64, Option<usize>)> {
        match start.model() {
            Started::Refused(number, grain) => Err((number, grain)),
            Started::Done(state) => {
                let mut watch = Watch { state, events: 0, left: None };
                watch.look();
                Ok(watch)
            }
        }
    }

    /// A start that is known to be accepted.
    pub fn of(start: &Start) -> Watch {
        Watch::start(start).unwrap_or_else(|(number, _)| unreachable!("refused by {number}"))
    }

    pub fn halted(&self) -> bool {
        self.state.mark != 0
    }

    /// Does one event, unless a refusal has halted the model.
    pub fn step(&mut self, rate: f64) {
        if !self.halted() {
            self.events += 1;
            let _ = self.state.step(rate);
            self.look();
        }
    }

    fn look(&mut self) {
        if self.left.is_none() {
            let refusal = (self.state.mark != 0).then_some(Cause::Refusal(self.state.mark));
            self.left = refusal.or_else(|| equal_times(&self.state)).map(|cause| (self.events, cause));
        }
    }
}
