// A run followed event by event: the Rust with document 01's rules and the model side by side.
use crate::model::run::Started;
use crate::model::state::State;
use crate::rust::{Published, WithRules};
use crate::text::Start;
use crate::words::seen;

/// Hands out the model's state after each event, from the start on (event 0), once the Rust's is found to
/// be the same. Stops after `events`, or at a halt, whose state is handed out too. A start that is
/// refused hands out nothing.
pub fn walk(start: &Start, events: u64, mut visit: impl FnMut(u64, &State)) {
    let Started::Done(mut model) = start.model() else { return };
    visit(0, &model);
    if model.mark != 0 {
        return;
    }
    let mut rust = WithRules::start(start);
    let (mut ours, mut theirs) = (Vec::new(), Vec::new());
    for event in 1..=events {
        if model.step(start.rate).is_err() {
            return visit(event, &model);
        }
        rust.step(start.rate);
        seen(&model, &mut ours);
        seen(&rust.picture(), &mut theirs);
        assert!(ours == theirs, "event {event} of\n{}", start.write());
        visit(event, &model);
    }
}
