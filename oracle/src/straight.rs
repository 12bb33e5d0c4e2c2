// `oracle straight`: moving grains that a cell lists and that no pending event names, and a pair that is pending twice.
use crate::differ::told;
use crate::domain::Watch;
use crate::known::grain;
use crate::model::state::{State, COLLISION};
use crate::rust::{AsPublished, Published};
use crate::text::{dump, Start};

const EVENTS: u64 = 1_000;

/// Shows all of it; says if each came out as docs/DIFFERENCES.md has it.
pub fn straight() -> bool {
    let shown = [named_by_none(), as_published(), pending_twice()];
    shown.iter().all(|&s| s)
}

fn listed(s: &State, grain: u64) -> bool {
    s.members.iter().any(|row| row.live().contains(&grain))
}

fn named(s: &State, grain: u64) -> bool {
    s.queues.iter().flat_map(|row| row.live()).any(|event| event.names(grain))
}

/// The model's state after each event, the start's first.
fn states(start: &Start) -> (Watch, Vec<State>) {
    let mut watch = Watch::of(start);
    let mut states = vec![*watch.state.clone()];
    for _ in 0..EVENTS {
        watch.step(start.rate);
        states.push(*watch.state.clone());
    }
    (watch, states)
}

/// By document 01: from event 2 on nothing names grain 0, from event 4 on nothing names grain 1.
fn named_by_none() -> bool {
    let start = Start::small([true, true], 64, &[grain(3.5, 4.5, -1., 0.), grain(5.5, 4.5, -2., 0.)]);
    let (watch, states) = states(&start);
    let from = |g| states.iter().position(|s| listed(s, g) && !named(s, g));
    let for_ever = |g| states.iter().skip(from(g).unwrap_or(0)).all(|s| listed(s, g) && !named(s, g));
    let holds = [from(0), from(1)] == [Some(2), Some(4)] && for_ever(0) && for_ever(1) && !watch.halted();
    let one = told(holds, format!("listed, and named by no event up to event {EVENTS}: grain 0 from event 2 on, grain 1 from event 4 on; no refusal"));
    let mut published = AsPublished::start(&start);
    (0..2).for_each(|_| published.step(start.rate));
    let lost = !listed(&published.picture(), 0);
    one & told(
        lost,
        "as published, no cell lists grain 0 after event 2 (equal times, outside the domain)".into(),
    )
}

/// Inside the domain: as published and by document 01 alike, a grain that a cell lists is named by no event.
fn as_published() -> bool {
    let start = Start::small([true, true], 64, &[grain(3.5, 5.5, -1., 0.), grain(4.7, 6.3, -1.6, 0.)]);
    let (watch, states) = states(&start);
    let mut published = AsPublished::start(&start);
    let alike = states.iter().all(|state| {
        let same = dump(&published.picture()) == dump(state);
        published.step(start.rate);
        same
    });
    let alone = |&n: &usize| listed(&states[n], 0) && !named(&states[n], 0);
    let events: Vec<usize> = (0..states.len()).filter(alone).collect();
    let expected: Vec<usize> = (32..=254).chain(266..=1_000).collect();
    let holds = alike && watch.left.is_none() && events == expected;
    told(
        holds,
        "as published too, inside the domain: after events 32 to 254 and 266 to 1000 nothing names grain 0"
            .into(),
    )
}

/// After a grazing collision each of the two asks for the other, and both find it again, at once.
fn pending_twice() -> bool {
    let p = grain(4.698647652441024, 4.58219815214929, 0.8131968369756872, -31.7106416154199);
    let q = grain(5.404903652810111, 3.8742416125632353, 1.1450997823144164, -31.37953591389942);
    let (_, states) = states(&Start::small([true, true], 64, &[p, q]));
    let pairs: Vec<[u64; 2]> =
        states[2].queues[4].live().iter().filter(|e| e.kind == COLLISION).map(|e| [e.p, e.q]).collect();
    told(pairs == [[0, 1], [1, 0]], format!("pending in cell 4 after the collision of event 2: {pairs:?}"))
}
