// The smallest inputs known for each refusal, with what the model must answer; and the order of a run's
// checks on states that no start gives. `oracle refusals` runs them all.
use crate::known::{correction, correction_at_walls, grain, length_less_radius, meeting, sized, PERIODIC};
use crate::model::grid::{GREATEST_RADIUS, LEAST_RADIUS};
use crate::model::run::{Report, Started, Told};
use crate::model::state::{Inputs, State, SYNC};
use crate::text::Start;
use crate::words::held;

/// What is expected: a refused start, or a halt with the number of whole events before it.
#[derive(Clone, Copy, PartialEq, Debug)]
pub enum Answer {
    Refused(u64, Option<usize>),
    Halted { number: u64, events: u64 },
    HaltedAtStart(u64),
}

pub struct Crafted {
    pub name: &'static str,
    pub start: Start,
    pub answer: Answer,
}

/// More events than any crafted run needs to halt.
const ENOUGH: u64 = 1000;

fn case(name: &'static str, grains: &[Inputs], answer: Answer) -> Crafted {
    Crafted { name, start: Start::small(PERIODIC, 64, grains), answer }
}

fn with(mut crafted: Crafted, change: impl Fn(&mut Start)) -> Crafted {
    change(&mut crafted.start);
    crafted
}

pub fn crafted() -> Vec<Crafted> {
    let least = f64::from_bits(1);
    let still = grain(4.5, 4.5, 0., 0.);
    let halted = |number, events| Answer::Halted { number, events };
    let slow = grain(4.5, 4.5, 1., 0.5);
    let crowd = vec![still; 33];
    let mut visited = vec![still; 32];
    visited.push(grain(1., 4.5, 1., 0.));
    vec![
        with(case("1 length too small", &[], Answer::Refused(1, None)), |s| s.lengths[0] = 8.5),
        with(case("1 length too large", &[], Answer::Refused(1, None)), |s| s.lengths[1] = 48.5),
        with(case("1 length not a number", &[], Answer::Refused(1, None)), |s| s.lengths[0] = f64::NAN),
        with(case("2 room too small", &[], Answer::Refused(2, None)), |s| s.room = 15),
        with(case("2 room too large", &[], Answer::Refused(2, None)), |s| s.room = 257),
        case("2 too many grains", &[still; 257], Answer::Refused(2, None)),
        with(case("1 before 2", &[], Answer::Refused(1, None)), |s| (s.lengths[0], s.room) = (8.5, 15)),
        case(
            "4 names the lowest",
            &[still, grain(9.5, 1., 0., 0.), grain(-1., 1., 0., 0.)],
            Answer::Refused(4, Some(1)),
        ),
        with(case("4 inside a wall", &[grain(0.25, 4.5, 0., 0.)], Answer::Refused(4, Some(0))), |s| {
            s.periodic[0] = false
        }),
        case("4 too fast", &[grain(4.5, 4.5, 1024.5, 0.)], Answer::Refused(4, Some(0))),
        case("4 value not a number", &[[4.5, 4.5, 0., 0., f64::NAN, 0.5]], Answer::Refused(4, Some(0))),
        case("5 at start, the least velocity", &[grain(4.5, 4.5, least, 0.)], Answer::HaltedAtStart(5)),
        case(
            "5 at start, time exactly the largest float",
            &[grain(0.5 - 2f64.powi(-53), 4.5, -f64::from_bits(1 << 50), 0.)],
            Answer::HaltedAtStart(5),
        ),
        case(
            "5 in a run",
            &[grain(4.5, 5.5, 2f64.powi(-1015), 0.), grain(4.5, 2.5, 0., 1024.)],
            halted(5, 2),
        ),
        with(case("6 at start", &[grain(1.5, 1.5, 1., 0.5); 4], Answer::HaltedAtStart(6)), |s| s.room = 16),
        with(case("6 in a run", &[slow, slow, slow, grain(2., 4.5, 2., 0.5)], halted(6, 1)), |s| s.room = 16),
        case("7 at start, a 33rd grain", &crowd, Answer::HaltedAtStart(7)),
        case("7 in a run, a 33rd grain", &visited, halted(7, 2)),
        case("7 in a run, a 9th cell", &[grain(2.5, 2.5, -1., -0.875)], halted(7, 7)),
        case("8 meets the cell it never left", &[grain(2.5, 4.5, -1., 0.)], halted(8, 7)),
        case("8 a division against a product", &[grain(2.4999999999999996, 4.5, 1., 0.)], halted(8, 1)),
        case("8 through the corner", &[grain(0., 1., -1., -1.)], halted(8, 17)),
        case("9 the lost grain", &[grain(3.5, 4.5, -1., 0.)], halted(9, 1)),
        case("9 the lost grain, other side", &[grain(8.5, 4.5, 1., 0.)], halted(9, 1)),
        case("9 the exact corner", &[grain(4.5, 4.5, 1., 1.)], halted(9, 7)),
        case("9 an empty second span", &[grain(0.49999999999999994, 4.5, -1., 0.)], halted(9, 1)),
    ]
}

/// The same for radii: those out of range, grains within their radius of a wall, and halts of smaller grains.
pub fn crafted_radii() -> Vec<Crafted> {
    let bad = |name, rad| case(name, &[sized(4.5, 4.5, 0., 0., rad)], Answer::Refused(4, Some(0)));
    let walled = |name, grain, answer| with(case(name, &[grain], answer), |s| s.periodic[0] = false);
    let high: f64 = 9. - 0.3;
    vec![
        bad("4 radius too small", LEAST_RADIUS.next_down()),
        bad("4 radius too large", GREATEST_RADIUS.next_up()),
        bad("4 radius not a number", f64::NAN),
        bad("4 radius infinite", f64::INFINITY),
        case(
            "4 names the lowest, by its radius",
            &[sized(4.5, 4.5, 0., 0., 0.25), sized(4.5, 4.5, 0., 0., 0.2), grain(-1., 1., 0., 0.)],
            Answer::Refused(4, Some(1)),
        ),
        walled(
            "4 within its radius of the low wall",
            sized(0.29, 4.5, 0., 0., 0.3),
            Answer::Refused(4, Some(0)),
        ),
        walled(
            "4 within its radius of the high wall",
            sized(high.next_up(), 4.5, 0., 0., 0.3),
            Answer::Refused(4, Some(0)),
        ),
        case(
            "7 at start, a grain not yet stored",
            &[sized(4.5, 4.5, 0., 0., 0.3); 34],
            Answer::HaltedAtStart(7),
        ),
        Crafted {
            name: "8 from length less radius",
            start: length_less_radius(),
            answer: Answer::Halted { number: 8, events: 9 },
        },
        case(
            "9 the lost grain, a smaller one",
            &[sized(3.25, 4.5, -1., 0., 0.25)],
            Answer::Halted { number: 9, events: 1 },
        ),
    ]
}

/// All of them.
pub fn all_crafted() -> Vec<Crafted> {
    crafted().into_iter().chain(crafted_radii()).collect()
}

/// Starts that no random one comes near: the crafted ones, and those where the periodic correction shows.
pub fn known_starts() -> Vec<Start> {
    let mut all: Vec<Start> = all_crafted().into_iter().map(|c| c.start).collect();
    all.extend([correction(), correction_at_walls()]);
    all
}

/// What the model answers to a start and runs of one event each.
pub fn answer(start: &Start) -> Option<(Answer, Option<State>)> {
    let mut s = match start.model() {
        Started::Refused(number, grain) => return Some((Answer::Refused(number, grain), None)),
        Started::Done(s) => *s,
    };
    if s.mark != 0 {
        return Some((Answer::HaltedAtStart(s.mark), Some(s)));
    }
    for events in 0..ENOUGH {
        if let Told::Refused(number) = s.run(start.rate, 1).told {
            return Some((Answer::Halted { number, events }, Some(s)));
        }
    }
    None
}

/// Runs the crafted inputs and the orders of a run's checks; says if all answered as they should.
pub fn refusals() -> bool {
    let mut wrong = 0;
    let starts = all_crafted();
    for c in &starts {
        let got = answer(&c.start).map(|(a, _)| a);
        if got != Some(c.answer) {
            println!("WRONG: {}: {got:?}, not {:?}", c.name, c.answer);
            wrong += 1;
        }
    }
    let states: Vec<Check> = checks().into_iter().chain(radius_checks()).collect();
    for (name, state, rate, number) in &states {
        let mut after = state.clone();
        let report = after.run(*rate, 5);
        let zeros = Report { told: Told::Refused(*number), clock: 0., events: 0 };
        if !report.same(&zeros) || held(state) != held(&after) {
            println!("WRONG: {name}: {report:?}, not {number} with nothing changed");
            wrong += 1;
        }
    }
    println!("refusals: {} crafted starts, {} crafted states, {wrong} wrong", starts.len(), states.len());
    wrong == 0
}

/// A state that breaks no fact: two grains that meet, after three events.
pub fn sound() -> State {
    let mut s = meeting().accepted();
    s.run(1., 1);
    s.run(1., 2);
    s
}

/// A state with its name, the rate of a run, and the run's answer.
pub type Check = (&'static str, State, f64, u64);

fn changed(change: fn(&mut State)) -> State {
    let mut s = sound();
    change(&mut s);
    s
}

/// States whose radii are not finite.
pub fn radius_checks() -> Vec<Check> {
    vec![
        ("a radius not a number", changed(|s| s.grains[0].rad = f64::NAN), 1., 10),
        ("a radius not finite", changed(|s| s.grains[1].rad = f64::NEG_INFINITY), 1., 10),
    ]
}

/// States that break one standing fact each, or several checks at once, with the run's answer.
pub fn checks() -> Vec<Check> {
    let head = |s: &State| (0..s.queues.len()).find(|&c| s.queues[c].count > 1 && c > 0).unwrap();
    let event = |change: fn(&mut crate::model::state::Place)| {
        let mut s = sound();
        let cell = head(&s);
        change(&mut s.queues[cell].places[0]);
        s
    };
    vec![
        ("rate too small", sound(), 2f64.powi(-21), 3),
        ("rate not a number", sound(), f64::NAN, 3),
        ("mark before rate", changed(|s| s.mark = 9), f64::NAN, 9),
        ("rate before facts", changed(|s| s.mark = 4), f64::NAN, 3),
        ("another mark", changed(|s| s.mark = 4), 1., 10),
        ("mark past nine", changed(|s| s.mark = 10), 1., 10),
        ("counts before the mark", changed(|s| (s.room, s.mark) = (257, 9)), 1., 2),
        ("a length out of range", changed(|s| s.lengths[0] = 8.5), 1., 10),
        ("a flag that is none", changed(|s| s.periodic[1] = 2), 1., 10),
        ("cells of another box", changed(|s| s.lengths[0] = 12.), 1., 10),
        ("a list count past its places", changed(|s| s.homes[0].count = 9), 1., 10),
        ("a cell number past the cells", changed(|s| s.homes[0].places[0] = 9), 1., 10),
        ("a heap place past the cells", changed(|s| s.heap[3] = 9), 1., 10),
        ("a number not finite", changed(|s| s.grains[1].val = f64::INFINITY), 1., 10),
        ("a grain ahead of the clock", changed(|s| s.grains[1].time = s.clock.next_up()), 1., 10),
        ("a clock past an event", changed(|s| s.clock = 1e9), 1., 10),
        ("heap and lookups not inverse", changed(|s| s.look.swap(0, 1)), 1., 10),
        ("a parent later than its child", changed(|s| s.change_places(0, 8)), 1., 10),
        (
            "a grain in no cell",
            changed(|s| {
                s.grains.push(s.grains[0]);
                s.homes.push(crate::model::state::Row::cleared(8));
            }),
            1.,
            10,
        ),
        (
            "a cell that lists a grain twice",
            changed(|s| {
                let cell = s.homes[0].places[0] as usize;
                s.members[cell].insert(0, 0);
            }),
            1.,
            10,
        ),
        ("a second synchronisation", event(|e| e.kind = SYNC), 1., 10),
        ("a kind that is none", event(|e| e.kind = 6), 1., 10),
        ("a grain past the grains", event(|e| e.p = 2), 1., 10),
        ("an unneeded float not finite", event(|e| e.d[1] = f64::NAN), 1., 10),
        ("events out of order", event(|e| e.time = 1e9), 1., 10),
    ]
}
