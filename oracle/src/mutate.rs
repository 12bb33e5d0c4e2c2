// States that no start gives: a reached state with a few numbers changed at random. A run must refuse it
// with nothing changed, or do its events and keep every standing fact unless it halts.
use crate::model::facts::broken;
use crate::model::run::Told;
use crate::model::state::{Place, State};
use crate::random::Random;
use crate::starts::random_rate;
use crate::words::held;

/// What became of mutated states.
#[derive(Default)]
pub struct Mutations {
    pub refused: u64,
    pub ran: u64,
    pub events: u64,
}

/// Mutates a copy of a state and runs it; says what went wrong, if anything did.
pub fn try_mutated(state: &State, r: &mut Random, tally: &mut Mutations) -> Option<&'static str> {
    let mut s = state.clone();
    for _ in 0..1 + r.below(4) {
        mutate(&mut s, r);
    }
    let stands = broken(&s).is_none();
    let before = held(&s);
    let clock = s.clock;
    let report = s.run(random_rate(r), r.below(40) as u32);
    if !stands {
        tally.refused += 1;
        let refused = matches!(report.told, Told::Refused(_)) && report.events == 0;
        return (!refused || before != held(&s)).then_some("a state that breaks a fact was run or changed");
    }
    tally.ran += 1;
    tally.events += report.events;
    if report.clock < clock {
        return Some("the clock went back from a mutated state");
    }
    let halted = matches!(report.told, Told::Refused(5..=9)) && s.mark != 0;
    (!halted && broken(&s).is_some()).then_some("a standing fact was not kept from a mutated state")
}

/// A float of any kind, near ones more often.
fn float(r: &mut Random, near: f64) -> f64 {
    match r.below(6) {
        0 => f64::from_bits(r.bits()),
        1 => r.pick(&[0., -0., f64::MAX, f64::INFINITY, f64::NAN, 1e-300]),
        2 => r.pick(&[near.next_up(), near.next_down()]),
        _ => near + r.between(-1., 1.),
    }
}

fn number(r: &mut Random, near: u64) -> u64 {
    match r.below(4) {
        0 => r.bits(),
        1 => near.wrapping_add(1),
        _ => r.below(12),
    }
}

pub fn mutate(s: &mut State, r: &mut Random) {
    let cells = s.members.len();
    let cell = r.below(cells as u64) as usize;
    let grain = (!s.grains.is_empty()).then(|| r.below(s.grains.len() as u64) as usize);
    match (r.below(12), grain) {
        (0..=2, Some(g)) => {
            let g = &mut s.grains[g];
            let [x, y] = &mut g.pos;
            let [vx, vy] = &mut g.vel;
            let chosen = r.below(7) as usize;
            let field = [x, y, vx, vy, &mut g.time, &mut g.val, &mut g.rad].into_iter().nth(chosen).unwrap();
            *field = float(r, *field);
        }
        (3, Some(g)) => {
            let row = &mut s.homes[g];
            let at = r.below(row.places.len() as u64) as usize;
            row.places[at] = number(r, row.places[at]);
        }
        (4, _) => {
            let row = &mut s.members[cell];
            let at = r.below(row.places.len() as u64) as usize;
            row.places[at] = number(r, row.places[at]);
        }
        (5, _) => s.members[cell].count = number(r, s.members[cell].count),
        (6, _) => s.change_places(cell, r.below(cells as u64) as usize),
        (7, _) => s.clock = float(r, s.clock),
        (8, _) => s.mark = r.pick(&[0, 0, 0, 5, 9, 10, 1]),
        (9, _) if r.once_in(4) => s.periodic[r.below(2) as usize] ^= 1 + r.below(2),
        _ => {
            let row = &mut s.queues[cell];
            let reach = (row.count + 2).min(row.places.len() as u64);
            let at = r.below(reach) as usize;
            mutate_event(&mut row.places[at], r);
        }
    }
}

fn mutate_event(e: &mut Place, r: &mut Random) {
    match r.below(8) {
        0 => e.kind = r.below(7),
        1 => e.p = number(r, e.p),
        2 => e.q = number(r, e.q),
        3 => e.cell = number(r, e.cell),
        4 => e.time = float(r, e.time),
        5 => e.a[0] = float(r, e.a[0]),
        6 => e.c[1] = float(r, e.c[1]),
        _ => e.val = float(r, e.val),
    }
}
