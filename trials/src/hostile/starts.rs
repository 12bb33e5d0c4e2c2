// Starts with boxes, counts, inputs and tables of every kind.
use super::base::Base;
use super::values::{bound, float, length};
use super::{Outcome, Trial};
use crate::calls::{self, Counts};
use crate::equal::{holds_tables, same_bits, still_spoilt};
use crate::guarded::Side;
use crate::starts::{one_of, small_start};
use oracle::model::grid::cells_along;
use oracle::model::run::{counts_in_range, start, Started};
use oracle::model::state::{Inputs, State, INPUTS};
use oracle::random::Random;
use oracle::tables::{needed, Tables};

/// What a start is handed: counts, inputs, and the lengths of the tables.
struct Handed {
    counts: Counts,
    inputs: Vec<f64>,
    lengths: [usize; 5],
}

impl Trial<'_> {
    pub fn start(&mut self, base: &Base) -> Outcome {
        let r = &mut self.random;
        let start = if r.once_in(2) { base.start.clone() } else { small_start(r) };
        let counts = Counts {
            lengths: start.lengths,
            periodic: start.periodic,
            count: start.grains.len() as u64,
            room: start.room,
        };
        let lengths = exact(&counts).map(|n| n + r.below(4) as usize);
        let mut handed = Handed { counts, inputs: start.grains.concat(), lengths };
        let kind = match r.below(16) {
            0 | 1 => "start, as it stands",
            2..=4 => {
                let at = r.below(2) as usize;
                handed.counts.lengths[at] = box_length(r, handed.counts.lengths[at]);
                handed.lengths = exact(&handed.counts);
                "start, a box length changed"
            }
            5 => {
                handed.counts.count = bound(r);
                "start, a grain count near a bound"
            }
            6 => {
                handed.counts.room = bound(r);
                handed.lengths = exact(&handed.counts);
                "start, a room near a bound"
            }
            7..=10 => {
                change_input(&mut handed.inputs, r);
                "start, an input changed"
            }
            11..=13 => {
                handed.lengths = handed.lengths.map(|n| if r.once_in(2) { n } else { length(r, n) });
                "start, tables of other lengths"
            }
            14 => {
                let new = length(r, handed.inputs.len());
                handed.inputs.resize(new, 0.5);
                "start, inputs of another length"
            }
            _ => {
                anything(&mut handed, r);
                "start, anything"
            }
        };
        self.one_start(kind, &handed)
    }

    fn one_start(&mut self, kind: &'static str, handed: &Handed) -> Outcome {
        let Handed { counts, inputs, lengths } = handed;
        let r = &mut self.random;
        self.lent.place(*lengths, r.pick(&[Side::Low, Side::High]));
        self.lent.hand_in(inputs, r.pick(&[Side::Low, Side::High]));
        self.lent.spoil([0; 5]);
        let (number, grain, state) = expected(handed);
        let told = calls::start(self.lent, *counts);
        (self.meddle)(self.lent);
        self.tally.count(kind, told.0);
        let wrong =
            |what: String| format!("{kind}: {counts:?}, {} inputs, tables {lengths:?}: {what}", inputs.len());
        if told != (number, grain) {
            return Err(wrong(format!("{told:?}, not {:?}", (number, grain))));
        }
        if !same_bits(&self.lent.inputs, inputs) {
            return Err(wrong("the inputs were changed".into()));
        }
        match state {
            Some(s) => {
                let mut tables = Tables::cleared(*lengths);
                tables.write(&s);
                holds_tables(self.lent, &tables)
            }
            None => still_spoilt(self.lent),
        }
        .map_err(|d| wrong(d.to_string()))
    }
}

/// How many cells the box has, and no more than one in range can have.
pub fn cells(lengths: [f64; 2]) -> usize {
    lengths.map(|l| cells_along(l).min(16)).iter().product()
}

/// What the counts need, as far as they are in range.
fn exact(counts: &Counts) -> [usize; 5] {
    needed(counts.count.min(256) as usize, cells(counts.lengths), counts.room.min(256) as usize)
}

/// What the model answers: the number, the grain that it names, the state if the start is accepted.
fn expected(handed: &Handed) -> (u64, u64, Option<Box<State>>) {
    let Handed { counts: Counts { lengths, periodic, count, room }, inputs, .. } = handed;
    if let Started::Refused(1, _) = start(*lengths, *periodic, 16, &[]) {
        return (1, 0, None);
    }
    let grains = usize::try_from(*count).unwrap_or(usize::MAX);
    if !counts_in_range(grains, cells(*lengths), *room) || inputs.len() < INPUTS * grains {
        return (2, 0, None);
    }
    if handed.lengths.iter().zip(exact(&handed.counts)).any(|(&has, needs)| has < needs) {
        return (2, 0, None);
    }
    let grains: Vec<Inputs> =
        inputs.chunks_exact(INPUTS).take(grains).map(|g| g.try_into().expect("a grain's")).collect();
    match start(*lengths, *periodic, *room, &grains) {
        Started::Refused(number, grain) => (number, grain.unwrap_or(0) as u64, None),
        Started::Done(s) => (s.mark, 0, Some(s)),
    }
}

fn box_length(r: &mut Random, near: f64) -> f64 {
    match r.below(4) {
        0 => r.pick(&[9f64, 12., 48.]).next_down(),
        1 => r.pick(&[9f64, 12., 48.]).next_up(),
        2 => r.between(9., 20.),
        _ => float(r, near, &[]),
    }
}

/// Ends of the ranges of inputs.
const ENDS: [f64; 8] = [0., 0.25, 0.5, 1., 8.5, 9., -1024., 1024.];

/// One float of the inputs, or the end of its range in either direction.
fn change_input(inputs: &mut [f64], r: &mut Random) {
    if let Some(at) = r.bits().checked_rem(inputs.len() as u64).map(|n| n as usize) {
        inputs[at] = match r.below(4) {
            0 => r.pick(&ENDS).next_up(),
            1 => r.pick(&ENDS).next_down(),
            _ => float(r, inputs[at], inputs),
        };
    }
}

fn anything(handed: &mut Handed, r: &mut Random) {
    let c = &mut handed.counts;
    c.lengths = c.lengths.map(|l| if r.once_in(4) { float(r, l, &[]) } else { l });
    c.periodic = [r.once_in(2), r.once_in(2)];
    c.count = one_of([c.count, r.below(12), bound(r), r.bits()], r);
    c.room = one_of([c.room, 16 + r.below(17), bound(r), r.bits()], r);
    let need = exact(c);
    handed.lengths = need.map(|n| if r.once_in(6) { length(r, n) } else { n });
    let new = one_of([handed.inputs.len(), INPUTS * r.below(12) as usize], r);
    // each of these may be any number of a grain
    handed.inputs.resize_with(new, || r.between(0.25, 0.5));
    if r.once_in(3) {
        handed.inputs.fill_with(|| f64::from_bits(r.bits()));
    }
}
