// One start followed event by event: the compiled calls beside the published Rust with document 01's rules
// while it is inside the domain, beside the model always, whole tables compared after every event.
use crate::calls::{run, start as begin, Counts, Report, SPENT};
use crate::equal::{holds_same, holds_state, still_spoilt, Beyond, Difference};
use crate::figures::{class, count, Figures};
use crate::guarded::Side;
use crate::lent::Lent;
use crate::starts::{one_of, trial_rate, words};
use oracle::domain::equal_times;
use oracle::model::run::{Started, Told};
use oracle::model::state::State;
use oracle::radii::Radii;
use oracle::random::Random;
use oracle::rust::{Published, WithRules};
use oracle::tables::needed;
use oracle::text::Start;

/// What went wrong, and after which event (0 is the start).
#[derive(Debug)]
pub struct Fault {
    pub what: String,
    pub events: u64,
}

/// Three sets of tables: for single events, for one longer run, for that run in two parts.
#[derive(Default)]
pub struct Ground {
    single: Lent,
    whole: Lent,
    parts: Lent,
}

/// Called after each compiled event with its number and the tables: a test meddles with them here.
pub type Meddle<'a> = &'a mut dyn FnMut(u64, &mut Lent);

pub struct Walk<'a> {
    ground: &'a mut Ground,
    figures: &'a mut Figures,
    meddle: Meddle<'a>,
    random: Random,
    model: State,
    /// While the run is inside the domain.
    rust: Option<WithRules>,
    rate: f64,
    radii: Radii,
    events: u64,
}

/// Follows a start; the seed gives budgets, rates and how far. The first fault ends it.
pub fn follow(
    start: &Start,
    seed: u64,
    ground: &mut Ground,
    figures: &mut Figures,
    meddle: Meddle,
) -> Result<(), Fault> {
    let mut random = Random(seed);
    figures.starts += 1;
    let Some(model) = started(start, &mut random, &mut ground.single, figures)? else { return Ok(()) };
    let limit = 20 + random.pick(&[40, 200, 1000, 3000]) * 40_000 / (40_000 + words(start));
    let (rust, rate) = (Some(WithRules::start(start)), start.rate);
    let radii = Radii::of(start);
    let mut walk = Walk { ground, figures, meddle, random, model, rust, rate, radii, events: 0 };
    walk.compared()?;
    walk.go(limit)
}

fn at_start(what: String) -> Fault {
    Fault { what, events: 0 }
}

fn side(random: &mut Random) -> Side {
    random.pick(&[Side::Low, Side::High])
}

/// The start itself. Hands back the model's state, if it was neither refused nor halted.
fn started(
    start: &Start,
    random: &mut Random,
    t: &mut Lent,
    figures: &mut Figures,
) -> Result<Option<State>, Fault> {
    let need = needed(start.grains.len().min(256), start.cells().min(256), start.room.min(256) as usize);
    t.place(need.map(|n| n + random.below(10) as usize), side(random));
    t.hand_in(&start.grains.concat(), side(random));
    t.spoil([0; 5]);
    let (lengths, periodic, room) = (start.lengths, start.periodic, start.room);
    let told = begin(t, Counts { lengths, periodic, count: start.grains.len() as u64, room });
    let s = match start.model() {
        Started::Refused(number, grain) => {
            let expected = (number, grain.unwrap_or(0) as u64);
            if told != expected {
                return Err(at_start(format!("start answers {told:?}, not {expected:?}")));
            }
            still_spoilt(t).map_err(|d| at_start(format!("a refused start changed {d}")))?;
            count(&mut figures.refused, number);
            return Ok(None);
        }
        Started::Done(s) => *s,
    };
    if told != (s.mark, 0) {
        return Err(at_start(format!("start answers {told:?}, not {:?}", (s.mark, 0))));
    }
    holds_state(t, &s, Beyond::Cleared).map_err(|d| at_start(format!("after the start, {d}")))?;
    t.spoil(need);
    if s.mark != 0 {
        count(&mut figures.halted_at_start, s.mark);
        still_halted(t, &s, random).map_err(at_start)?;
        return Ok(None);
    }
    Ok(Some(s))
}

/// A halted state answers its number and zeros, whatever the rate, and nothing changes.
fn still_halted(t: &mut Lent, s: &State, random: &mut Random) -> Result<(), String> {
    let rate = random.pick(&[1., f64::NAN, 0.]);
    let budget = random.bits() as u32;
    same_report("a run after a halt", run(t, rate, budget), Report::refused(s.mark))?;
    holds_state(t, s, Beyond::Junk).map_err(|d| format!("a run after a halt changed {d}"))
}

fn same_report(what: &str, told: Report, expected: Report) -> Result<(), String> {
    if told.same(&expected) {
        return Ok(());
    }
    Err(format!("{what} answers {told:?}, not {expected:?}"))
}

impl Walk<'_> {
    fn fault(&self, what: String) -> Fault {
        Fault { what, events: self.events }
    }

    fn go(&mut self, limit: u64) -> Result<(), Fault> {
        while self.events < limit {
            if self.random.once_in(40) {
                self.rate = trial_rate(&mut self.random);
                self.figures.rates += 1;
            }
            let number = if self.random.once_in(60) { self.split()? } else { self.event()? };
            if (5..=9).contains(&number) {
                let Figures { halted, halted_later, .. } = &mut *self.figures;
                count(if self.rust.is_some() { halted } else { halted_later }, number);
                return still_halted(&mut self.ground.single, &self.model, &mut self.random)
                    .map_err(|what| self.fault(what));
            }
        }
        self.figures.ended += 1;
        Ok(())
    }

    /// One event: a run with budget 1, and everything compared. Answers the run's number.
    fn event(&mut self) -> Result<u64, Fault> {
        let told = run(&mut self.ground.single, self.rate, 1);
        self.events += 1;
        (self.meddle)(self.events, &mut self.ground.single);
        let kind = self.model.queues[self.model.heap[0] as usize].places[0].kind;
        let done = self.model.step(self.rate);
        let number = match done {
            Ok(true) => 0,
            Ok(false) => SPENT,
            Err(number) => number,
        };
        let expected = Report { number, clock: self.model.clock, done: done.is_ok().into() };
        same_report("a run of one event", told, expected).map_err(|what| self.fault(what))?;
        if done.is_ok() {
            if let Some(rust) = &mut self.rust {
                rust.step(self.rate);
            }
            let inside = self.compared()?;
            self.figures.events += 1;
            self.figures.inside += u64::from(inside);
            count(&mut self.figures.kinds, kind);
            count(&mut self.figures.cells, class(self.model.members.len()));
            count(&mut self.figures.radii, self.radii.name());
        } else {
            self.holds(&self.model)?;
        }
        Ok(number)
    }

    fn holds(&self, s: &State) -> Result<(), Fault> {
        let differs = |d: Difference| self.fault(d.to_string());
        holds_state(&self.ground.single, s, Beyond::Junk).map_err(differs)
    }

    /// Compares the tables with the Rust's state inside the domain, with the model's outside it. Says which.
    fn compared(&mut self) -> Result<bool, Fault> {
        let inside = self.rust.as_ref().map(|rust| State { room: self.model.room, ..rust.picture() });
        match inside {
            Some(picture) if equal_times(&picture).is_none() => self.holds(&picture).map(|()| true),
            left => {
                if left.is_some() {
                    self.figures.equal_times += 1;
                    self.rust = None;
                }
                self.holds(&self.model).map(|()| false)
            }
        }
    }

    /// Two budgets; now and then far more than the events up to the next synchronisation or halt.
    fn budgets(&mut self) -> (u32, u32) {
        let r = &mut self.random;
        let few = (r.below(16) as u32, r.below(16) as u32);
        if r.once_in(3) && self.model.clone().run(self.rate, 300).told != Told::Spent {
            let j = one_of([few.0, r.bits() as u32], r);
            return (j, r.pick(&[u32::MAX - j, (u32::MAX - j).min(300)]));
        }
        few
    }

    /// A run of j+k events, runs of j and of k, and as many single events: the same reports and tables.
    fn split(&mut self) -> Result<u64, Fault> {
        let (j, k) = self.budgets();
        let Ground { single, whole, parts } = &mut *self.ground;
        whole.copy(single, side(&mut self.random));
        parts.copy(single, side(&mut self.random));
        let long = run(whole, self.rate, j + k);
        let mut both = run(parts, self.rate, j);
        if both.number == SPENT {
            let second = run(parts, self.rate, k);
            both = Report { done: both.done + second.done, ..second };
        }
        let at = format!("runs of {j} and {k} after event {}", self.events);
        same_report(&at, both, long).map_err(|what| self.fault(what))?;
        let parted = holds_same(&self.ground.parts, &self.ground.whole);
        parted.map_err(|d| self.fault(format!("{at}: {d}")))?;
        let mut last = Report { number: SPENT, clock: self.model.clock, done: 0 };
        while last.number == SPENT && last.done < u64::from(j + k) {
            let number = self.event()?;
            let done = last.done + u64::from(number == 0 || number == SPENT);
            last = Report { number, clock: self.model.clock, done };
        }
        same_report(&at, long, last).map_err(|what| self.fault(what))?;
        let apart = holds_same(&self.ground.whole, &self.ground.single);
        apart.map_err(|d| self.fault(format!("{at}: {d}")))?;
        self.figures.splits += 1;
        self.figures.split_events += long.done;
        Ok(last.number)
    }
}
