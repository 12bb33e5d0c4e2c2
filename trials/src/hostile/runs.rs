// Runs on tables of every kind.
use super::base::Base;
use super::places::{change_any, change_one};
use super::standing::rearrange;
use super::tables::{lengthen, nans, noise, relength, resized, stretch};
use super::values::{bound, budget, length, rate};
use super::{Outcome, Trial};
use crate::calls::{self, Report, SPENT};
use crate::equal::holds_tables;
use crate::guarded::Side;
use crate::starts::one_of;
use oracle::model::run::Told;
use oracle::mutate::mutate;
use oracle::tables::{Tables, GRAINS_HEAD, LISTS_HEAD};

/// Budgets above this are used only where the run ends earlier by itself.
const MOST: u32 = 400;

/// Places ahead of what each table lists.
const HEADS: [usize; 5] = [LISTS_HEAD, GRAINS_HEAD, 0, 0, 0];

impl Trial<'_> {
    pub fn run(&mut self, base: &Base) -> Outcome {
        let r = &mut self.random;
        let mut t = base.tables.clone();
        let kind = match r.below(33) {
            0..=2 => "run, tables as they stand",
            3..=15 => {
                stretch(&mut t, r);
                change_one(&base.state, &mut t, r)
            }
            16..=18 => {
                (0..2 + r.below(3)).for_each(|_| change_any(&mut t, r));
                "run, two to four numbers changed"
            }
            19..=21 => {
                let mut s = base.state.clone();
                (0..1 + r.below(4)).for_each(|_| mutate(&mut s, r));
                t = Tables::of(&s);
                "run, state mutated"
            }
            22..=25 => {
                let mut s = base.state.clone();
                (0..1 + r.below(6)).for_each(|_| rearrange(&mut s, r));
                t = Tables::of(&s);
                "run, another standing state"
            }
            26 | 27 => {
                relength(&mut t, r);
                "run, tables of other lengths"
            }
            28 => {
                t.lists[1 + r.below(3) as usize] = bound(r);
                lengthen(&mut t, r);
                "run, a count near a bound"
            }
            29 => {
                t.lists[0] = one_of([r.below(13), r.bits()], r);
                "run, mark 0 to 12 or any"
            }
            30 if r.once_in(2) => {
                let lengths = t.lengths().map(|n| if r.once_in(2) { n } else { length(r, n) });
                resized(&mut t, lengths);
                (0..5).for_each(|table| noise(&mut t, table, 0, r));
                "run, tables of one byte or of noise"
            }
            30 => {
                (0..5).for_each(|table| noise(&mut t, table, HEADS[table], r));
                "run, noise behind true headers"
            }
            31 => {
                let table = r.below(5) as usize;
                noise(&mut t, table, HEADS[table], r);
                "run, one table of noise"
            }
            _ => {
                nans(&mut t, r);
                if r.once_in(4) {
                    t.lists[0] = 5 + r.below(5);
                }
                "run, NaNs of every pattern"
            }
        };
        self.runs(kind, t)
    }

    /// A run, and as long as it comes to no refusal, now and then another on what it left.
    fn runs(&mut self, mut kind: &'static str, mut t: Tables) -> Outcome {
        loop {
            let number = self.one_run(kind, &mut t)?;
            if (number != 0 && number != SPENT) || self.random.once_in(2) {
                return Ok(());
            }
            kind = "run, once more";
        }
    }

    /// One run; the tables become what it should leave.
    fn one_run(&mut self, kind: &'static str, t: &mut Tables) -> Result<u64, String> {
        let r = &mut self.random;
        let (rate, mut budget) = (rate(r), budget(r));
        self.lent.hold(t, r.pick(&[Side::Low, Side::High]));
        let expected = expected(t, rate, &mut budget);
        let told = calls::run(self.lent, rate, budget);
        (self.meddle)(self.lent);
        self.tally.count(kind, told.number);
        if !told.same(&expected) {
            return Err(format!("{kind}: rate {rate:?}, budget {budget}: {told:?}, not {expected:?}"));
        }
        let differs = |d| format!("{kind}: rate {rate:?}, budget {budget}, answer {}: {d}", told.number);
        holds_tables(self.lent, t).map_err(differs)?;
        self.tally.nans(&t.grains);
        self.tally.nans(&t.events);
        Ok(told.number)
    }
}

/// What the model answers; the tables become what it leaves, and a budget that would take too long is cut.
fn expected(t: &mut Tables, rate: f64, budget: &mut u32) -> Report {
    let Some(mut s) = t.read() else { return Report::refused(2) };
    let was = s.mark;
    let few = MOST.min(*budget);
    let report = s.run(rate, few);
    let number = match report.told {
        Told::Synchronised => 0,
        Told::Spent => {
            *budget = few;
            SPENT
        }
        Told::Refused(number) => number,
    };
    let ran = number == 0 || number == SPENT || s.mark != was;
    if ran {
        t.write(&s);
    }
    Report { number, clock: report.clock, done: report.events }
}
