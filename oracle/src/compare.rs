// `oracle compare`: the Rust with document 01's rules against the model, whole state after every event.
// Beside it: the standing facts after every event, the split of a budget, cleared places, mutated states,
// and how often the text as published goes another way inside the domain.
use crate::crafted::known_starts;
use crate::domain::equal_times;
use crate::leaves::compare_leaves;
use crate::model::facts::broken;
use crate::model::run::{Report, Started, Told};
use crate::model::state::State;
use crate::mutate::{try_mutated, Mutations};
use crate::radii::Radii;
use crate::random::Random;
use crate::report::{head, parted, row};
use crate::rust::{AsPublished, Published, WithRules};
use crate::starts::{random_rate, random_start};
use crate::text::Start;
use crate::words::{held, seen, spare_clear};
use std::collections::BTreeMap;
use std::time::{Duration, Instant};

/// Random single schedulings, steppings and lookups compared before the runs.
const LEAVES: u64 = 20_000;

#[derive(Default)]
struct Figures {
    starts: u64,
    events: u64,
    inside: u64,
    radii: BTreeMap<Radii, u64>,
    splits: u64,
    causes: BTreeMap<String, u64>,
    published_runs: u64,
    published_states: u64,
    published_differs: u64,
    mutations: Mutations,
    mismatches: u64,
}

impl Figures {
    fn cause(&mut self, name: String) {
        *self.causes.entry(name).or_default() += 1;
    }

    /// Counts an event that was done by the model and the Rust.
    fn count(&mut self, run: &Run) {
        self.events += 1;
        self.inside += u64::from(run.inside);
        *self.radii.entry(run.radii).or_default() += 1;
    }

    fn mismatch(&mut self, what: &str, start: &Start, events: u64) {
        self.mismatches += 1;
        println!("MISMATCH: {what}, after event {events} of");
        print!("{}", start.write());
    }
}

/// Compares for so many seconds; says if nothing differed.
pub fn compare(seed: u64, seconds: u64) -> bool {
    let mut random = Random(seed);
    let mut figures = Figures::default();
    figures.mismatches += compare_leaves(&mut random, LEAVES);
    for start in known_starts() {
        figures.starts += 1;
        try_start(&start, &mut random, &mut figures);
    }
    let end = Instant::now() + Duration::from_secs(seconds);
    while Instant::now() < end {
        let start = random_start(&mut random);
        figures.starts += 1;
        try_start(&start, &mut random, &mut figures);
    }
    print_figures(&figures, seed);
    figures.mismatches == 0
}

fn try_start(start: &Start, random: &mut Random, figures: &mut Figures) {
    match start.model() {
        Started::Refused(number, _) => figures.cause(format!("refused at start by {number}")),
        Started::Done(s) if s.mark != 0 => figures.cause(format!("halted at start by {}", s.mark)),
        Started::Done(s) => one_run(start, *s, random, figures),
    }
}

/// One run under comparison.
struct Run {
    model: State,
    rust: WithRules,
    /// The text as published, until it goes another way or the domain is left.
    published: Option<AsPublished>,
    inside: bool,
    radii: Radii,
    rate: f64,
    /// The clock before the last event.
    clock: f64,
    /// The two states as words.
    ours: Vec<u64>,
    theirs: Vec<u64>,
}

fn one_run(start: &Start, model: State, random: &mut Random, figures: &mut Figures) {
    let beside = start.grains.len() < 3 || random.once_in(4);
    let mut run = Run {
        model,
        rust: WithRules::start(start),
        published: beside.then(|| AsPublished::start(start)),
        inside: true,
        radii: Radii::of(start),
        rate: start.rate,
        clock: 0.,
        ours: Vec::new(),
        theirs: Vec::new(),
    };
    figures.published_runs += u64::from(beside);
    let limit = random.pick(&[40, 200, 1000, 3000]);
    for events in 0..=limit {
        if let Some(what) = run.differs(figures).or_else(|| run.tried(random, figures)) {
            return figures.mismatch(&what, start, events);
        }
        if events == limit {
            return figures.cause(format!("ended after its {limit} events"));
        }
        match run.step() {
            Ok(()) => figures.count(&run),
            Err(number) => return figures.cause(format!("halted in a run by {number}")),
        }
    }
}

impl Run {
    /// One event in all that are still compared.
    fn step(&mut self) -> Result<(), u64> {
        self.clock = self.model.clock;
        self.model.step(self.rate)?;
        self.rust.step(self.rate);
        if let Some(published) = &mut self.published {
            published.step(self.rate);
        }
        Ok(())
    }

    /// What is wrong with the state as it stands, if anything is.
    fn differs(&mut self, figures: &mut Figures) -> Option<String> {
        seen(&self.model, &mut self.ours);
        seen(&self.rust.picture(), &mut self.theirs);
        if self.ours != self.theirs {
            return Some("the Rust with 01's rules and the model differ".into());
        }
        if let Some(fact) = broken(&self.model) {
            return Some(format!("standing fact broken ({fact})"));
        }
        if self.model.clock < self.clock {
            return Some("the clock went back".into());
        }
        if self.inside && equal_times(&self.model).is_some() {
            figures.cause("left the domain by equal times (compared further)".into());
            self.inside = false;
            self.published = None;
        }
        if let Some(published) = &self.published {
            seen(&published.picture(), &mut self.theirs);
            if self.ours == self.theirs {
                figures.published_states += 1;
            } else {
                figures.published_differs += 1;
                self.published = None;
            }
        }
        None
    }

    /// Now and then another rate, a split budget, a mutated state, a look at the unused places.
    fn tried(&mut self, random: &mut Random, figures: &mut Figures) -> Option<String> {
        if random.once_in(40) {
            self.rate = random_rate(random);
        }
        if random.once_in(150) {
            figures.splits += 1;
            if !split_agrees(&self.model, random) {
                return Some("a run of j+k is not a run of j and one of k".into());
            }
        }
        if random.once_in(30) && !spare_clear(&self.model) {
            return Some("a place given up is not cleared".into());
        }
        if random.once_in(100) {
            return try_mutated(&self.model, random, &mut figures.mutations).map(String::from);
        }
        None
    }
}

/// If one run of j+k events equals a run of j and, where that spent its budget, one of k.
fn split_agrees(state: &State, random: &mut Random) -> bool {
    let (j, k) = (random.below(12) as u32, random.below(12) as u32);
    let rate = random_rate(random);
    let (mut whole, mut parts) = (state.clone(), state.clone());
    let long = whole.run(rate, j + k);
    let first = parts.run(rate, j);
    let both = if first.told == Told::Spent {
        let second = parts.run(rate, k);
        Report { events: first.events + second.events, ..second }
    } else {
        first
    };
    let left = held(&whole);
    // a halt is answered for ever, and nothing changes
    if let Told::Refused(number) = long.told {
        let again = whole.run(rate, 1 + k);
        let zeros = Report { told: Told::Refused(number), clock: 0., events: 0 };
        if !again.same(&zeros) || left != held(&whole) {
            return false;
        }
    }
    long.same(&both) && left == held(&parts)
}

fn print_figures(f: &Figures, seed: u64) {
    println!("seed {seed}");
    let Mutations { refused, ran, events } = f.mutations;
    head(&["What", "How many"]);
    let count = |what: &str, many: u64| row(&[what, &parted(many)]);
    count("starts", f.starts);
    count("events compared, whole state after each", f.events);
    count("of them inside the domain", f.inside);
    f.radii.iter().for_each(|(radii, &events)| count(&format!("of them with {}", radii.name()), events));
    count("leaves compared, of each kind", LEAVES);
    count("budgets split", f.splits);
    count("mutated states refused with nothing changed", refused);
    count("mutated states run", ran);
    count("events of these", events);
    f.causes.iter().for_each(|(cause, &runs)| count(&format!("runs {cause}"), runs));
    count("runs as published beside them", f.published_runs);
    count("states of these equal inside the domain", f.published_states);
    count("of these runs that went another way", f.published_differs);
    println!("mismatches: {}", f.mismatches);
}
