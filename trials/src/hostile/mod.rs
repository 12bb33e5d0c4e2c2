// Hostile calls: tables, counts, rates, budgets and inputs of every kind, lent between pages that nobody may
// touch. Every answer, and every byte afterwards, must be the model's.
mod base;
mod others;
mod places;
mod runs;
mod standing;
mod starts;
mod tables;
mod values;

use crate::calls::SPENT;
use crate::lent::Lent;
use base::Base;
use oracle::random::Random;
use oracle::report::{head, parted, row, tally};
use std::collections::BTreeMap;
use std::ffi::c_int;
use std::sync::atomic::{AtomicU64, Ordering};
use std::time::{Duration, Instant};

/// So many cases in a row begin from the same state.
const BLOCK: u64 = 128;

/// After so many faults there is no need for more.
const ENOUGH: u64 = 10;

/// Called after each call with the tables: a test meddles with them here.
pub type Meddle<'a> = &'a mut dyn FnMut(&mut Lent);

/// Calls of each kind, by answer; and the NaNs in the tables afterwards, whose bits were compared as all are.
#[derive(Default)]
pub struct Tally {
    kinds: BTreeMap<&'static str, BTreeMap<u64, u64>>,
    nans: u64,
}

impl Tally {
    fn count(&mut self, kind: &'static str, answer: u64) {
        *self.kinds.entry(kind).or_default().entry(answer).or_default() += 1;
    }

    fn nans(&mut self, table: &[f64]) {
        self.nans += table.iter().filter(|x| x.is_nan()).count() as u64;
    }

    pub fn calls(&self) -> u64 {
        self.kinds.values().flat_map(|answers| answers.values()).sum()
    }

    fn print(&self) {
        head(&["Calls", "How many", &format!("Answers by number; {SPENT} is a budget spent")]);
        for (kind, answers) in &self.kinds {
            row(&[kind, parted(answers.values().sum()).as_str(), &tally(answers)]);
        }
        let mut all = BTreeMap::new();
        for (answer, many) in self.kinds.values().flatten() {
            *all.entry(*answer).or_default() += many;
        }
        row(&["all", &parted(self.calls()), &tally(&all)]);
        println!(
            "NaNs in the tables after a run, each with the bits that it should have: {}",
            parted(self.nans)
        );
    }
}

/// What a case works with.
struct Trial<'a> {
    lent: &'a mut Lent,
    tally: &'a mut Tally,
    meddle: Meddle<'a>,
    random: Random,
}

/// Nothing, or what went wrong.
type Outcome = Result<(), String>;

/// The generator of one case: another for each number and seed.
fn drawn(seed: u64, number: u64) -> Random {
    Random(Random(seed).bits() ^ Random(!number).bits())
}

/// One case of a block: mostly runs.
pub fn case(
    seed: u64,
    number: u64,
    base: &Base,
    lent: &mut Lent,
    tally: &mut Tally,
    meddle: Meddle,
) -> Outcome {
    let mut trial = Trial { lent, tally, meddle, random: drawn(seed, number) };
    match trial.random.below(20) {
        0 => trial.needed(),
        1 => trial.root(),
        2..=5 => trial.start(base),
        _ => trial.run(base),
    }
}

/// The state that the cases of a number's block begin from.
pub fn base(seed: u64, number: u64) -> Base {
    Base::new(&mut drawn(!seed, number / BLOCK))
}

/// Calls for so many seconds; says if every answer was the model's.
pub fn hostile(seconds: u64, seed: u64) -> bool {
    watch_for_faults();
    let (mut lent, mut tally) = (Lent::default(), Tally::default());
    let end = Instant::now() + Duration::from_secs(seconds);
    let mut wrong = 0;
    let mut block = base(seed, 0);
    for number in 0.. {
        if number % BLOCK == 0 {
            if Instant::now() >= end || wrong >= ENOUGH {
                break;
            }
            block = base(seed, number);
        }
        wrong += u64::from(!passes(seed, number, &block, &mut lent, &mut tally));
    }
    println!("seed {seed}, {seconds} seconds");
    tally.print();
    println!("wrong answers or tables: {wrong}");
    wrong == 0
}

/// One case alone, as a fault printed it.
pub fn again(seed: u64, number: u64) -> bool {
    watch_for_faults();
    let mut tally = Tally::default();
    let passed = passes(seed, number, &base(seed, number), &mut Lent::default(), &mut tally);
    tally.print();
    passed
}

fn passes(seed: u64, number: u64, block: &Base, lent: &mut Lent, tally: &mut Tally) -> bool {
    SEED.store(seed, Ordering::Relaxed);
    CASE.store(number, Ordering::Relaxed);
    let outcome = case(seed, number, block, lent, tally, &mut |_| ());
    if let Err(what) = &outcome {
        println!("WRONG: trials call {seed} {number}: {what}");
    }
    outcome.is_ok()
}

// ---- what touches a page that nobody may touch

static SEED: AtomicU64 = AtomicU64::new(0);
static CASE: AtomicU64 = AtomicU64::new(0);

extern "C" {
    fn signal(number: c_int, handler: extern "C" fn(c_int)) -> usize;
    fn _exit(status: c_int) -> !;
}

extern "C" fn faulted(signal: c_int) {
    let (seed, case) = (SEED.load(Ordering::Relaxed), CASE.load(Ordering::Relaxed));
    eprintln!("FAULT: trials call {seed} {case}: signal {signal}, a read or write outside what was lent");
    // Sound: ends the process at once.
    unsafe { _exit(1) }
}

fn watch_for_faults() {
    // SIGSEGV, SIGBUS, SIGILL, SIGTRAP. Sound: the handler uses nothing that the calls could hold.
    for number in [11, 7, 4, 5] {
        unsafe { signal(number, faulted) };
    }
}
