//! Prints the state of a simulation after the wanted numbers of events, as the oracle's dumps have it.
mod dump;
mod start;

use fesolopi::{Error, Simulation};
use std::io::{Read, Write};

const USAGE: &str = "usage: trace [--split[=SEED]] [--state FILE] [EVENTS..]
  start text on standard input; dumps on standard output after those numbers of events, ascending
  --split   make each way in runs of random budgets; the dumps are the same
  --state   put the state of a dump in the place of the start's";

/// How the events to the next dump are divided among runs.
enum Split {
    /// As few runs as can be.
    Whole,
    /// Random budgets, by a generator's state.
    Random(u64),
}

struct Wanted {
    split: Split,
    state: Option<String>,
    events: Vec<u64>,
}

fn main() {
    if let Err(message) = trace() {
        eprintln!("{message}");
        std::process::exit(1);
    }
}

fn trace() -> Result<(), String> {
    let wanted = arguments()?;
    let mut text = String::new();
    std::io::stdin().read_to_string(&mut text).map_err(|e| e.to_string())?;
    let start = start::Start::read(&text)?;
    let out = answer(&start, wanted)?;
    std::io::stdout().write_all(out.as_bytes()).map_err(|e| e.to_string())
}

fn arguments() -> Result<Wanted, String> {
    let mut wanted = Wanted { split: Split::Whole, state: None, events: Vec::new() };
    let mut words = std::env::args().skip(1);
    while let Some(word) = words.next() {
        match word.split_once('=') {
            Some(("--split", seed)) => wanted.split = Split::Random(number(seed)?),
            None if word == "--split" => wanted.split = Split::Random(1),
            None if word == "--state" => {
                let path = words.next().ok_or(USAGE)?;
                wanted.state = Some(std::fs::read_to_string(&path).map_err(|e| format!("{path}: {e}"))?);
            }
            _ => wanted.events.push(number(&word)?),
        }
    }
    if !wanted.events.is_sorted() {
        return Err(USAGE.into());
    }
    Ok(wanted)
}

fn number(word: &str) -> Result<u64, String> {
    word.parse().map_err(|_| USAGE.into())
}

/// The dumps, or the refusal. A halted state is dumped once and ends them.
fn answer(start: &start::Start, wanted: Wanted) -> Result<String, String> {
    let mut simulation = match Simulation::start(&start.domain, start.room, &start.grains) {
        Ok(simulation) => simulation,
        Err(error) => return Ok(refused(error)),
    };
    if let Some(text) = &wanted.state {
        let mut tables = simulation.into_tables();
        dump::put(text, &mut tables)?;
        simulation = Simulation::from_tables(tables);
    }
    let mut split = wanted.split;
    let mut out = String::new();
    let mut done = 0;
    for events in wanted.events {
        while done < events && simulation.halted().is_none() {
            match simulation.run(start.rate, split.budget(events - done)) {
                Ok(report) => done += report.events,
                Err(Error::Halted { .. }) => {}
                Err(error) => return Ok(out + &refused(error)),
            }
        }
        dump::write(&simulation, &mut out);
        if simulation.halted().is_some() {
            break;
        }
    }
    Ok(out)
}

fn refused(error: Error) -> String {
    match error {
        Error::Grain { lowest } => format!("refused 4 {lowest}\n"),
        error => format!("refused {}\n", error.number()),
    }
}

impl Split {
    /// The budget of the next run, where so many events are still to be done.
    fn budget(&mut self, rest: u64) -> u32 {
        let most = u32::try_from(rest).unwrap_or(u32::MAX);
        let Split::Random(state) = self else { return most };
        *state = state.wrapping_mul(6364136223846793005).wrapping_add(1442695040888963407);
        let (width, bits) = (*state >> 32 & 15, *state >> 36);
        ((bits & ((1 << width) - 1)) as u32).min(most)
    }
}
