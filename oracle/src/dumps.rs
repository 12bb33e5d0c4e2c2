// `oracle dump`: the state after the wanted numbers of events, and where the run leaves the domain.
use crate::domain::Watch;
use crate::rust::{AsPublished, Published, WithRules};
use crate::text::{dump, Start};
use std::panic::{catch_unwind, AssertUnwindSafe};

pub fn dumps(of: &str, wanted: &[u64], text: &str) -> Result<(), String> {
    let start = Start::read(text)?;
    match Watch::start(&start) {
        Err((number, Some(grain))) => println!("refused {number} {grain}"),
        Err((number, None)) => println!("refused {number}"),
        Ok(watch) => match of {
            "model" => of_model(watch, &start, wanted),
            "rules" => of_rust::<WithRules>(watch, &start, wanted),
            "published" => of_rust::<AsPublished>(watch, &start, wanted),
            _ => return Err("dump of published, rules or model".into()),
        },
    }
    Ok(())
}

/// Where the domain was left, if it was, and where the model halted, if that was later.
fn tell(watch: &Watch) {
    let events = watch.events;
    match watch.left {
        Some((at, cause)) => eprintln!("left the domain at event {at}: {cause}"),
        None => eprintln!("inside the domain up to event {events}"),
    }
    if watch.halted() && watch.left.is_some_and(|(at, _)| at < events) {
        eprintln!("document 01 halts at event {events}: refusal {}", watch.state.mark);
    }
}

/// The model's dumps; a halt is dumped once and ends them.
fn of_model(mut watch: Watch, start: &Start, wanted: &[u64]) {
    for &events in wanted {
        while watch.events < events && !watch.halted() {
            watch.step(start.rate);
        }
        print!("{}", dump(&watch.state));
        if watch.halted() {
            break;
        }
    }
    tell(&watch);
}

/// The Rust's dumps. It has no refusals and goes on where the model halts, unless it panics.
fn of_rust<S: Published>(mut watch: Watch, start: &Start, wanted: &[u64]) {
    std::panic::set_hook(Box::new(|_| {}));
    let Ok(mut rust) = catch_unwind(|| S::start(start)) else {
        eprintln!("the Rust panics at the start");
        return tell(&watch);
    };
    let mut done = 0;
    for &events in wanted {
        while done < events {
            watch.step(start.rate);
            done += 1;
            if catch_unwind(AssertUnwindSafe(|| rust.step(start.rate))).is_err() {
                eprintln!("the Rust panics in event {done}");
                return tell(&watch);
            }
        }
        print!("{}", dump(&rust.picture()));
    }
    tell(&watch);
}
