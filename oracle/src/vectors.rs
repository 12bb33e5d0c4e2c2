// `oracle vectors FOLDER`: whole runs and refusals for other programs to replay, as start texts and dumps (text.rs). What a run
// leaves was found by the Rust with document 01's rules and the model alike, halts and refusals are the model's.
//
//   traces/N.start, traces/N.dumps         a start text; its dumps after events 0, 1, 2 and so on
//   refusals/N.start, refusals/N.answer    a start text; `refused ..`, or the halted dump
//   refusals/10.state and 10-N.state       the dump of a state that breaks a standing fact
use crate::crafted::{all_crafted, answer, Answer};
use crate::files::write;
use crate::known::{correction, fast, grain, lattice, sized, still};
use crate::model::state::State;
use crate::text::{dump, Start};
use crate::walk::walk;

pub fn vectors(folder: &str) -> Result<(), String> {
    for (name, start, events) in traces() {
        let mut dumps = String::new();
        walk(&start, events, |_, state| dumps += &dump(state));
        write(folder, &format!("traces/{name}.start"), start.write())?;
        write(folder, &format!("traces/{name}.dumps"), dumps)?;
    }
    for (name, start, told) in refusals() {
        write(folder, &format!("refusals/{name}.start"), start.write())?;
        write(folder, &format!("refusals/{name}.answer"), told)?;
    }
    for (name, start, broken) in unsound() {
        write(folder, &format!("refusals/{name}.start"), start.write())?;
        write(folder, &format!("refusals/{name}.state"), broken)?;
        write(folder, &format!("refusals/{name}.answer"), "refused 10\n")?;
    }
    Ok(())
}

// ---- whole runs

/// Small boxes, each with what it is for, and how many events are followed.
fn traces() -> Vec<(&'static str, Start, u64)> {
    let pair = [[2.1, 4.3, 0.7, 0.1, 0.25, 0.5], [4.9, 4.6, -0.6, 0.05, 0.75, 0.5]];
    let three = [pair[0], pair[1], [7.3, 1.2, -0.31, -0.83, 0., 0.5]];
    let odd =
        Start { lengths: [12.25, 9.5], periodic: [true, false], rate: 0.5, room: 32, grains: three.to_vec() };
    vec![
        ("empty", Start::small([true, true], 16, &[]), 3),
        ("still", still(), 3),
        ("periodic", Start::small([true, true], 64, &three), 30),
        ("walls", Start::small([false, false], 64, &three), 30),
        ("walls-in-y", Start::small([true, false], 64, &pair), 25),
        ("touching", lattice(), 20),
        ("odd-lengths", odd, 25),
        ("correction", correction(), 12),
        ("fast", fast(), 20),
        ("three-sizes", three_sizes(), 30),
        ("odd-radii", odd_radii(), 30),
        ("at-the-wall", at_the_wall(), 12),
    ]
}

/// Grains of three sizes in a periodic box, which meet.
fn three_sizes() -> Start {
    let grains = [
        [2.137, 4.311, 0.713, 0.109, 0.25, 0.25],
        [4.923, 4.627, -0.617, 0.053, 0.75, 0.35],
        [7.319, 1.231, -0.313, -0.829, 0., 0.5],
        [1.713, 7.917, 0.271, -0.537, 0.5, 0.25],
    ];
    Start::small([true, true], 64, &grains)
}

/// Grains of odd radii, between walls in one direction of a box with odd lengths.
fn odd_radii() -> Start {
    let grains = vec![
        [0.913, 3.217, 0.827, 0.213, 0.125, 0.2731],
        [3.371, 3.793, -0.611, 0.117, 0.75, 0.4117],
        [9.631, 8.273, 0.453, -0.717, 1., 0.3333],
    ];
    Start { lengths: [10.37, 9.91], periodic: [false, true], rate: 0.75, room: 32, grains }
}

/// Grains that touch both walls exactly at the start, by their own radii.
fn at_the_wall() -> Start {
    let grains = [sized(9. - 0.3, 2.217, -0.613, 0.171, 0.3), sized(0.35, 6.731, 0.517, 0.271, 0.35)];
    Start::small([false, true], 16, &grains)
}

// ---- refusals

/// Each crafted start with its answer in the dump format, under its own name.
fn refusals() -> Vec<(String, Start, String)> {
    let mut all = Vec::new();
    for c in all_crafted() {
        let told = match answer(&c.start) {
            Some((Answer::Refused(number, Some(grain)), _)) => format!("refused {number} {grain}\n"),
            Some((Answer::Refused(number, None), _)) => format!("refused {number}\n"),
            Some((_, Some(state))) => dump(&state),
            _ => unreachable!("crafted to be refused"),
        };
        let words: Vec<&str> =
            c.name.split(|b: char| !b.is_alphanumeric()).filter(|w| !w.is_empty()).collect();
        all.push((words.join("-"), c.start, told));
    }
    let start = Start { rate: 2f64.powi(-21), ..Start::small([true, true], 16, &[]) };
    all.push(("3-rate".into(), start, "refused 3\n".into()));
    all
}

/// A start, and its state with two lookups exchanged, or with a radius that is none.
fn unsound() -> [(&'static str, Start, String); 2] {
    let damaged = |name, change: fn(&mut State)| {
        let start = Start::small([true, true], 16, &[grain(4.5, 4.5, 0., 0.)]);
        let mut state = start.accepted();
        change(&mut state);
        (name, start, dump(&state))
    };
    [
        damaged("10", |s| s.look.swap(3, 4)),
        damaged("10-radius-not-finite", |s| s.grains[0].rad = f64::INFINITY),
    ]
}
