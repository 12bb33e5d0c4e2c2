// The starts that the program replay makes (crates/replay), each with the tables lent to it and the commands
// behind it.
use crate::crafted::{checks, crafted, crafted_radii, radius_checks, sound, Answer, Check, Crafted};
use crate::known::{fast, grain, lattice, meeting, still, PERIODIC};
use crate::model::run::{LARGEST_RATE, LEAST_RATE};
use crate::radii::Radii;
use crate::random::Random;
use crate::tables::{needed, needed_by, Tables, GRAIN, GRAINS_HEAD};
use crate::text::Start;

pub enum Command {
    /// So many runs, one after another.
    Runs { rate: f64, budget: u32, times: u64 },
    /// A place of a table, 0 to 4, is overwritten.
    Put { table: u64, place: usize, word: u64 },
    /// Every place that is not zero is shown.
    Show,
}

use Command::{Put, Runs, Show};

pub struct Scene {
    pub start: Start,
    /// Grains asked for; there may be fewer.
    pub count: u64,
    /// Lengths of the tables lent.
    pub lent: [usize; 5],
    pub commands: Vec<Command>,
}

/// As much as the program can lend, and as many inputs as it can read.
pub const MOST: [usize; 5] = [10768, 2048, 33040, 81936, 520];
pub const MOST_INPUTS: usize = 1560;

const WALLS: [bool; 2] = [false, false];
const MIXED: [bool; 2] = [true, false];

/// The tables are not cleared between the scenes: starts that are refused come upon those of ordinary motion,
/// and the runs behind them go on with it. Those of other radii than 0.5 come last.
pub fn scenes() -> Vec<Scene> {
    let mut all = ordinary();
    all.extend(crafted().into_iter().flat_map(followed));
    all.extend(short());
    all.extend([other_rates(), damaged(), altered(), other_counts()]);
    all.extend(other_radii());
    all.extend(crafted_radii().into_iter().flat_map(followed));
    all.push(damaged_radii());
    all.extend([0.3, 3.7, 0., -0.25, 1e300].map(altered_radius));
    all
}

/// A crafted start: refused, halted, or halted in its runs.
fn followed(c: Crafted) -> Vec<Scene> {
    match c.answer {
        Answer::Refused(..) => vec![refused(c.start)],
        Answer::HaltedAtStart(_) => vec![halted(c.start, 1, 1)],
        Answer::Halted { events, .. } if events > 5 => {
            vec![halted(c.start.clone(), 1, events + 1), halted(c.start, 1000, events)]
        }
        Answer::Halted { events, .. } => vec![halted(c.start, 1, events + 1)],
    }
}

fn runs(rate: f64, budget: u32, times: u64) -> Command {
    Runs { rate, budget, times }
}

/// A start that has a few places more than it needs in each table.
fn scene(start: Start, commands: Vec<Command>) -> Scene {
    let wants = needed_by(&start);
    let lent = std::array::from_fn(|table| wants[table] + 3 + table);
    Scene { count: start.grains.len() as u64, lent, start, commands }
}

/// A start that is refused, with all the tables lent.
fn refused(start: Start) -> Scene {
    let commands = vec![runs(start.rate, 1, 2)];
    Scene { count: start.grains.len() as u64, lent: MOST, start, commands }
}

/// A start that halts, or whose runs do; and runs behind it, with no rate, with another rate and budget.
fn halted(start: Start, budget: u32, times: u64) -> Scene {
    let again = [runs(f64::NAN, 1, 1), runs(0.3, 1000, 1), runs(0.3, 0, 1), Show];
    let commands = [runs(start.rate, budget, times)].into_iter().chain(again).collect();
    scene(start, commands)
}

/// Starts refused by 2 because a table is one place too short, or the inputs are.
fn short() -> Vec<Scene> {
    let start = Start::small(MIXED, 16, &[grain(4.1, 4.7, 0.3, 0.2)]);
    let mut all = Vec::new();
    for table in 0..5 {
        let mut short = scene(start.clone(), vec![]);
        short.lent[table] -= 4 + table;
        all.push(short);
    }
    all.push(Scene { count: 2, ..scene(start.clone(), vec![]) });
    all.push(Scene { count: u64::MAX, ..scene(start, vec![]) });
    all
}

/// Runs of one event and of more, at several rates.
fn plan(rate: f64) -> Vec<Command> {
    vec![
        runs(rate, 1, 120),
        runs(rate, 0, 1),
        runs(rate / 7.3, 1, 60),
        runs(LEAST_RATE, 2, 5),
        runs(rate * 1.7, 5, 12),
        runs(rate, 1, 60),
        runs(rate, 1000, 3),
        runs(LARGEST_RATE, 40, 2),
    ]
}

fn shown(commands: Vec<Command>) -> Vec<Command> {
    [Show].into_iter().chain(commands).chain([Show]).collect()
}

/// Grains of radius 0.5 that do not touch, at odd places and speeds.
fn drawn(seed: u64, lengths: [f64; 2], periodic: [bool; 2], room: u64, grains: usize) -> Start {
    sized(Radii::Half, seed, lengths, periodic, room, grains)
}

/// The same with other radii.
fn sized(radii: Radii, seed: u64, lengths: [f64; 2], periodic: [bool; 2], room: u64, grains: usize) -> Start {
    let mut random = Random(seed);
    let columns = lengths.map(|l| (l / 1.2) as u64);
    let mut sites: Vec<[u64; 2]> =
        (0..columns[1]).flat_map(|j| (0..columns[0]).map(move |i| [i, j])).collect();
    let place = |_| {
        let site = sites.swap_remove(random.below(sites.len() as u64) as usize);
        let [x, y] = [0, 1].map(|dim| {
            let pitch = lengths[dim] / columns[dim] as f64;
            pitch * (site[dim] as f64 + 0.5) + random.between(-0.5, 0.5) * (pitch - 1.01)
        });
        let [vx, vy, val] = [-1., -1., 0.].map(|least| random.between(least, 1.));
        [x, y, vx, vy, val, radii.draw(&mut random)]
    };
    Start {
        lengths,
        periodic,
        rate: 40. / (grains + 4) as f64,
        room,
        grains: (0..grains).map(place).collect(),
    }
}

/// A start with few runs, and with many: shown never, at their end, before them and at their end.
fn few(start: Start) -> Scene {
    scene(start, shown(vec![runs(0.7, 1, 4), runs(LARGEST_RATE, 9, 2)]))
}

fn many(start: Start) -> Scene {
    let commands = plan(start.rate);
    scene(start, commands)
}

fn ends(start: Start) -> Scene {
    let commands = plan(start.rate).into_iter().chain([Show]).collect();
    scene(start, commands)
}

fn seen(start: Start) -> Scene {
    let commands = shown(plan(start.rate));
    scene(start, commands)
}

/// Ordinary motion, and round numbers on purpose.
fn ordinary() -> Vec<Scene> {
    vec![
        few(Start::small(PERIODIC, 16, &[])),
        few(still()),
        seen(drawn(1, [9., 9.], PERIODIC, 16, 1)),
        seen(drawn(2, [9., 9.], WALLS, 16, 1)),
        seen(drawn(3, [9., 9.], PERIODIC, 64, 2)),
        seen(drawn(4, [11.3, 9.7], MIXED, 64, 2)),
        seen(fast()),
        scene(lattice(), shown(vec![runs(1., 1, 30)])),
        seen(drawn(5, [9., 12.], [false, true], 64, 8)),
        many(drawn(6, [9., 9.], WALLS, 256, 32)),
        many(drawn(7, [17.3, 14.9], PERIODIC, 64, 32)),
        ends(drawn(8, [48., 9.], MIXED, 64, 32)),
        many(drawn(9, [9.4, 47.9], PERIODIC, 32, 40)),
        many(drawn(10, [24., 24.], WALLS, 64, 120)),
        many(drawn(11, [23.7, 24.2], MIXED, 64, 150)),
        many(drawn(23, [48., 48.], WALLS, 32, 256)),
        many(drawn(13, [24.9, 22.1], PERIODIC, 64, 8)),
    ]
}

/// Ordinary motion of grains of three sizes and of any radii.
fn other_radii() -> Vec<Scene> {
    vec![
        seen(sized(Radii::Three, 31, [9., 9.], PERIODIC, 64, 3)),
        seen(sized(Radii::Any, 32, [9.8, 11.1], WALLS, 64, 3)),
        seen(sized(Radii::Any, 33, [11.3, 9.7], MIXED, 64, 8)),
        many(sized(Radii::Three, 34, [9., 9.], WALLS, 128, 32)),
        ends(sized(Radii::Three, 35, [17.3, 14.9], PERIODIC, 64, 32)),
        many(sized(Radii::Any, 36, [23.7, 24.2], MIXED, 32, 120)),
        many(sized(Radii::Any, 37, [14.1, 12.3], WALLS, 64, 40)),
    ]
}

/// Rates out of range change nothing, and the runs go on behind them.
fn other_rates() -> Scene {
    let wrong =
        [0., -1., LEAST_RATE.next_down(), LARGEST_RATE.next_up(), f64::NAN, f64::INFINITY, f64::NEG_INFINITY];
    let mut commands = vec![runs(0.9, 1, 5)];
    commands.extend(wrong.map(|rate| runs(rate, 1, 1)));
    commands.push(runs(f64::NAN, 0, 1));
    commands.push(runs(0.9, 1, 5));
    scene(meeting(), shown(commands))
}

/// What makes the first tables the second; they are of the same lengths.
fn changes(from: &Tables, to: &Tables) -> Vec<Command> {
    let mut all = Vec::new();
    for (table, (from, to)) in from.parts().iter().zip(to.parts()).enumerate() {
        for (place, word) in to.into_iter().enumerate().filter(|&(place, word)| from[place] != word) {
            all.push(Put { table: table as u64, place, word });
        }
    }
    all
}

/// A sound state is damaged in one way after another, tried, and put right again; and then goes on.
fn damaged() -> Scene {
    let mut commands = tried(checks());
    // what is not in use, and what lies beyond the needed length, may be anything
    commands.push(Put { table: 0, place: 6 + 8, word: 77 });
    commands.push(Put { table: 4, place: 513, word: 77 });
    commands.push(runs(0.9, 1, 10));
    scene(meeting(), shown(commands))
}

/// The same for radii that are not finite.
fn damaged_radii() -> Scene {
    scene(meeting(), shown(tried(radius_checks())))
}

/// Each of these states put into the tables of a sound one, a run of it, and the sound one again; then runs of that.
fn tried(checks: Vec<Check>) -> Vec<Command> {
    let whole = Tables::of(&sound());
    let mut commands = vec![runs(1., 1, 1), runs(1., 2, 1)];
    for (_, state, rate, _) in checks {
        let broken = Tables::of(&state);
        if broken.lengths() == whole.lengths() {
            commands.extend(changes(&whole, &broken));
            commands.push(runs(rate, 5, 2));
            commands.extend(changes(&broken, &whole));
        }
    }
    commands.push(runs(0.9, 1, 20));
    commands
}

/// A grain's velocity is changed to another finite one: the run goes on, and halts by 5 at the end.
fn altered() -> Scene {
    let velocity = |word: f64| Put { table: 1, place: 3 + 2, word: word.to_bits() };
    let commands =
        vec![runs(0.9, 1, 5), velocity(-0.125), runs(0.9, 1, 30), velocity(f64::MAX), runs(0.9, 1, 10)];
    scene(meeting(), shown(commands))
}

/// A grain's radius is changed to another finite one, in range or not: the run goes on, and may halt.
fn altered_radius(rad: f64) -> Scene {
    let radius = Put { table: 1, place: GRAINS_HEAD + GRAIN - 1, word: rad.to_bits() };
    scene(meeting(), vec![runs(0.9, 1, 5), radius, runs(0.9, 1, 15), Show])
}

/// Counts that the tables hold, out of range or in it: 2 where the tables are too short for them too, otherwise
/// 10. The last of each is the right one.
fn other_counts() -> Scene {
    let counts = [
        (1, vec![257, u64::MAX, 256, 1, 2]),
        (2, vec![8, 257, 200, 12, 9]),
        (3, vec![15, 257, 256, 0, 16, 17, 64]),
    ];
    let mut commands = Vec::new();
    for (place, words) in counts {
        for word in words {
            commands.push(Put { table: 0, place, word });
            commands.push(runs(0.9, 1, 1));
        }
    }
    let lent = needed(3, 12, 64);
    Scene { lent, ..scene(meeting(), commands) }
}
