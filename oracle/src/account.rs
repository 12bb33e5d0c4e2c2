// `oracle replay FOLDER`: what the program replay reads and what it must write (crates/replay, whose first
// lines give the form). What a run leaves is the Rust's, with document 01's rules, wherever the tables hold
// what the Rust does, and is checked against the model; refusals, halts and what follows damage are the
// model's.
use crate::files::write;
use crate::model::run::{Report, Started, Told};
use crate::model::state::{Row, State, HEAP, HOMES, INPUTS, MEMBERS, SYNC};
use crate::rust::{Published, WithRules};
use crate::scenes::{scenes, Command, Scene, MOST, MOST_INPUTS};
use crate::tables::{needed_by, Tables};
use crate::text::Start;
use crate::words::lines;

#[derive(Default)]
struct Figures {
    runs: u64,
    events: u64,
    by_the_rust: u64,
    words: u64,
}

pub fn replay(folder: &str) -> Result<(), String> {
    let all = scenes();
    let mut read = vec![all.len() as u64];
    let mut written = String::new();
    let mut figures = Figures::default();
    let mut memory = Tables::cleared(MOST);
    for scene in &all {
        words(scene, &mut read);
        let mut stage = Stage { lent: memory.first(scene.lent), rust: None, figures: &mut figures };
        stage.play(scene, &mut written);
        memory.put_first(&stage.lent);
    }
    write(folder, "stdin", lines(&read))?;
    write(folder, "stdout", written)?;
    let Figures { runs, events, by_the_rust, words } = figures;
    println!(
        "replay: {} starts, {runs} runs, {events} events ({by_the_rust} by the Rust), {words} words",
        all.len()
    );
    Ok(())
}

/// A scene as the program reads it.
fn words(scene: &Scene, out: &mut Vec<u64>) {
    let Start { lengths, periodic, room, grains, .. } = &scene.start;
    assert!(INPUTS * grains.len() <= MOST_INPUTS && scene.lent.iter().zip(MOST).all(|(&n, most)| n <= most));
    out.extend(scene.lent.map(|n| n as u64));
    out.push((INPUTS * grains.len()) as u64);
    out.extend(lengths.map(f64::to_bits));
    out.extend(periodic.map(u64::from));
    out.extend([scene.count, *room]);
    out.extend(grains.iter().flatten().map(|x| x.to_bits()));
    for command in &scene.commands {
        match *command {
            Command::Runs { rate, budget, times } => {
                out.extend([1, rate.to_bits(), u64::from(budget), times])
            }
            Command::Put { table, place, word } => out.extend([2, table, place as u64, word]),
            Command::Show => out.push(3),
        }
    }
    out.push(0);
}

/// One start and what follows it.
struct Stage<'a> {
    lent: Tables,
    rust: Option<WithRules>,
    figures: &'a mut Figures,
}

impl Stage<'_> {
    fn play(&mut self, scene: &Scene, out: &mut String) {
        *out += &self.start(scene);
        self.close(out);
        for command in &scene.commands {
            match *command {
                Command::Runs { rate, budget, times } => {
                    for _ in 0..times {
                        let report = self.run(rate, budget);
                        self.figures.runs += 1;
                        self.figures.events += report.events;
                        *out += &told(report);
                        self.close(out);
                    }
                }
                Command::Put { table, place, word } => self.put(table, place, word),
                Command::Show => {
                    show(&self.lent, out);
                    self.close(out);
                }
            }
        }
    }

    /// The checksum ends a line.
    fn close(&mut self, out: &mut String) {
        let words: Vec<u64> = parts(&self.lent).concat();
        self.figures.words += words.len() as u64;
        *out += &format!(" {:x}\n", words.into_iter().fold(1, taken));
    }

    fn start(&mut self, scene: &Scene) -> String {
        let start = &scene.start;
        let short = || scene.lent.iter().zip(needed_by(start)).any(|(&has, needs)| has < needs);
        match start.model() {
            Started::Refused(number @ (1 | 2), _) => format!("refused {number:x}"),
            _ if scene.count > start.grains.len() as u64 || short() => "refused 2".into(),
            Started::Refused(_, grain) => format!("grain {:x}", grain.expect("4 names a grain")),
            Started::Done(s) => {
                self.lent = Tables::cleared(scene.lent);
                self.lent.write(&s);
                if s.mark != 0 {
                    return format!("halted {:x}", s.mark);
                }
                self.rust = Some(WithRules::start(start));
                assert!(self.as_the_rust(&s), "the Rust's start is another");
                "accepted".into()
            }
        }
    }

    /// If the Rust holds the same.
    fn as_the_rust(&self, s: &State) -> bool {
        let same = |rust: &WithRules| Tables::of(&whole(rust.picture(), s.room)) == Tables::of(s);
        self.rust.as_ref().is_some_and(same)
    }

    fn run(&mut self, rate: f64, budget: u32) -> Report {
        let Some(mut s) = self.lent.read() else {
            return Report { told: Told::Refused(2), clock: 0., events: 0 };
        };
        let along = self.as_the_rust(&s);
        let report = s.run(rate, budget);
        if matches!(report.told, Told::Refused(_)) || !along {
            self.lent.write(&s);
            return report;
        }
        let rust = self.rust.as_mut().expect("it runs along");
        let by_rust = rust_run(rust, rate, budget);
        self.lent.write(&whole(rust.picture(), s.room));
        assert!(by_rust.same(&report) && self.as_the_rust(&s), "the Rust's run is another");
        self.figures.by_the_rust += by_rust.events;
        by_rust
    }

    fn put(&mut self, table: u64, place: usize, word: u64) {
        match table {
            0 => self.lent.lists[place] = word,
            1 => self.lent.grains[place] = f64::from_bits(word),
            2 => self.lent.queue[place] = word,
            3 => self.lent.events[place] = f64::from_bits(word),
            _ => self.lent.order[place] = word as u8,
        }
    }
}

/// A run of the Rust: its next event stands at the head of the first cell of its heap.
fn rust_run(rust: &mut WithRules, rate: f64, budget: u32) -> Report {
    let mut told = Told::Spent;
    let mut events = 0;
    while told == Told::Spent && events < u64::from(budget) {
        let before = rust.picture();
        if before.queues[before.heap[0] as usize].live()[0].kind == SYNC {
            told = Told::Synchronised;
        }
        rust.step(rate);
        events += 1;
    }
    Report { told, clock: rust.picture().clock, events }
}

/// A picture with all its places: those not in use are zero.
fn whole(picture: State, room: u64) -> State {
    fn padded<T: Clone + Default>(mut row: Row<T>, places: usize) -> Row<T> {
        row.places.resize(places, T::default());
        row
    }
    let numbers = |rows: Vec<Row<u64>>, places| rows.into_iter().map(|r| padded(r, places)).collect();
    let all = |mut list: Vec<u64>| {
        list.resize(HEAP, 0);
        list
    };
    State {
        room,
        homes: numbers(picture.homes, HOMES),
        members: numbers(picture.members, MEMBERS),
        queues: picture.queues.into_iter().map(|r| padded(r, room as usize)).collect(),
        heap: all(picture.heap),
        look: all(picture.look),
        ..picture
    }
}

// ---- what is written

fn told(report: Report) -> String {
    let (clock, events) = (report.clock.to_bits(), report.events);
    match report.told {
        Told::Synchronised => format!("synchronised {clock:x} {events:x}"),
        Told::Spent => format!("spent {clock:x} {events:x}"),
        Told::Refused(number) => format!("refused {number:x} {clock:x} {events:x}"),
    }
}

/// A word goes into a checksum, low half first: a multiplication with carry.
fn taken(sum: u64, word: u64) -> u64 {
    let half = |sum: u64, half: u64| sum % (1 << 32) * 67_108_794 + (sum >> 32) + half;
    half(half(sum, word % (1 << 32)), word >> 32)
}

/// Every place as a word; the program has one pattern for every float that is not a number.
fn parts(t: &Tables) -> [Vec<u64>; 5] {
    let one_nan = |w: &mut u64| {
        if f64::from_bits(*w).is_nan() {
            *w = 0x7FF8_0000_0000_0000;
        }
    };
    let mut parts = t.parts();
    for floats in [1, 3] {
        parts[floats].iter_mut().for_each(one_nan);
    }
    parts
}

fn show(t: &Tables, out: &mut String) {
    for (name, words) in ["lists", "grains", "queue", "events", "order"].iter().zip(parts(t)) {
        *out += &format!("{name}\n");
        for (place, word) in words.iter().enumerate().filter(|(_, &word)| word != 0) {
            *out += &format!(" {place:x} {word:x}\n");
        }
    }
    *out += "all";
}
