//! Tables that no start gives: refused by 2 or 10 with nothing changed, and read without a panic.
use fesolopi::tables::{FLOATS, HEAP, HOMES, LISTS_HEAD, MEMBERS, NUMBERS};
use fesolopi::{Domain, Error, Grain, Simulation, Tables};

const ROOM: usize = 16;

/// Two grains in a box with walls in y, after three events.
fn sound() -> Tables {
    let domain = Domain { lengths: [9., 9.], periodic: [true, false] };
    let grains = [
        Grain { position: [1.25, 4.75], velocity: [0.5, 0.25], value: 0.5, rad: 0.5 },
        Grain { position: [6.1, 4.6], velocity: [-0.75, 0.3], value: 0.5, rad: 0.5 },
    ];
    let mut simulation = Simulation::start(&domain, ROOM as u64, &grains).unwrap();
    simulation.run(1., 1).unwrap();
    simulation.run(1., 2).unwrap();
    simulation.into_tables()
}

/// A run's answer, which must leave the tables as they were.
fn answer(tables: Tables, rate: f64) -> Result<(), Error> {
    let mut simulation = Simulation::from_tables(tables.clone());
    let told = simulation.run(rate, 0);
    assert_eq!(simulation.tables(), &tables);
    told.map(|_| ())
}

fn changed(change: impl Fn(&mut Tables)) -> Tables {
    let mut tables = sound();
    change(&mut tables);
    tables
}

/// Where the lists of the grains and of the cells begin.
const GRAINS: usize = LISTS_HEAD;
const CELLS: usize = LISTS_HEAD + 2 * (1 + HOMES);

/// Where the numbers and the floats of an event begin that is the first of several.
fn event(t: &Tables) -> (usize, usize) {
    let width = 1 + NUMBERS * ROOM;
    let cell = (1..9).find(|c| t.queue[c * width] > 1).unwrap();
    (cell * width + 1, cell * FLOATS * ROOM)
}

#[test]
fn a_standing_fact_broken() {
    assert_eq!(answer(sound(), 1.), Ok(()));
    let (numbers, floats) = event(&sound());
    let cases: Vec<(&str, Tables)> = vec![
        ("a mark that is none", changed(|t| t.lists[0] = 4)),
        ("a mark past nine", changed(|t| t.lists[0] = 10)),
        ("a length out of range", changed(|t| t.grains[0] = 8.5)),
        ("a length that is none", changed(|t| t.grains[1] = f64::NAN)),
        ("cells of another box", changed(|t| t.grains[0] = 12.)),
        ("a flag that is none", changed(|t| t.lists[5] = 2)),
        ("a list count past its places", changed(|t| t.lists[GRAINS] = 9)),
        ("a list count near the largest", changed(|t| t.lists[CELLS] = u64::MAX)),
        ("an event count past its places", changed(|t| t.queue[0] = 17)),
        ("a cell number past the cells", changed(|t| t.lists[GRAINS + 1] = 9)),
        ("a grain in no cell", changed(|t| t.lists[GRAINS] = 0)),
        ("a grain number past the grains", changed(|t| t.lists[CELLS + (1 + MEMBERS) * 3 + 1] = 2)),
        ("a value not finite", changed(|t| t.grains[8] = f64::INFINITY)),
        ("a radius not finite", changed(|t| t.grains[9] = f64::NEG_INFINITY)),
        ("a radius that is none", changed(|t| t.grains[16] = f64::NAN)),
        ("a clock not finite", changed(|t| t.grains[2] = f64::NAN)),
        ("a clock past an event", changed(|t| t.grains[2] = 1e9)),
        ("a grain ahead of the clock", changed(|t| t.grains[7] = t.grains[2].next_up())),
        ("heap and lookups not inverse", changed(|t| t.order.swap(HEAP, HEAP + 1))),
        ("a heap place past the cells", changed(|t| t.order[3] = 9)),
        ("a second synchronisation", changed(|t| t.queue[numbers] = 5)),
        ("a kind that is none", changed(|t| t.queue[numbers] = 6)),
        ("an event's grain past the grains", changed(|t| t.queue[numbers + 1] = 2)),
        ("an event out of order", changed(|t| t.events[floats] = 1e9)),
        ("an event's float not finite", changed(|t| t.events[floats + 8] = f64::NAN)),
        ("no synchronisation", changed(|t| t.queue[1..5].fill(0))),
    ];
    for (name, tables) in cases {
        assert_eq!(answer(tables.clone(), 1.), Err(Error::Fact), "{name}");
        // 3 comes before 10
        assert_eq!(answer(tables, 0.), Err(Error::Rate), "{name}");
    }
}

#[test]
fn a_stored_radius_may_be_any_finite_one() {
    for rad in [0., -0., -0.25, 3.7, 1e300, f64::MAX] {
        assert_eq!(answer(changed(|t| t.grains[9] = rad), 1.), Ok(()));
    }
}

#[test]
fn a_heap_out_of_order() {
    let tables = changed(|t| {
        t.order.swap(0, 8);
        let (first, last) = (t.order[0] as usize, t.order[8] as usize);
        (t.order[HEAP + first], t.order[HEAP + last]) = (0, 8);
    });
    assert_eq!(answer(tables, 1.), Err(Error::Fact));
}

#[test]
fn counts_out_of_range_and_tables_too_short() {
    for (place, bad) in [(1, 257), (2, 8), (2, 257), (3, 15), (3, 257), (1, u64::MAX), (3, 1 << 62)] {
        assert_eq!(answer(changed(|t| t.lists[place] = bad), 1.), Err(Error::Count));
        // 2 comes before the mark and before 3
        let marked = changed(|t| (t.lists[place], t.lists[0]) = (bad, 9));
        assert_eq!(answer(marked, f64::NAN), Err(Error::Count));
    }
    let shorter: [fn(&mut Tables); 5] = [
        |t| t.lists.truncate(t.lists.len() - 1),
        |t| t.grains.truncate(t.grains.len() - 1),
        |t| t.queue.truncate(t.queue.len() - 1),
        |t| t.events.truncate(t.events.len() - 1),
        |t| t.order.truncate(t.order.len() - 1),
    ];
    for short in shorter {
        assert_eq!(answer(changed(short), 1.), Err(Error::Count));
    }
    assert_eq!(answer(Tables::default(), 1.), Err(Error::Count));
}

#[test]
fn what_is_longer_than_needed_is_left_alone() {
    let tables = changed(|t| {
        t.lists.push(7);
        t.grains.push(f64::NAN);
        t.queue.push(u64::MAX);
        t.events.push(-0.);
        t.order.push(255);
    });
    let mut longer = Simulation::from_tables(tables);
    let mut exact = Simulation::from_tables(sound());
    for _ in 0..20 {
        assert_eq!(longer.run(1., 7), exact.run(1., 7));
    }
    let mut tables = longer.into_tables();
    assert_eq!(
        (tables.lists.pop(), tables.queue.pop(), tables.order.pop()),
        (Some(7), Some(u64::MAX), Some(255))
    );
    assert!(tables.grains.pop().unwrap().is_nan());
    assert_eq!(tables.events.pop().map(f64::to_bits), Some((-0f64).to_bits()));
    assert_eq!(&tables, exact.tables());
}

/// Reads all that there is to read, and counts it.
fn read_all(s: &Simulation) -> usize {
    let few = |n: u64| (0..n.min(300)).chain([n, u64::MAX / 9, u64::MAX - 1, u64::MAX]);
    let grains: usize = few(s.count()).map(|g| s.cells_of(g).len() + s.grain(g).iter().count()).sum();
    let events = |c| s.pending(c).count() + s.head_time(c).iter().count();
    let cells: usize = few(s.cells()).map(|c| s.grains_of(c).len() + events(c)).sum();
    std::hint::black_box((s.domain(), s.clock(), s.mark(), s.room(), s.halted()));
    grains + cells + s.grains().count() + s.heap().len() + s.lookups().len()
}

#[test]
fn every_word_changed() {
    let tables = sound();
    let numbers = [0, 1, 2, 8, 9, 32, 33, 256, 1 << 32, u64::MAX / 4, u64::MAX];
    let floats = [0., -0., 1., -1e300, f64::MAX, f64::INFINITY, f64::NAN];
    let mut answers = [0; 11];
    let mut tried = |t: Tables| {
        let read = read_all(&Simulation::from_tables(t.clone()));
        assert!(read < 10_000, "{read}");
        answers[answer(t, 1.).map_or_else(|e| e.number() as usize, |_| 0)] += 1;
    };
    for place in 0..tables.lists.len() {
        for bad in numbers {
            tried(changed_in(&tables, |t| t.lists[place] = bad));
        }
    }
    for place in 0..tables.queue.len() {
        for bad in numbers {
            tried(changed_in(&tables, |t| t.queue[place] = bad));
        }
    }
    for place in 0..tables.grains.len() {
        for bad in floats {
            tried(changed_in(&tables, |t| t.grains[place] = bad));
        }
    }
    for place in 0..tables.events.len() {
        for bad in floats {
            tried(changed_in(&tables, |t| t.events[place] = bad));
        }
    }
    for place in 0..tables.order.len() {
        for bad in [0, 8, 9, 255] {
            tried(changed_in(&tables, |t| t.order[place] = bad));
        }
    }
    // all ways out were taken: 8 and 9 where the mark was set so, and otherwise no number but 2 and 10
    assert!(answers[0] > 0 && answers[2] > 0 && answers[10] > 0, "{answers:?}");
    assert_eq!(answers[3..10], [0, 0, 0, 0, 0, 1, 1]);
}

fn changed_in(tables: &Tables, change: impl Fn(&mut Tables)) -> Tables {
    let mut changed = tables.clone();
    change(&mut changed);
    changed
}
