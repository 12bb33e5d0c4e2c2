// The trials can see a fault: whatever bit of a table is changed behind their back, they notice and name it;
// and what touches memory beyond a lent table ends by a signal.
use oracle::known::{grain, meeting};
use oracle::model::state::Inputs;
use oracle::random::Random;
use oracle::root_arguments::kinds;
use oracle::tables::Tables;
use oracle::text::Start;
use trials::calls::{square_root, Report, SPENT};
use trials::differential::smallest;
use trials::equal::{holds_state, holds_tables, Beyond};
use trials::figures::Figures;
use trials::guarded::{Guarded, Side};
use trials::hostile::{base, case, Tally};
use trials::lent::{Lent, NAMES};
use trials::square_roots::right;
use trials::walk::{follow, Fault, Ground};

/// Two grains that meet, in tables with little room.
fn small() -> Start {
    Start { room: 16, ..meeting() }
}

/// The tables of a few events after the start, with some places beyond what is needed.
fn lent() -> (Lent, Tables, oracle::model::state::State) {
    let mut s = small().accepted();
    for _ in 0..9 {
        s.step(1.).expect("no refusal");
    }
    let tables = Tables::of(&s);
    let mut lent = Lent::default();
    lent.place(tables.lengths().map(|n| n + 3), Side::High);
    lent.spoil([0; 5]);
    lent.lists[..tables.lists.len()].copy_from_slice(&tables.lists);
    lent.grains[..tables.grains.len()].copy_from_slice(&tables.grains);
    lent.queue[..tables.queue.len()].copy_from_slice(&tables.queue);
    lent.events[..tables.events.len()].copy_from_slice(&tables.events);
    lent.order[..tables.order.len()].copy_from_slice(&tables.order);
    (lent, tables, s)
}

#[test]
fn every_place_is_compared_with_a_state() {
    let (mut lent, _, s) = lent();
    let mut random = Random(1);
    holds_state(&lent, &s, Beyond::Junk).expect("the tables hold the state");
    for (table, length) in lent.lengths().into_iter().enumerate() {
        for place in 0..length {
            let bit = random.below(64) as u32;
            lent.flip(table, place, bit);
            let found = holds_state(&lent, &s, Beyond::Junk).expect_err("a bit was changed");
            assert_eq!((found.table, found.place), (NAMES[table], place));
            lent.flip(table, place, bit);
        }
    }
}

#[test]
fn every_place_is_compared_with_tables() {
    let (mut lent, tables, _) = lent();
    lent.hold(&tables, Side::Low);
    let mut random = Random(2);
    holds_tables(&lent, &tables).expect("the tables are these");
    for (table, length) in lent.lengths().into_iter().enumerate() {
        for place in 0..length {
            let bit = random.below(64) as u32;
            lent.flip(table, place, bit);
            let found = holds_tables(&lent, &tables).expect_err("a bit was changed");
            assert_eq!((found.table, found.place), (NAMES[table], place));
            lent.flip(table, place, bit);
        }
    }
}

#[test]
fn the_differential_run_notices_one_bit_at_its_event() {
    let (mut random, mut ground) = (Random(3), Ground::default());
    for walk in 0..200 {
        let mut quiet = Figures::default();
        follow(&small(), walk, &mut ground, &mut quiet, &mut |_, _| ()).expect("nothing differs");
        assert!(quiet.events >= 40);
        let (at, table) = (1 + random.below(quiet.events), random.below(5) as usize);
        let mut place = 0;
        let mut meddle = |event: u64, t: &mut Lent| {
            if event == at {
                place = random.below(t.lengths()[table] as u64) as usize;
                t.flip(table, place, random.below(64) as u32);
            }
        };
        let outcome = follow(&small(), walk, &mut ground, &mut Figures::default(), &mut meddle);
        let fault = outcome.expect_err("a bit was changed");
        assert_eq!(fault.events, at);
        let named = format!("table {}, place {place}:", NAMES[table]);
        assert!(fault.what.starts_with(&named), "{} and not {named}", fault.what);
    }
}

#[test]
fn hostile_calls_notice_one_bit() {
    let (seed, mut lent, mut tally) = (4, Lent::default(), Tally::default());
    let mut flipped = 0;
    for number in 0..3000 {
        let block = base(seed, number);
        let (mut random, mut meddled) = (Random(number), false);
        let mut meddle = |t: &mut Lent| {
            let table = random.below(5) as usize;
            if let Some(place) = random.bits().checked_rem(t.lengths()[table] as u64) {
                t.flip(table, place as usize, random.below(64) as u32);
                meddled = true;
            }
        };
        let outcome = case(seed, number, &block, &mut lent, &mut tally, &mut meddle);
        assert_eq!(outcome.is_err(), meddled, "case {number}: {outcome:?}");
        flipped += u64::from(meddled);
    }
    assert!(flipped > 2000, "only {flipped} bits");
}

#[test]
fn every_bit_of_a_root_is_compared() {
    let (mut lent, mut random) = (Lent::default(), Random(3));
    for kind in kinds() {
        let d = (kind.draw)(&mut random);
        let (number, root) = square_root(&mut lent, d);
        right(d, (number, root)).expect("the root is right");
        right(d, (number ^ 5, root)).expect_err("the number was changed");
        for bit in 0..64 {
            right(d, (number, f64::from_bits(root.to_bits() ^ 1 << bit))).expect_err("a bit was changed");
        }
    }
}

#[test]
fn reports_differ_in_each_field() {
    let report = Report { number: SPENT, clock: 0., done: 3 };
    assert!(report.same(&report));
    assert!(!report.same(&Report { number: 0, ..report }));
    assert!(!report.same(&Report { clock: -0., ..report }));
    assert!(!report.same(&Report { done: 4, ..report }));
}

#[test]
fn a_reproduction_keeps_only_the_grains_it_needs() {
    let mut random = Random(5);
    let grains: Vec<Inputs> = (0..37).map(|_| grain(random.between(1., 8.), 4.5, 0., 0.)).collect();
    let start = Start::small([true, true], 64, &grains);
    let bad = [grains[4], grains[31]];
    let fault = || Fault { what: String::new(), events: 0 };
    let both = |s: &Start| bad.iter().all(|g| s.grains.contains(g)).then(fault);
    assert_eq!(smallest(&start, fault(), both).0.grains, bad);
}

extern "C" {
    fn fork() -> i32;
    fn waitpid(child: i32, status: *mut i32, options: i32) -> i32;
    fn _exit(status: i32) -> !;
}

/// The signal that ends a process which reads there, 0 if it lives.
fn signal_of_reading(at: *const u64) -> i32 {
    // Sound: the child only reads and ends, the parent waits for it.
    unsafe {
        let child = fork();
        assert!(child >= 0, "no process");
        if child == 0 {
            std::ptr::read_volatile(at);
            _exit(0);
        }
        let mut status = 0;
        assert_eq!(waitpid(child, &mut status, 0), child);
        status & 0x7F
    }
}

#[test]
fn a_read_past_either_end_faults() {
    let mut slice = Guarded::<u64>::new(1000);
    for (length, side) in
        [(0, Side::High), (1, Side::High), (1000, Side::High), (0, Side::Low), (7, Side::Low)]
    {
        slice.place(length, side);
        let (low, high) = (slice.as_ptr().wrapping_sub(1), slice.as_ptr().wrapping_add(length));
        let past = if matches!(side, Side::High) { high } else { low };
        assert_eq!(signal_of_reading(past), 11);
        if length > 0 {
            assert_eq!(signal_of_reading(slice.as_ptr()), 0);
            assert_eq!(signal_of_reading(high.wrapping_sub(1)), 0);
        }
    }
}
