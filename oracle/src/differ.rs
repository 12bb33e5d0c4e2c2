// `oracle differ`: each difference between the published Rust and document 01, shown by running.
use crate::domain::Watch;
use crate::known::{self, grain};
use crate::model::state::{Inputs, State};
use crate::random::Random;
use crate::rust::{AsPublished, Published, WithRules};
use crate::text::{dump, Start};
use std::hint::black_box;

/// Shows every difference; says if each came out as docs/DIFFERENCES.md has it.
pub fn differ() -> bool {
    let shown =
        [product(), correction(), squares(), periodic_box(), walled_box(), equal_times(), no_refusals()];
    shown.iter().all(|&s| s)
}

/// Prints what was shown, or that it was not.
pub fn told(holds: bool, what: String) -> bool {
    println!("{} {what}", if holds { "shown:" } else { "NOT SHOWN:" });
    holds
}

/// The product of two vectors starts from zero in the text, from the first term in 01.
fn product() -> bool {
    let (dvel, normal) = ([-1., -0.], [0., 1.]);
    let (theirs, ours) = (AsPublished::product(dvel, normal), WithRules::product(dvel, normal));
    let differ = theirs.to_bits() == 0 && ours.to_bits() == 1 << 63;
    let one = told(differ, format!("product of (-1, -0) and (0, 1): published {theirs:?}, 01 {ours:?}"));
    // a grazing contact with just these two: the sign of the sum reaches no stored number
    let start = Start::small([true, true], 64, &[grain(2., 4., 1., 0.), grain(5., 5., 0., -0.)]);
    let same = first_difference(&start, 12).is_none();
    one & told(same, "a grazing contact with this product: all states equal".into())
}

/// Candidates of least magnitude in the text, half the length in 01: apart only at exactly +length/2.
fn correction() -> bool {
    let mut random = Random(7);
    let (mut apart, mut elsewhere, mut tried) = (0u64, 0u64, 0u64);
    for _ in 0..200_000 {
        let length = random.between(9., 48.);
        let half = length / 2.;
        let near = [half, half.next_up(), half.next_down(), length, 1.5 * length, 0.];
        let far = [random.between(-2. * length, 2. * length), random.between(-1e9, 1e9), 1e300];
        for dpos in near.into_iter().chain(far).flat_map(|x: f64| [x, -x]) {
            tried += 1;
            let (a, b) = (AsPublished::correction(dpos, length), WithRules::correction(dpos, length));
            if a.to_bits() != b.to_bits() {
                apart += 1;
                elsewhere += u64::from(dpos != half);
            }
        }
    }
    let what = format!("correction: {tried} tried, {apart} apart, {elsewhere} of them not at +length/2");
    told(apart > 0 && elsewhere == 0, what)
}

/// powi(2) as this compiler does it.
fn squares() -> bool {
    let mut random = Random(9);
    let other = (0..5_000_000).filter(|_| {
        let x = black_box(f64::from_bits(random.bits()));
        let [written, called] = [x.powi(2), x.powi(black_box(2))].map(f64::to_bits);
        !x.is_nan() && (written != (x * x).to_bits() || called != (x * x).to_bits())
    });
    let other = other.count();
    told(other == 0, format!("powi(2) against x*x: {other} of 5,000,000 differ"))
}

/// After which event the text as published first differs from the text with 01's rules.
fn first_difference(start: &Start, events: u64) -> Option<(u64, Option<u64>)> {
    let mut watch = Watch::start(start).ok()?;
    let (mut published, mut ruled) = (AsPublished::start(start), WithRules::start(start));
    for event in 0..=events {
        if dump(&published.picture()) != dump(&ruled.picture()) {
            return Some((event, watch.left.map(|(at, _)| at)));
        }
        watch.step(start.rate);
        published.step(start.rate);
        ruled.step(start.rate);
    }
    None
}

fn differs_after(name: &str, start: &Start, event: u64, inside: bool) -> bool {
    let got = first_difference(start, 60);
    let domain = if got.is_some_and(|(_, left)| left.is_none()) { "inside" } else { "outside" };
    let at = got.map_or("never".into(), |(at, _)| format!("after event {at}"));
    let holds = got.is_some_and(|(at, left)| at == event && left.is_none() == inside);
    told(holds, format!("{name}: published and 01 differ {at}, {domain} the domain"))
}

fn periodic_box() -> bool {
    differs_after("correction, one grain in a periodic box", &known::correction(), 8, true)
}

fn walled_box() -> bool {
    let start = known::correction_at_walls();
    let halts = |mut w: Watch| {
        (0..30).for_each(|_| w.step(1.));
        w.halted()
    };
    let goes_on = Watch::start(&start).is_ok_and(|w| !halts(w));
    let shown = differs_after("correction, walls in x", &start, 5, true);
    shown & told(goes_on, "the same start is not refused in 30 events".into())
}

fn equal_times() -> bool {
    let start = Start::small([true, true], 64, &[grain(4.5, 4.5, 1., 1.)]);
    differs_after("insertion among equals", &start, 0, false)
}

/// What the text as published does where 01 refuses, and after which event that can first be seen.
fn no_refusals() -> bool {
    let twice = |s: &State| {
        s.members.iter().any(|r| (1..r.live().len()).any(|i| r.live()[..i].contains(&r.live()[i])))
    };
    let long = |s: &State| s.queues.iter().any(|r| r.count > 16);
    let crowded = |s: &State| s.members.iter().any(|r| r.count > 32);
    let nine = |s: &State| s.homes.iter().any(|r| r.count > 8);
    let endless = |s: &State| s.queues.iter().flat_map(|r| r.live()).any(|e| e.time == f64::INFINITY);
    let least = f64::from_bits(1);
    type Test<'a> = (&'a str, Start, &'a dyn Fn(&State) -> bool, u64);
    let small = |room, grains: &[Inputs]| Start::small([true, true], room, grains);
    let cases: [Test; 8] = [
        ("1: a box 8.5 long is run", Start { lengths: [8.5, 9.], ..small(64, &[]) }, &|s| s.clock > 1., 3),
        ("5: an event at time infinity", small(64, &[grain(4.5, 4.5, 1., least)]), &endless, 0),
        ("6: more events than 16", small(16, &[grain(1.5, 1.5, 1., 0.5); 4]), &long, 0),
        ("7: 33 grains in a cell", small(64, &[grain(4.5, 4.5, 0., 0.); 33]), &crowded, 0),
        ("7: nine cells of a grain", small(64, &[grain(2.5, 2.5, -1., -0.875)]), &nine, 8),
        ("8: a cell lists a grain twice", small(64, &[grain(2.5, 4.5, -1., 0.)]), &twice, 8),
        ("8: the same, from length less radius", known::length_less_radius(), &twice, 10),
        ("9: a grain in no cell", small(64, &[grain(3.5, 4.5, -1., 0.)]), &lost_state, 2),
    ];
    let mut all = head_at_infinity();
    for (name, start, test, event) in cases {
        let mut rust = AsPublished::start(&start);
        let at = (0..40).find(|_| {
            let found = test(&rust.picture());
            if !found {
                rust.step(1.);
            }
            found
        });
        let when = at.map_or("not within 40 events".into(), |n| format!("after event {n}"));
        all &= told(at == Some(event), format!("no refusal {name}, {when}"));
    }
    all
}

/// A list whose head is at infinity sorts behind the heap's end, and the text reads past it.
fn head_at_infinity() -> bool {
    let start = Start::small([true, true], 64, &[grain(4.5, 4.5, f64::from_bits(1), 0.)]);
    std::panic::set_hook(Box::new(|_| {}));
    let panicked = std::panic::catch_unwind(|| drop(AsPublished::start(&start))).is_err();
    let _ = std::panic::take_hook();
    told(panicked, "no refusal 5: a list's only event at time infinity, the start panics".into())
}

fn lost_state(s: &State) -> bool {
    s.homes.iter().any(|r| r.count == 0)
}
