// `oracle leaves`: single schedulings, steppings, cells and boxes with what is to be found, as words, 16 upper-case hex digits on a line each,
// for the program of the crate leaves; its first lines give the form. They are drawn at random and found by the Rust with document 01's rules and
// the model alike; beside them stand cases written by hand: document 01's examples that are run, and refusals by 5. In each section those of radius 0.5
// come first, and those of other radii behind them.
use crate::known::{grain, sized};
use crate::leaf::{random_leaf, random_spot, random_stepping, Leaf, Spot, Stepping};
use crate::leaves::{agreed, agreed_spot, agreed_stepping};
use crate::model::plan::Plan;
use crate::model::run::{start, Started};
use crate::model::state::{Place, COLLISION, NEIGHBOUR, OUT, WALL};
use crate::radii::Radii;
use crate::random::Random;
use crate::words::{lines, place};

/// Cases of each kind with radius 0.5, and behind them with three sizes and with any radii.
const CASES: usize = 300;
const OTHERS: usize = 150;
const DRAWS: [(u64, Radii, usize); 3] =
    [(0, Radii::Half, CASES), (1000, Radii::Three, OTHERS), (2000, Radii::Any, OTHERS)];

pub fn leaves() -> Result<(), String> {
    let mut out = Vec::new();
    for kind in [COLLISION, NEIGHBOUR, OUT, WALL] {
        let [halves, three, any] = DRAWS.map(|draw| schedulings(kind, draw));
        let cases = [halves?, by_hand(kind)?, three?, any?, others_by_hand(kind)?].concat();
        out.push(cases.len() as u64);
        cases.iter().for_each(|case| scheduling(kind, case, &mut out));
    }
    let steppings = stepping_cases()?;
    out.push(steppings.len() as u64);
    for ((lengths, pos, vel, dt), new) in steppings {
        [&lengths[..], &pos, &vel, &[dt], &new].iter().for_each(|part| floats(part, &mut out));
    }
    let spots = spot_cases()?;
    out.push(spots.len() as u64);
    for ((lengths, pos, rad), cells) in spots {
        [&lengths[..], &pos, &[rad]].iter().for_each(|part| floats(part, &mut out));
        out.push(cells.len() as u64);
        out.extend(cells.iter().map(|&c| c as u64));
    }
    let boxes = boxes()?;
    out.push(boxes.len() as u64);
    for (lengths, refused) in boxes {
        floats(&lengths, &mut out);
        out.push(u64::from(refused));
    }
    print!("{}", lines(&out));
    Ok(())
}

fn floats(list: &[f64], out: &mut Vec<u64>) {
    out.extend(list.iter().map(|x| x.to_bits()));
}

fn scheduling(kind: u64, (leaf, dim, plan): &Scheduling, out: &mut Vec<u64>) {
    floats(&leaf.lengths, out);
    out.extend(leaf.periodic.map(u64::from));
    out.extend([leaf.clock.to_bits(), leaf.cell as u64]);
    if kind == COLLISION {
        leaf.grains.iter().for_each(|g| floats(g, out));
        floats(&leaf.apart(), out);
    } else {
        out.push(*dim as u64);
        floats(&leaf.grains[0], out);
    }
    match plan {
        Ok(None) => out.push(0),
        Err(number) => out.push(*number),
        Ok(Some(e)) => {
            out.push(1);
            place(e, out);
        }
    }
}

// ---- drawn

/// A leaf, the direction of the scheduling, and what is found.
type Scheduling = (Leaf, usize, Plan);

fn schedulings(kind: u64, (seed, radii, cases): (u64, Radii, usize)) -> Result<Vec<Scheduling>, String> {
    let mut random = Random(seed + 100 + kind);
    let mut all = Vec::new();
    // as many cases with an event as without
    let (mut due, mut none) = (0, 0);
    while all.len() < cases {
        let leaf = random_leaf(&mut random, radii);
        let dim = random.below(2) as usize;
        let plan = agreed(&leaf, kind, dim)?;
        let count = if matches!(plan, Ok(None)) { &mut none } else { &mut due };
        if *count < cases / 2 {
            *count += 1;
            all.push((leaf, dim, plan));
        }
    }
    Ok(all)
}

/// Steppings, and where each ends.
fn stepping_cases() -> Result<Vec<(Stepping, [f64; 2])>, String> {
    let mut random = Random(200);
    let case = |_| {
        let case = random_stepping(&mut random);
        Ok((case, agreed_stepping(&case)?))
    };
    (0..CASES).map(case).collect()
}

/// Spots, and the cells that each touches.
fn spot_cases() -> Result<Vec<(Spot, Vec<usize>)>, String> {
    let mut all = Vec::new();
    for (seed, radii, cases) in DRAWS {
        let mut random = Random(seed + 300);
        for _ in 0..cases {
            let case = random_spot(&mut random, radii);
            all.push((case, agreed_spot(&case)?));
        }
    }
    Ok(all)
}

// ---- written by hand

/// A grain of this radius in a cell of a box of 9 by 9 with walls, and one of radius 0.5 at rest in its middle.
fn walled(cell: usize, x: f64, vx: f64, rad: f64) -> Leaf {
    let grains = [sized(x, 4.5, vx, 0., rad), grain(4.5, 4.5, 0., 0.)];
    Leaf { lengths: [9., 9.], periodic: [false, false], clock: 0., cell, grains }
}

/// Schedulings with what is to be found, of grains of radius 0.5.
fn by_hand(kind: u64) -> Result<Vec<Scheduling>, String> {
    let last_column = |x: f64, vx: f64| walled(5, x, vx, 0.5);
    let centre = |x: f64, vx: f64| walled(4, x, vx, 0.5);
    let least = f64::from_bits(1);
    let cases = match kind {
        WALL => vec![
            (last_column(7.5, 1.), 0, Ok(Some(reflected()))),
            (last_column(8.5, 1.), 0, Ok(None)),
            (last_column(7.5, least), 0, Err(5)),
        ],
        // the product of their velocity difference is past every float
        COLLISION => vec![(centre(5.75, -2f64.powi(700)), 0, Err(5))],
        _ => vec![
            (centre(4.5, least), 0, Err(5)),
            (centre(4.5, 0.), 0, Ok(None)),
            (centre(4.5, -0.), 0, Ok(None)),
        ],
    };
    asked(kind, cases)
}

/// The same of a grain of radius 0.25.
fn others_by_hand(kind: u64) -> Result<Vec<Scheduling>, String> {
    let one = |leaf: Leaf, event: Place| vec![(leaf, 0, Ok(Some(event)))];
    let centre = |x: f64| walled(4, x, 1., 0.25);
    asked(
        kind,
        match kind {
            WALL => vec![
                (walled(5, 7.5, 1., 0.25), 0, Ok(Some(Place { time: 1.25, a: [8.75, 4.5], ..reflected() }))),
                (walled(5, 8.75, 1., 0.25), 0, Ok(None)),
            ],
            COLLISION => one(centre(3.), met()),
            NEIGHBOUR => {
                one(centre(4.5), Place { kind, cell: 5, time: 1.25, a: [5.75, 4.5], ..Place::default() })
            }
            _ => one(centre(4.5), Place { kind, cell: 4, time: 1.75, a: [6.25, 4.5], ..Place::default() }),
        },
    )
}

/// The Rust and the model are asked, and must find what is written.
fn asked(kind: u64, cases: Vec<Scheduling>) -> Result<Vec<Scheduling>, String> {
    for (leaf, dim, plan) in &cases {
        if !same(&agreed(leaf, kind, *dim)?, plan) {
            return Err(format!("kind {kind}, direction {dim}, of {leaf:?}: not as written by hand"));
        }
    }
    Ok(cases)
}

/// Document 01's reflection: from x 7.5 at velocity 1 after 1, at the high wall.
fn reflected() -> Place {
    Place { kind: WALL, time: 1., a: [8.5, 4.5], c: [-1., 0.], val: 0.75, ..Place::default() }
}

/// A collision of radii 0.25 and 0.5: from x 3 at velocity 1 after 0.75, at x 3.75; the second is at rest at x 4.5.
fn met() -> Place {
    let parted = -1. + (1. + 0.99);
    Place {
        kind: COLLISION,
        q: 1,
        time: 0.75,
        a: [3.75, 4.5],
        b: [4.5, 4.5],
        c: [0.5 - 0.5 * parted, 0.],
        d: [0.5 + 0.5 * parted, 0.],
        val: 0.5,
        ..Place::default()
    }
}

fn same(one: &Plan, other: &Plan) -> bool {
    let words = |plan: &Plan| {
        plan.map(|event| {
            let mut words = Vec::new();
            event.iter().for_each(|e| place(e, &mut words));
            words
        })
    };
    words(one) == words(other)
}

/// Boxes, and whether 1 refuses them.
fn boxes() -> Result<Vec<([f64; 2], bool)>, String> {
    let refused = [8.5, 48.5, 9f64.next_down(), 48f64.next_up(), f64::NAN, f64::INFINITY, -9., 0.];
    let accepted = [9., 12., 48.];
    let in_both = |(length, refused): (f64, bool)| [([length, 9.], refused), ([48., length], refused)];
    let all = refused.map(|l| (l, true)).into_iter().chain(accepted.map(|l| (l, false)));
    let boxes: Vec<([f64; 2], bool)> = all.flat_map(in_both).collect();
    for &(lengths, refused) in &boxes {
        if matches!(start(lengths, [true, true], 16, &[]), Started::Refused(1, None)) != refused {
            return Err(format!("box {lengths:?}: not as written by hand"));
        }
    }
    Ok(boxes)
}
