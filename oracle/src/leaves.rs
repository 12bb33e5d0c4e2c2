// Leaves, steppings and positions by the Rust with document 01's rules and by the model: both must find the same.
use crate::leaf::{random_leaf, random_spot, random_stepping, Leaf, Spot, Stepping};
use crate::model::grid::{from_p_to_c, get_new_pos};
use crate::model::plan::Plan;
use crate::model::state::{Place, COLLISION, NEIGHBOUR, OUT, WALL};
use crate::radii::Radii;
use crate::random::Random;
use crate::rust::{Published, WithRules};

/// What is planned, after the Rust has been asked too; a planned event that may not be stored is 5.
pub fn agreed(leaf: &Leaf, kind: u64, dim: usize) -> Result<Plan, String> {
    let ours = leaf.model(kind, dim);
    let theirs = WithRules::planned(leaf, kind, dim);
    if let Ok(ours) = ours {
        if ours.map(bits) != theirs.map(bits) {
            return Err(format!("kind {kind}, direction {dim}, of {leaf:?}"));
        }
    }
    let storable = |e: &Place| e.time < f64::MAX && e.floats().iter().all(|x| x.is_finite());
    Ok(match ours {
        Ok(Some(e)) if !storable(&e) => Err(5),
        other => other,
    })
}

/// An event as words; every NaN alike, since no rule fixes its payload and none is ever stored.
fn bits(e: Place) -> [u64; 14] {
    let plain = |x: f64| if x.is_nan() { f64::NAN.to_bits() } else { x.to_bits() };
    let mut all = [0; 14];
    all[..5].copy_from_slice(&[e.kind, e.p, e.q, e.cell, plain(e.time)]);
    all[5..].copy_from_slice(&e.floats().map(plain));
    all
}

pub fn agreed_stepping(&(lengths, pos, vel, dt): &Stepping) -> Result<[f64; 2], String> {
    let ours = get_new_pos(lengths, pos, vel, dt);
    let theirs = WithRules::stepped(lengths, pos, vel, dt);
    if ours.map(f64::to_bits) == theirs.map(f64::to_bits) {
        Ok(ours)
    } else {
        Err(format!("stepping of {pos:?} by {vel:?}, {dt:?}"))
    }
}

pub fn agreed_spot(&(lengths, pos, rad): &Spot) -> Result<Vec<usize>, String> {
    let ours = from_p_to_c(lengths, pos, rad);
    if ours == WithRules::cells_touched(lengths, pos, rad) {
        Ok(ours)
    } else {
        Err(format!("cells of {pos:?}, radius {rad:?}, in {lengths:?}"))
    }
}

/// Compares so many random leaves of each kind, with radii of every kind; gives back how many differed.
pub fn compare_leaves(r: &mut Random, count: u64) -> u64 {
    let mut wrong = Vec::new();
    for _ in 0..count {
        let radii = r.pick(&Radii::ALL);
        let leaf = random_leaf(r, radii);
        wrong.extend(agreed(&leaf, COLLISION, 0).err());
        for kind in [NEIGHBOUR, OUT, WALL] {
            wrong.extend((0..2).filter_map(|dim| agreed(&leaf, kind, dim).err()));
        }
        wrong.extend(agreed_stepping(&random_stepping(r)).err());
        wrong.extend(agreed_spot(&random_spot(r, radii)).err());
    }
    wrong.iter().for_each(|what| println!("MISMATCH: {what}"));
    wrong.len() as u64
}
