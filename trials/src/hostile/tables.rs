// Tables that are longer, shorter, or something else altogether.
use super::values::{length, nan};
use crate::guarded::Word;
use crate::lent::junk;
use oracle::random::Random;
use oracle::tables::Tables;

/// Tables of these lengths: cut, or with words that no rule gives behind what they held.
pub fn resized(t: &mut Tables, [lists, grains, queue, events, order]: [usize; 5]) {
    resize(&mut t.lists, lists);
    resize(&mut t.grains, grains);
    resize(&mut t.queue, queue);
    resize(&mut t.events, events);
    resize(&mut t.order, order);
}

fn resize<T: Word>(table: &mut Vec<T>, length: usize) {
    let mut place = table.len()..;
    table.resize_with(length, || T::of(place.next().map_or(0, junk)));
}

/// Some places beyond those needed.
pub fn stretch(t: &mut Tables, r: &mut Random) {
    let lengths = t.lengths().map(|n| n + r.below(4) as usize);
    resized(t, lengths);
}

/// One table, or each, of another length.
pub fn relength(t: &mut Tables, r: &mut Random) {
    let mut lengths = t.lengths();
    if r.once_in(2) {
        let one = r.below(5) as usize;
        lengths[one] = length(r, lengths[one]);
    } else {
        lengths = lengths.map(|n| length(r, n));
    }
    resized(t, lengths);
}

/// Half of the time, tables long enough for a few more grains, cells and event places.
pub fn lengthen(t: &mut Tables, r: &mut Random) {
    if r.once_in(2) {
        let lengths = t.lengths().map(|n| n + 2048);
        resized(t, lengths);
    }
}

/// One word throughout a table from a place on, or random words.
pub fn noise(t: &mut Tables, table: usize, from: usize, r: &mut Random) {
    let fixed = match r.below(4) {
        0 => Some(0),
        1 => Some(u64::MAX),
        2 => Some(r.below(256) * 0x0101_0101_0101_0101),
        _ => None,
    };
    let word = || fixed.unwrap_or_else(|| r.bits());
    match table {
        0 => over(&mut t.lists, from, word),
        1 => over(&mut t.grains, from, word),
        2 => over(&mut t.queue, from, word),
        3 => over(&mut t.events, from, word),
        _ => over(&mut t.order, from, word),
    }
}

/// NaNs of every pattern: in places beyond those needed, and half of the time in some of the others.
pub fn nans(t: &mut Tables, r: &mut Random) {
    let [_, grains, _, events, _] = t.lengths();
    stretch(t, r);
    let few = if r.once_in(2) { 0 } else { 1 + r.below(64) };
    for (table, needed) in [(&mut t.grains, grains), (&mut t.events, events)] {
        for (at, place) in table.iter_mut().enumerate() {
            if at >= needed || (few > 0 && r.once_in(few)) {
                *place = nan(r);
            }
        }
    }
}

fn over<T: Word>(table: &mut [T], from: usize, mut word: impl FnMut() -> u64) {
    table.iter_mut().skip(from).for_each(|place| *place = T::of(word()));
}
