//! A state as text, written from a simulation and put into tables. Floats of one record run together.
//!
//!     clock CLOCK mark MARK
//!     g I X..RAD : C C ..     each grain: x y vx vy time val rad, and its cells
//!     c I : G G ..            each cell: its grains; below it its events, in order:
//!     e TIME S                a synchronisation
//!     e TIME C P Q F          a collision: positions, velocities, the mean value twice
//!     e TIME N P CELL F       into CELL, position
//!     e TIME O P CELL F       out of CELL, position
//!     e TIME W P F            a wall: position, velocity, value
//!     heap : C C ..           as many places as there are cells
//!     look : N N ..
use crate::start::{decimal, float};
use fesolopi::tables::{FLOATS, GRAIN, GRAINS_HEAD, HEAP, HOMES, LISTS_HEAD, MEMBERS, NUMBERS};
use fesolopi::{Event, Pending, Simulation, Tables};
use std::fmt::{Display, Write};

// ---- from a simulation

pub fn write(simulation: &Simulation, out: &mut String) {
    line(out, format_args!("clock {} mark {}\n", hex(&[simulation.clock()]), simulation.mark()));
    for (n, grain) in (0..).zip(simulation.grains()) {
        let ([x, y], [vx, vy]) = (grain.position, grain.velocity);
        let time = simulation.time(n).unwrap_or(0.);
        line(out, format_args!("g {n} {}", hex(&[x, y, vx, vy, time, grain.value, grain.rad])));
        list(out, simulation.cells_of(n));
    }
    for cell in 0..simulation.cells() {
        line(out, format_args!("c {cell}"));
        list(out, simulation.grains_of(cell));
        simulation.pending(cell).for_each(|pending| event(out, &pending));
    }
    out.push_str("heap");
    list(out, simulation.heap());
    out.push_str("look");
    list(out, simulation.lookups());
}

fn event(out: &mut String, pending: &Pending) {
    line(out, format_args!("e {} ", hex(&[pending.time])));
    match pending.event {
        Event::Collision { grains: [p, q], positions: [a, b], velocities: [c, d], value } => {
            let floats = hex(&[a[0], a[1], b[0], b[1], c[0], c[1], d[0], d[1], value, value]);
            line(out, format_args!("C {p} {q} {floats}\n"));
        }
        Event::ToNeighbour { grain, cell, position } => {
            line(out, format_args!("N {grain} {cell} {}\n", hex(&position)));
        }
        Event::OutOfCell { grain, cell, position } => {
            line(out, format_args!("O {grain} {cell} {}\n", hex(&position)));
        }
        Event::Wall { grain, position: [x, y], velocity: [vx, vy], value } => {
            line(out, format_args!("W {grain} {}\n", hex(&[x, y, vx, vy, value])));
        }
        Event::Synchronisation => out.push_str("S\n"),
        Event::Unknown { kind } => line(out, format_args!("? {kind}\n")),
    }
}

fn line(out: &mut String, text: std::fmt::Arguments) {
    out.write_fmt(text).expect("a string takes any text");
}

fn list<T: Display>(out: &mut String, items: &[T]) {
    out.push_str(" :");
    for item in items {
        line(out, format_args!(" {item}"));
    }
    out.push('\n');
}

fn hex(floats: &[f64]) -> String {
    floats.iter().map(|x| format!("{:016X}", x.to_bits())).collect()
}

// ---- into tables

/// Puts a dump's state into the tables of a start with the same box, counts and room.
pub fn put(text: &str, tables: &mut Tables) -> Result<(), String> {
    let [_, grains, _, room, ..] = tables.lists[..] else { return Err("no started tables".into()) };
    let members = LISTS_HEAD + (1 + HOMES) * grains as usize;
    tables.lists[LISTS_HEAD..].fill(0);
    tables.queue.fill(0);
    tables.events.fill(0.);
    let mut cell = 0;
    for text in text.lines() {
        let (head, tail) = text.split_once(" :").unwrap_or((text, ""));
        let words: Vec<&str> = head.split(' ').collect();
        let items: Vec<u64> = tail.split_whitespace().map(decimal).collect::<Result<_, _>>()?;
        let known = match words[..] {
            ["clock", clock, "mark", mark] => {
                tables.lists[0] = decimal(mark)?;
                copy(&mut tables.grains, 2, &[float(clock)?])
            }
            ["g", n, digits] => {
                let n = decimal(n)? as usize;
                let listed = row(&mut tables.lists, LISTS_HEAD + (1 + HOMES) * n, &items);
                listed.and(copy(&mut tables.grains, GRAINS_HEAD + GRAIN * n, &floats(digits)?))
            }
            ["c", n] => {
                cell = decimal(n)? as usize;
                row(&mut tables.lists, members + (1 + MEMBERS) * cell, &items)
            }
            ["e", time, ref rest @ ..] => append(tables, room as usize, cell, float(time)?, rest)?,
            ["heap"] => bytes(&mut tables.order, 0, &items),
            ["look"] => bytes(&mut tables.order, HEAP, &items),
            _ => None,
        };
        known.ok_or_else(|| format!("not a line of such a dump: {text}"))?;
    }
    Ok(())
}

/// Appends an event to a cell's.
fn append(t: &mut Tables, room: usize, cell: usize, time: f64, words: &[&str]) -> Result<Option<()>, String> {
    let (numbers, digits) = match *words {
        ["S"] => ([5, 0, 0, 0], ""),
        ["C", p, q, digits] => ([1, decimal(p)?, decimal(q)?, 0], digits),
        ["N", p, to, digits] => ([2, decimal(p)?, 0, decimal(to)?], digits),
        ["O", p, from, digits] => ([3, decimal(p)?, 0, decimal(from)?], digits),
        ["W", p, digits] => ([4, decimal(p)?, 0, 0], digits),
        _ => return Ok(None),
    };
    let mut all = floats(digits)?;
    if let [x, y, vx, vy, value] = all[..] {
        all = vec![x, y, 0., 0., vx, vy, 0., 0., value];
    }
    // a collision's mean value stands twice
    all.truncate(FLOATS - 1);
    let base = (1 + NUMBERS * room) * cell;
    let Some(count) = t.queue.get_mut(base).filter(|count| (**count as usize) < room) else {
        return Ok(None);
    };
    let place = *count as usize;
    *count += 1;
    all.insert(0, time);
    let put = copy(&mut t.queue, base + 1 + NUMBERS * place, &numbers);
    Ok(put.and(copy(&mut t.events, FLOATS * (room * cell + place), &all)))
}

/// A row of a list: its count, then its items.
fn row(lists: &mut [u64], base: usize, items: &[u64]) -> Option<()> {
    copy(lists, base, &[items.len() as u64]).and(copy(lists, base + 1, items))
}

fn bytes(order: &mut [u8], base: usize, items: &[u64]) -> Option<()> {
    let bytes: Vec<u8> = items.iter().map(|&n| u8::try_from(n).ok()).collect::<Option<_>>()?;
    copy(order, base, &bytes)
}

fn copy<T: Copy>(table: &mut [T], base: usize, items: &[T]) -> Option<()> {
    table.get_mut(base..base + items.len())?.copy_from_slice(items);
    Some(())
}

fn floats(digits: &str) -> Result<Vec<f64>, String> {
    digits.as_bytes().chunks(16).map(|word| float(&String::from_utf8_lossy(word))).collect()
}
