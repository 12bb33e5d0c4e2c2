// The start text and the dump. ASCII, lines ended by LF, a float as 16 upper-case hex digits of its bits.
//
// Start text: `L0 L1 P0 P1 RATE ROOM N`, then N lines `X Y VX VY VAL RAD`.
// Dump (floats of one record run together):
//   clock CLOCK mark MARK
//   g I X..RAD : C C ..      each grain: x y vx vy time val rad, and its cells
//   c I : G G ..             each cell: its grains; below it its events, in order:
//   e TIME S                 synchronisation
//   e TIME C P Q F           collision: positions of p and q, velocities, the mean value twice
//   e TIME N P CELL F        into CELL, position
//   e TIME O P CELL F        out of CELL, position
//   e TIME W P F             wall: position, velocity, value
//   heap : C C ..            as many places as cells
//   look : N N ..
use crate::model::grid::cells_along;
use crate::model::run::{start, Started};
use crate::model::state::{Inputs, State, COLLISION, NEIGHBOUR, OUT, SYNC, WALL};
use std::fmt::Write;

#[derive(Clone, Debug)]
pub struct Start {
    pub lengths: [f64; 2],
    pub periodic: [bool; 2],
    pub rate: f64,
    pub room: u64,
    pub grains: Vec<Inputs>,
}

impl Start {
    /// A 9 by 9 box, synchronised once in a unit of time.
    pub fn small(periodic: [bool; 2], room: u64, grains: &[Inputs]) -> Start {
        Start { lengths: [9., 9.], periodic, rate: 1., room, grains: grains.to_vec() }
    }

    /// The model's answer to this start.
    pub fn model(&self) -> Started {
        start(self.lengths, self.periodic, self.room, &self.grains)
    }

    /// The model's state of a start that is known to be accepted.
    pub fn accepted(&self) -> State {
        match self.model() {
            Started::Done(state) => *state,
            Started::Refused(number, _) => unreachable!("refused by {number}"),
        }
    }

    /// How many cells the box has.
    pub fn cells(&self) -> usize {
        self.lengths.map(cells_along).iter().product()
    }

    pub fn read(text: &str) -> Result<Start, String> {
        let mut lines = text.lines();
        let first: Vec<&str> = lines.next().unwrap_or("").split(' ').collect();
        let [l0, l1, p0, p1, rate, room, n] = first[..] else {
            return Err("the first line has seven fields".into());
        };
        let grains: Vec<Inputs> = lines.map(grain).collect::<Result<_, _>>()?;
        if grains.len() as u64 != decimal(n)? {
            return Err(format!("{n} grains announced, {} given", grains.len()));
        }
        Ok(Start {
            lengths: [float(l0)?, float(l1)?],
            periodic: [flag(p0)?, flag(p1)?],
            rate: float(rate)?,
            room: decimal(room)?,
            grains,
        })
    }

    pub fn write(&self) -> String {
        let mut out = String::new();
        let [p0, p1] = self.periodic.map(u8::from);
        let [l0, l1, rate] = [self.lengths[0], self.lengths[1], self.rate].map(hex);
        writeln!(out, "{l0} {l1} {p0} {p1} {rate} {} {}", self.room, self.grains.len()).unwrap();
        for g in &self.grains {
            writeln!(out, "{}", g.map(hex).join(" ")).unwrap();
        }
        out
    }
}

pub fn hex(x: f64) -> String {
    format!("{:016X}", x.to_bits())
}

fn grain(line: &str) -> Result<Inputs, String> {
    let floats: Vec<f64> = line.split(' ').map(float).collect::<Result<_, _>>()?;
    floats.try_into().map_err(|_| format!("a grain has six floats: {line}"))
}

fn float(text: &str) -> Result<f64, String> {
    let upper = text.bytes().all(|b| b.is_ascii_digit() || (b'A'..=b'F').contains(&b));
    match u64::from_str_radix(text, 16) {
        Ok(bits) if upper && text.len() == 16 => Ok(f64::from_bits(bits)),
        _ => Err(format!("not a float in 16 hex digits: {text}")),
    }
}

fn flag(text: &str) -> Result<bool, String> {
    match text {
        "0" => Ok(false),
        "1" => Ok(true),
        _ => Err(format!("not a flag: {text}")),
    }
}

fn decimal(text: &str) -> Result<u64, String> {
    text.parse().map_err(|_| format!("not a number: {text}"))
}

fn run_together(floats: &[f64]) -> String {
    floats.iter().copied().map(hex).collect()
}

fn numbers(out: &mut String, list: &[u64]) {
    out.push_str(" :");
    for n in list {
        write!(out, " {n}").unwrap();
    }
    out.push('\n');
}

/// The whole state, as far as it can be compared between programs.
pub fn dump(s: &State) -> String {
    let mut out = String::new();
    writeln!(out, "clock {} mark {}", hex(s.clock), s.mark).unwrap();
    for (n, (g, home)) in s.grains.iter().zip(&s.homes).enumerate() {
        write!(out, "g {n} {}", run_together(&g.floats())).unwrap();
        numbers(&mut out, home.live());
    }
    for (n, (members, queue)) in s.members.iter().zip(&s.queues).enumerate() {
        write!(out, "c {n}").unwrap();
        numbers(&mut out, members.live());
        for e in queue.live() {
            let (time, p) = (hex(e.time), e.p);
            let [a0, a1, b0, b1, c0, c1, d0, d1, val] = e.floats();
            match e.kind {
                COLLISION => {
                    let floats = run_together(&[a0, a1, b0, b1, c0, c1, d0, d1, val, val]);
                    writeln!(out, "e {time} C {p} {} {floats}", e.q)
                }
                NEIGHBOUR => writeln!(out, "e {time} N {p} {} {}", e.cell, run_together(&e.a)),
                OUT => writeln!(out, "e {time} O {p} {} {}", e.cell, run_together(&e.a)),
                WALL => writeln!(out, "e {time} W {p} {}", run_together(&[a0, a1, c0, c1, val])),
                SYNC => writeln!(out, "e {time} S"),
                kind => writeln!(out, "e {time} ? {kind}"),
            }
            .unwrap();
        }
    }
    let cells = s.members.len();
    out.push_str("heap");
    numbers(&mut out, &s.heap[..cells]);
    out.push_str("look");
    numbers(&mut out, &s.look[..cells]);
    out
}
