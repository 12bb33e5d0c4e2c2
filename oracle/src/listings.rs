// `oracle listings FOLDER`: texts for the listing program and their answers, as the program of the crate listings
// reads and writes them: FOLDER/stdin, where a byte 0 ends each text and a byte 1 stands for a thousand lines of a
// still grain, and FOLDER/stdout. The reader and the writer here were written from document 01. Behind them is the
// model, and for each listing the Rust with document 01's rules, event by event.
//
// Refusals 2 and 10 can't be reached (`answers/Never.answers-are`): the counts are in range where a text is not too large, and the tables that a
// start leaves hold the standing facts.
use crate::crafted::{crafted, crafted_radii, Crafted};
use crate::files::write;
use crate::known::{grain, sized, PERIODIC};
use crate::model::grid::{GREATEST_RADIUS, LEAST_RADIUS};
use crate::model::run::{Report, Started, Told};
use crate::model::state::{Inputs, State};
use crate::radii::Radii;
use crate::random::Random;
use crate::text::{hex, Start};
use crate::walk::walk;

const BOX: &str = "l0,l1,p0,p1,rate,n";
const GRAINS: &str = "x,y,vx,vy,val,rad";
const LISTED: &str = "time,index,x,y,vx,vy,val,rad";
const STILL: &str =
    "4012000000000000,4012000000000000,0000000000000000,0000000000000000,3FE0000000000000,3FE0000000000000\r\n";
const SERVED: usize = 32;
const ROOM: u64 = 64;
const BUDGET: u32 = 65_536;

pub fn listings(folder: &str) -> Result<(), String> {
    let (mut texts, mut answers) = (Vec::new(), String::new());
    for text in all() {
        answers += &answer(&text);
        texts.extend(text);
        texts.push(0);
    }
    write(folder, "stdin", texts)?;
    write(folder, "stdout", answers)
}

// ---- the answer

fn answer(text: &[u8]) -> String {
    match read(text) {
        None => "malformed\r\n".into(),
        Some(start) if too_large(&start) => "too large\r\n".into(),
        Some(start) => served(&start),
    }
}

fn read(text: &[u8]) -> Option<Start> {
    let whole: Vec<u8> =
        text.iter().flat_map(|&b| if b == 1 { STILL.repeat(1000).into_bytes() } else { vec![b] }).collect();
    let text = String::from_utf8(whole).ok()?;
    let mut lines = text.strip_suffix("\r\n").unwrap_or(&text).split("\r\n");
    let (first, numbers, second) = (lines.next()?, lines.next()?, lines.next()?);
    let grains: Vec<Inputs> =
        lines.map(|line| floats(&line.split(',').collect::<Vec<_>>())).collect::<Option<_>>()?;
    let fields: Vec<&str> = numbers.split(',').collect();
    let [l0, l1, p0, p1, rate, n] = fields[..] else { return None };
    let formed = first == BOX && second == GRAINS && n == grains.len().to_string();
    let [l0, l1, rate] = floats(&[l0, l1, rate])?;
    let start = Start { lengths: [l0, l1], periodic: [flag(p0)?, flag(p1)?], rate, room: ROOM, grains };
    formed.then_some(start)
}

fn floats<const N: usize>(fields: &[&str]) -> Option<[f64; N]> {
    let bits = |field: &&str| {
        let digits = field.bytes().all(|b| matches!(b, b'0'..=b'9' | b'A'..=b'F'));
        (digits && field.len() == 16).then(|| f64::from_bits(u64::from_str_radix(field, 16).unwrap()))
    };
    fields.iter().map(bits).collect::<Option<Vec<f64>>>()?.try_into().ok()
}

fn flag(field: &str) -> Option<bool> {
    ["0", "1"].iter().position(|f| *f == field).map(|p| p == 1)
}

fn too_large(start: &Start) -> bool {
    start.grains.len() > SERVED || start.lengths.iter().any(|l| (12. ..=48.).contains(l))
}

fn served(start: &Start) -> String {
    let mut state = match start.model() {
        Started::Refused(number, _) => return refused(number),
        Started::Done(state) if state.mark != 0 => return refused(state.mark),
        Started::Done(state) => state,
    };
    let first = state.run(start.rate, BUDGET);
    if first.told != Told::Synchronised {
        return ended(first);
    }
    let second = state.run(start.rate, BUDGET);
    if second.told != Told::Synchronised {
        return ended(second);
    }
    let mut last = Vec::new();
    walk(start, first.events + second.events, |_, s| last = lines(s.clock, s));
    assert_eq!(last, lines(second.clock, &state));
    format!("{LISTED}\r\n{}", last.concat())
}

fn refused(number: u64) -> String {
    format!("refused,{number}\r\n")
}

fn ended(report: Report) -> String {
    match report.told {
        Told::Refused(number) => refused(number),
        _ => "spent\r\n".into(),
    }
}

fn lines(clock: f64, state: &State) -> Vec<String> {
    let line = |(n, g): (usize, &crate::model::state::Grain)| {
        let numbers = [g.pos[0], g.pos[1], g.vel[0], g.vel[1], g.val, g.rad].map(hex).join(",");
        format!("{},{n},{numbers}\r\n", hex(clock))
    };
    state.grains.iter().enumerate().map(line).collect()
}

// ---- the texts

fn all() -> Vec<Vec<u8>> {
    let starts = served_starts().into_iter().chain(refused_starts()).chain(large_starts());
    let mut all: Vec<Vec<u8>> = starts.map(|s| spelt(&s).into_bytes()).collect();
    all.extend(many());
    all.extend(written());
    all.extend(of_radii());
    all
}

fn spelt(start: &Start) -> String {
    let [p0, p1] = start.periodic.map(u8::from);
    let [l0, l1, rate] = [start.lengths[0], start.lengths[1], start.rate].map(hex);
    let mut out = format!("{BOX}\r\n{l0},{l1},{p0},{p1},{rate},{}\r\n{GRAINS}\r\n", start.grains.len());
    for g in &start.grains {
        out += &format!("{}\r\n", g.map(hex).join(","));
    }
    out
}

fn small(grains: &[Inputs]) -> Start {
    Start::small(PERIODIC, ROOM, grains)
}

fn still() -> Start {
    small(&[grain(4.5, 4.5, 0., 0.)])
}

fn changed(mut start: Start, change: impl Fn(&mut Start)) -> Start {
    change(&mut start);
    start
}

/// Periodic, walled and mixed boxes with no grain, some and as many as are served; both zeros; a budget that runs out.
fn served_starts() -> Vec<Start> {
    let mut all = vec![still()];
    let mut r = Random(41);
    for periodic in [[true, true], [true, false], [false, true], [false, false]] {
        for count in [0, 1, 2, 5, 12, 20, 32] {
            all.push(drawn(&mut r, periodic, count, Radii::Half));
        }
    }
    all.push(small(&[[-0., -0., -0., -0., -0., 0.5]]));
    all.push(changed(still(), |s| s.lengths = [11.999999999999998, 9.]));
    all.push(changed(still(), |s| s.rate = 2f64.powi(-20)));
    all.push(changed(still(), |s| s.rate = 2f64.powi(20)));
    all.push(changed(small(&[grain(4.321, 5.678, 1023.25, 517.625)]), |s| s.rate = 2f64.powi(20)));
    all
}

/// So many grains inside a box of this kind; they may overlap.
fn drawn(r: &mut Random, periodic: [bool; 2], count: u64, radii: Radii) -> Start {
    let lengths = [r.between(9., 12.), r.between(9., 12.)];
    let mut grain = |_| {
        let rad = radii.draw(r);
        let [x, y] = lengths.map(|length| r.between(rad, length - rad));
        [x, y, r.between(-2., 2.), r.between(-2., 2.), r.between(0., 1.), rad]
    };
    let grains = (0..count).map(&mut grain).collect();
    Start { lengths, periodic, rate: r.between(0.25, 1.5), room: ROOM, grains }
}

/// A refusal by each number that can be reached, and which of two comes first.
fn refused_starts() -> Vec<Start> {
    let mut all = served_of(crafted());
    all.push(small(&[grain(1.5, 1.5, 1., 0.5); SERVED]));
    for rate in [0., -0., 1., 2f64.powi(-21), 2f64.powi(21), f64::NAN, f64::INFINITY, f64::NEG_INFINITY] {
        all.push(changed(still(), |s| s.rate = if rate == 1. { -1. } else { rate }));
    }
    for number in [f64::NAN, f64::INFINITY, f64::NEG_INFINITY] {
        all.push(changed(still(), |s| s.lengths[1] = number));
        for place in 0..5 {
            all.push(changed(still(), |s| s.grains[0][place] = number));
        }
    }
    all.push(changed(still(), |s| s.lengths = [48.00000000000001, 9.]));
    all.push(changed(still(), |s| (s.rate, s.grains[0][4]) = (0., 1.5)));
    all.push(changed(still(), |s| (s.rate, s.grains[0][2]) = (0., f64::from_bits(1))));
    all.push(changed(still(), |s| (s.lengths[0], s.grains[0][4]) = (8.5, 1.5)));
    all
}

/// Those that are served, with a rate at which they come to their refusal.
fn served_of(crafted: Vec<Crafted>) -> Vec<Start> {
    let served = |s: &Start| s.grains.len() <= SERVED && s.room == ROOM;
    let starts = crafted.into_iter().map(|c| c.start).filter(served);
    starts.map(|start| Start { rate: 1000., ..start }).collect()
}

fn large_starts() -> Vec<Start> {
    let mut all: Vec<Start> = Vec::new();
    for lengths in [[12., 9.], [9., 48.], [12., f64::NAN], [f64::INFINITY, 48.], [8.5, 13.]] {
        all.push(changed(still(), |s| s.lengths = lengths));
    }
    all.push(small(&[grain(4.5, 4.5, 0., 0.); SERVED + 1]));
    all.push(changed(small(&[grain(4.5, 4.5, 0., 0.); SERVED + 1]), |s| s.lengths[0] = 8.5));
    all
}

/// A hundred thousand lines; and a thousand, announced as one more and as one less.
fn many() -> Vec<Vec<u8>> {
    let announced = |n: &str, thousands: usize| {
        let mut text = spelt(&small(&[])).replace(",0\r\n", &format!(",{n}\r\n")).into_bytes();
        text.extend(vec![1; thousands]);
        text
    };
    vec![announced("100000", 100), announced("1001", 1), announced("999", 1)]
}

/// The example's text with one thing changed. All but the first two are malformed.
fn written() -> Vec<Vec<u8>> {
    let text = spelt(&still());
    let replaced = |from: &str, to: &str| {
        assert!(text.contains(from), "{from}");
        text.replacen(from, to, 1).into_bytes()
    };
    let line = |n: usize| text.split_inclusive("\r\n").nth(n).unwrap();
    let mut all: Vec<Vec<u8>> = Vec::new();
    all.push(text.trim_end().into());
    all.push(spelt(&small(&[])).trim_end().into());
    all.push(text[..text.len() - 1].into());
    all.push(format!("{text}\r\n").into());
    all.push(format!("{text} ").into());
    all.push(format!("{text}{}", line(3)).into());
    all.push(format!("\u{feff}{text}").into());
    all.push(Vec::new());
    all.extend((1..4).map(|n| text.split_inclusive("\r\n").take(n).collect::<String>().into_bytes()));
    all.push([line(2), line(1), line(0), line(3)].concat().into());
    all.push([line(2), line(3), line(0), line(1)].concat().into());
    for (from, to) in [
        ("\r\n", "\n"),
        ("\r\n", "\r"),
        ("\r\n", "\n\r"),
        ("\r\n", "\r\r\n"),
        ("l0", "L0"),
        ("l0,l1", "l1,l0"),
        (",n", ""),
        ("vx,vy", "vy,vx"),
        (",rad", ",rad,"),
        ("4022", "\"4022"),
        ("3FF0", "3ff0"),
        ("3FE0", "3fE0"),
        ("3FF0", "3FG0"),
        ("3FF0", "3F/0"),
        ("3FF0", "3F:0"),
        ("3FF0", "3F@0"),
        ("3FF0", "3F0"),
        ("3FF0", "3FF00"),
        ("3FF0", "0x3FF0"),
        (",1,1,", ",2,1,"),
        (",1,1,", ",1,/,"),
        (",1,1,", ",1,,"),
        (",1,1,", ",01,1,"),
        (",1,1,", ", 1,1,"),
        (",1,1,", ",1,"),
        (",1\r\n", ",01\r\n"),
        (",1\r\n", ",00\r\n"),
        (",1\r\n", ",\r\n"),
        (",1\r\n", ",+1\r\n"),
        (",1\r\n", ",-1\r\n"),
        (",1\r\n", ",1 \r\n"),
        (",1\r\n", ",1a\r\n"),
        (",1\r\n", ",0\r\n"),
        (",1\r\n", ",2\r\n"),
        (",1\r\n", ",10\r\n"),
        (",1\r\n", ",18446744073709551617\r\n"),
        (",1\r\n", ",100000000000000000000000000000000000000001\r\n"),
        ("4012000000000000,", ""),
        ("4012000000000000,", ","),
        ("4012000000000000,", "4012000000000000;"),
        ("4012000000000000,", "4.5,"),
        ("4012000000000000,", "4012000000000000,\t"),
        ("4012000000000000,", "\u{2}4012000000000000,"),
        ("4012000000000000,", "\u{e9}4012000000000000,"),
    ] {
        all.push(replaced(from, to));
    }
    let mut bytes = text.clone().into_bytes();
    bytes[60] = 0xff;
    all.push(bytes);
    all.push(spelt(&small(&[grain(4.5, 4.5, 0., 0.); 33])).replacen(",33\r\n", ",34\r\n", 1).into());
    all
}

/// Grains of three sizes and of any radii; radii that are refused, and those at the ends; and texts with the column left out or put elsewhere.
fn of_radii() -> Vec<Vec<u8>> {
    let mut r = Random(43);
    let mut starts = Vec::new();
    for periodic in [[true, true], [true, false], [false, true], [false, false]] {
        for radii in [Radii::Three, Radii::Any] {
            starts.extend([1, 3, 12, 32].map(|count| drawn(&mut r, periodic, count, radii)));
        }
    }
    starts.extend(served_of(crafted_radii()));
    let other = [f64::NAN, f64::INFINITY, f64::NEG_INFINITY, 0., -0., -0.5, 1., f64::from_bits(1)];
    for rad in [LEAST_RADIUS, GREATEST_RADIUS].into_iter().chain(other) {
        starts.push(small(&[sized(4.5, 4.5, 0., 0., rad)]));
    }
    let mut all: Vec<Vec<u8>> = starts.iter().map(|s| spelt(s).into_bytes()).collect();
    all.extend(misplaced().into_iter().map(String::into_bytes));
    all
}

/// A text with the column, and the same with it left out, in the header or the line alone too, put elsewhere, or given twice. All but the first are
/// malformed.
fn misplaced() -> Vec<String> {
    let text = spelt(&small(&[sized(4.5, 4.5, 0., 0., 0.35)]));
    let rad = format!(",{}", hex(0.35));
    let without = |from: &str, to: &str| {
        assert!(text.contains(from), "{from}");
        text.replacen(from, to, 1)
    };
    vec![
        text.clone(),
        without(",rad", "").replacen(&rad, "", 1),
        without(",rad", ""),
        without(&rad, ""),
        without("val,rad", "rad,val"),
        without(",rad", ",RAD"),
        without(",rad", ",radius"),
        without(",rad", ",rad,rad").replacen(&rad, &rad.repeat(2), 1),
        without(&rad, &rad.repeat(2)),
        without(&rad, ","),
    ]
}
