//! The start text: `L0 L1 P0 P1 RATE ROOM N` on one line, then N lines `X Y VX VY VAL RAD`. A float is the
//! 16 upper-case hexadecimal digits of its bits.
use fesolopi::{Domain, Grain};

pub struct Start {
    pub domain: Domain,
    pub rate: f64,
    pub room: u64,
    pub grains: Vec<Grain>,
}

impl Start {
    pub fn read(text: &str) -> Result<Start, String> {
        let mut lines = text.lines();
        let first: Vec<&str> = lines.next().unwrap_or("").split(' ').collect();
        let [l0, l1, p0, p1, rate, room, count] = first[..] else {
            return Err("the first line has seven words".into());
        };
        let grains: Vec<Grain> = lines.map(grain).collect::<Result<_, _>>()?;
        if decimal(count)? != grains.len() as u64 {
            return Err(format!("{count} grains are announced, {} given", grains.len()));
        }
        let domain = Domain { lengths: [float(l0)?, float(l1)?], periodic: [flag(p0)?, flag(p1)?] };
        Ok(Start { domain, rate: float(rate)?, room: decimal(room)?, grains })
    }
}

fn grain(line: &str) -> Result<Grain, String> {
    let words: Vec<f64> = line.split(' ').map(float).collect::<Result<_, _>>()?;
    let [x, y, vx, vy, value, rad] = words[..] else {
        return Err(format!("not the six floats of a grain: {line}"));
    };
    Ok(Grain { position: [x, y], velocity: [vx, vy], value, rad })
}

pub fn float(word: &str) -> Result<f64, String> {
    let digits = word.bytes().all(|b| matches!(b, b'0'..=b'9' | b'A'..=b'F'));
    match u64::from_str_radix(word, 16) {
        Ok(bits) if digits && word.len() == 16 => Ok(f64::from_bits(bits)),
        _ => Err(format!("not 16 hexadecimal digits: {word}")),
    }
}

pub fn decimal(word: &str) -> Result<u64, String> {
    word.parse().map_err(|_| format!("not a number: {word}"))
}

fn flag(word: &str) -> Result<bool, String> {
    match word {
        "0" => Ok(false),
        "1" => Ok(true),
        _ => Err(format!("neither 0 nor 1: {word}")),
    }
}
