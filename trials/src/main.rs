// The trials' commands.
use std::io::Read;
use trials::{differential, hostile, square_roots};

const USAGE: &str = "usage:
  trials differential [SECONDS [SEED]]   the compiled calls against the published Rust and the model
  trials hostile [SECONDS [SEED]]        calls with everything that may be lent, against the model
  trials square-roots [SECONDS [SEED]]   the compiled square root against the processor's
  trials again WALK                      one start of the first, on stdin, as a mismatch printed it
  trials call SEED NUMBER                one call of the second, as a fault printed it";

fn main() {
    let arguments: Vec<String> = std::env::args().skip(1).collect();
    let words: Vec<&str> = arguments.iter().map(String::as_str).collect();
    match passed(&words) {
        Ok(true) => {}
        Ok(false) => std::process::exit(1),
        Err(message) => {
            eprintln!("{message}");
            std::process::exit(1)
        }
    }
}

fn passed(words: &[&str]) -> Result<bool, String> {
    match *words {
        ["differential", ref rest @ ..] if rest.len() < 3 => {
            Ok(differential::differential(number(rest.first(), 60)?, number(rest.get(1), 1)?))
        }
        ["hostile", ref rest @ ..] if rest.len() < 3 => {
            Ok(hostile::hostile(number(rest.first(), 20)?, number(rest.get(1), 1)?))
        }
        ["square-roots", ref rest @ ..] if rest.len() < 3 => {
            Ok(square_roots::square_roots(number(rest.first(), 60)?, number(rest.get(1), 1)?))
        }
        ["again", walk] => {
            let mut text = String::new();
            std::io::stdin().read_to_string(&mut text).map_err(|e| e.to_string())?;
            differential::again(&text, number(Some(&walk), 0)?)
        }
        ["call", seed, call] => Ok(hostile::again(number(Some(&seed), 0)?, number(Some(&call), 0)?)),
        _ => Err(USAGE.into()),
    }
}

fn number(text: Option<&&str>, otherwise: u64) -> Result<u64, String> {
    text.map_or(Ok(otherwise), |t| t.parse().map_err(|_| format!("not a number: {t}")))
}
