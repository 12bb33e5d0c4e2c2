// The oracle's commands.
use oracle::{account, compare, crafted, differ, dumps, leaf_words, listings, lost, straight, vectors};

const USAGE: &str = "usage:
  oracle dump published|rules|model [EVENTS..]   start text on stdin; dumps after so many events
  oracle compare [SEED [SECONDS]]                the Rust with document 01's rules against the model
  oracle refusals                                crafted inputs for every refusal, by the model
  oracle differ                                  what docs/DIFFERENCES.md says, by running it
  oracle lost                                    the grain that the text as published loses
  oracle straight                                grains that no event names; a pair that is pending twice
  oracle vectors FOLDER                          whole runs and refusals for other programs to replay
  oracle leaves                                  what the program leaves reads, on stdout
  oracle replay FOLDER                           what the program replay reads, and what it must write
  oracle listings FOLDER                         texts for the listing program, and their answers";

fn main() {
    let arguments: Vec<String> = std::env::args().skip(1).collect();
    let words: Vec<&str> = arguments.iter().map(String::as_str).collect();
    let done = match words[..] {
        ["dump", of, ref events @ ..] => dump(of, events),
        ["compare", ref rest @ ..] if rest.len() < 3 => compare(rest),
        ["refusals"] => passed(crafted::refusals()),
        ["differ"] => passed(differ::differ()),
        ["vectors", folder] => vectors::vectors(folder),
        ["lost"] => passed(lost::lost()),
        ["straight"] => passed(straight::straight()),
        ["leaves"] => leaf_words::leaves(),
        ["replay", folder] => account::replay(folder),
        ["listings", folder] => listings::listings(folder),
        _ => Err(USAGE.into()),
    };
    if let Err(message) = done {
        eprintln!("{message}");
        std::process::exit(1);
    }
}

fn passed(all: bool) -> Result<(), String> {
    all.then_some(()).ok_or("not as it should be".into())
}

fn compare(rest: &[&str]) -> Result<(), String> {
    let (seed, seconds) = (number(rest.first(), 1)?, number(rest.get(1), 120)?);
    passed(crafted::refusals() & compare::compare(seed, seconds))
}

fn number(text: Option<&&str>, otherwise: u64) -> Result<u64, String> {
    text.map_or(Ok(otherwise), |t| t.parse().map_err(|_| format!("not a number: {t}")))
}

fn dump(of: &str, events: &[&str]) -> Result<(), String> {
    let wanted: Vec<u64> = events.iter().map(|e| number(Some(e), 0)).collect::<Result<_, _>>()?;
    let mut text = String::new();
    std::io::Read::read_to_string(&mut std::io::stdin(), &mut text).map_err(|e| e.to_string())?;
    dumps::dumps(of, if wanted.is_empty() { &[0] } else { &wanted }, &text)
}
