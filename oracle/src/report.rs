// What a command counted, as a table for a document: numbers parted by thousands, a tally as `number: how many, ..`.
use std::collections::BTreeMap;
use std::fmt::Display;

pub fn parted(n: u64) -> String {
    let digits = n.to_string();
    let mut out = String::new();
    for (at, digit) in digits.chars().enumerate() {
        if at > 0 && (digits.len() - at) % 3 == 0 {
            out.push(',');
        }
        out.push(digit);
    }
    out
}

pub fn tally<N: Display>(counts: &BTreeMap<N, u64>) -> String {
    let entries: Vec<String> =
        counts.iter().map(|(name, &many)| format!("{name}: {}", parted(many))).collect();
    if entries.is_empty() {
        "none".into()
    } else {
        entries.join(", ")
    }
}

/// A table's head, over so many columns.
pub fn head(columns: &[&str]) {
    row(columns);
    println!("|{}", "---|".repeat(columns.len()));
}

pub fn row<T: Display>(cells: &[T]) {
    let cells: Vec<String> = cells.iter().map(|cell| format!(" {cell} |")).collect();
    println!("|{}", cells.concat());
}

#[cfg(test)]
mod tests {
    use super::parted;

    #[test]
    fn thousands_are_parted() {
        assert_eq!([0, 999, 1_000, 9_540_025].map(parted), ["0", "999", "1,000", "9,540,025"]);
    }
}
