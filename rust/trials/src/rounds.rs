//! What is said of the rounds of a long search, as far as it can be known.

/// What the end of a line says of its rate.
const RATE: &str = " steps a second";

/// The lines without their rates, which are measured and known to nobody. Each line must end with a line feed, and its
/// rate must be a number in decimal digits.
pub fn lines_without_rates(said: &str) -> Vec<String> {
    said.split_inclusive('\n').map(without_rate).collect()
}

fn without_rate(line: &str) -> String {
    let parts = line
        .strip_suffix('\n')
        .and_then(|line| line.strip_suffix(RATE))
        .and_then(|line| line.rsplit_once(", "));
    let (known, rate) = parts.unwrap_or_else(|| panic!("no line about a round: {line:?}"));
    let is_number = !rate.is_empty() && rate.bytes().all(|byte| byte.is_ascii_digit());
    assert!(is_number, "no rate: {line:?}");
    known.to_string()
}
