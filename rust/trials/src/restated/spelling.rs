//! The rule for equal names, stated by a table of the letters: of all spellings of a name one stands for it.

const CAPITAL: &[u8; 26] = b"ABCDEFGHIJKLMNOPQRSTUVWXYZ";
const SMALL: &[u8; 26] = b"abcdefghijklmnopqrstuvwxyz";

/// The spelling that stands for all spellings of the name: two names are one exactly if they have the same.
pub fn settled(name: &[u8]) -> Vec<u8> {
    let small = |byte: &u8| CAPITAL.iter().position(|letter| letter == byte).map(|place| SMALL[place]);
    name.iter().map(|byte| small(byte).unwrap_or(*byte)).collect()
}

/// The place of the name among those of the sheet, spelled in any case.
pub fn place(names: &[String], name: &[u8]) -> Option<usize> {
    names.iter().position(|other| settled(other.as_bytes()) == settled(name))
}
