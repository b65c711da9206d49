//! Names of users and of permissions, and when two of them are one name. No other place says that.

/// Whether two names are one: they agree with `A-Z` read as `a-z`. Users are compared with users and permissions with
/// permissions. Role names and the words of the form are no such names.
pub fn are_one(name: &[u8], other: &[u8]) -> bool {
    name.len() == other.len() && name.iter().zip(other).all(|(byte, other)| read(*byte) == read(*other))
}

/// What a byte is read as.
fn read(byte: u8) -> u8 {
    match byte {
        b'A'..=b'Z' => byte - b'A' + b'a',
        _ => byte,
    }
}
