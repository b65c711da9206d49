//! Sheets at the limits and one beyond.

use crate::draft::Draft;
use crate::paper;
use crate::random::Random;
use crate::sessions::first_book;
use crate::spelling;

/// Everyone holds everything.
pub fn full(users: usize, permissions: usize) -> Draft {
    Draft::plain(users, permissions, |_, _| true)
}

/// Exactly this many grants on any cells.
pub fn with_grants(random: &mut Random, users: usize, permissions: usize, count: usize) -> Draft {
    let mut draft = Draft::plain(users, permissions, |_, _| false);
    let mut missing = count;
    while missing > 0 {
        let cell = &mut draft.held[random.below(users)][random.below(permissions)];
        if !*cell {
            *cell = true;
            missing -= 1;
        }
    }
    draft
}

/// The same sheet, each name made exactly this many bytes long.
pub fn with_name_bytes(mut draft: Draft, bytes: usize) -> Draft {
    for name in draft.users.iter_mut().chain(draft.permissions.iter_mut()) {
        *name = format!("{name:.<bytes$}");
    }
    draft
}

/// As many users, grants and name bytes as there can be, and 64 permissions.
pub fn with_longest_names(random: &mut Random) -> Draft {
    with_name_bytes(with_grants(random, paper::USERS, 64, paper::GRANTS), paper::NAME_BYTES)
}

/// The same sheet under the shortest names that have no dot: those of one byte, then those of two. Every second letter
/// is a capital one.
pub fn with_shortest_names(draft: Draft) -> Draft {
    named(draft, "aBcDeFgHiJkLmNoPqRsTuVwXyZ0123456789-_".chars())
}

/// The same sheet under the shortest names of small letters and digits.
pub fn with_short_names(draft: Draft) -> Draft {
    named(draft, ('a'..='z').chain('0'..='9'))
}

/// The same sheet under all names of one of these characters, then those of two.
fn named(mut draft: Draft, characters: impl Iterator<Item = char> + Clone) -> Draft {
    let pair = |first| characters.clone().map(move |second| String::from_iter([first, second]));
    let names = characters.clone().map(String::from).chain(characters.clone().flat_map(pair));
    draft.users = names.clone().take(draft.users.len()).collect();
    draft.permissions = names.take(draft.permissions.len()).collect();
    draft
}

/// Exactly this many bytes with as many grants as there can be: dots behind the names, of which none gets too long,
/// fill the sheet up.
pub fn filled(random: &mut Random, users: usize, permissions: usize, bytes: usize) -> Draft {
    let mut draft = with_shortest_names(with_grants(random, users, permissions, paper::GRANTS));
    let missing = bytes - draft.bytes().len();
    fill(draft.users.iter_mut().chain(&mut draft.permissions), missing);
    draft
}

/// Puts so many dots behind these names, which have room for them.
fn fill<'a>(names: impl Iterator<Item = &'a mut String>, dots: usize) {
    let mut missing = dots;
    for name in names {
        let more = missing.min(paper::NAME_BYTES - name.len());
        name.push_str(&".".repeat(more));
        missing -= more;
    }
    assert_eq!(missing, 0, "the names have no room for {dots} dots");
}

/// Names as long as there can be that differ in their last three bytes only, and otherwise in case: 250 users, 64
/// permissions, and as many grants as there can be.
pub fn with_names_in_mixed_case(random: &mut Random) -> Draft {
    let mut draft = with_grants(random, 250, 64, paper::GRANTS);
    let start = "recordingarea";
    for (index, user) in draft.users.iter_mut().enumerate() {
        *user = format!("{}{index:03}", spelling::name(random, start));
    }
    for (index, permission) in draft.permissions.iter_mut().enumerate() {
        *permission = format!("{}{index:03}", spelling::name(random, start));
    }
    draft
}

/// A sheet as long as there can be, with as many permissions and grants.
pub fn longest(random: &mut Random) -> Draft {
    filled(random, 240, paper::PERMISSIONS, paper::SHEET_BYTES)
}

/// Nearly as many users as there can be with so many permissions, and as many grants. The book has more bytes than
/// the book program's buffer.
pub fn with_long_book(random: &mut Random) -> Draft {
    with_short_names(with_grants(random, 250, paper::PERMISSIONS, paper::GRANTS))
}

/// A sheet as long as there can be, with the longest book that there can be: as many roles as permissions, of which
/// there are as many as there can be, and a witness of the longest names.
pub fn with_longest_book() -> Draft {
    let mut draft =
        Draft::plain(233, paper::PERMISSIONS, |user, permission| user % paper::PERMISSIONS == permission);
    let missing = paper::SHEET_BYTES - draft.bytes().len();
    fill(draft.permissions.iter_mut().chain(draft.users.iter_mut().rev()), missing);
    draft
}

/// A sheet whose book has exactly this many bytes, about as many as the book program's buffer. Each of the first
/// hundred users holds a permission of their own. The others hold none, and their names fill the book up.
pub fn with_book_bytes(bytes: usize) -> Draft {
    const HOLDERS: usize = 100;
    let sized = |users| Draft::plain(users, HOLDERS, |user, permission| user == permission);
    let is_within = |draft: &Draft| first_book(&draft.bytes()).len() <= bytes;
    let within = (HOLDERS..=paper::USERS).map(sized).take_while(is_within);
    let mut draft = within.last().expect("the book of the first hundred is shorter");
    let missing = bytes - first_book(&draft.bytes()).len();
    fill(draft.users[HOLDERS..].iter_mut(), missing);
    draft
}

/// A sheet of exactly this many bytes with nothing wrong but one user's name, which is as long as that takes.
pub fn of_bytes(bytes: usize) -> Vec<u8> {
    let rest = "user,p\n,1\n".len();
    format!("user,p\n{},1\n", "n".repeat(bytes - rest)).into_bytes()
}
