//! Newcomers: user lines to put behind a sheet, and books of the sheet for them to join.

use std::collections::BTreeSet;

use second::newcomer::newcomer;
use second::refusal::Refusal;
use second::session::Session;

use crate::book_draft::BookDraft;
use crate::damage;
use crate::draft::{Draft, any_name, user_line};
use crate::paper;
use crate::random::Random;
use crate::restated::spelling::place;
use crate::sessions;
use crate::spelling;

/// Numbers of refusals in the order of checks: the sheet's, the longer sheet's, the book's, and the newcomer's own.
pub const ORDER: [u32; 23] = [1, 2, 3, 4, 5, 6, 7, 8, 9, 1, 2, 5, 6, 7, 9, 12, 13, 14, 15, 17, 18, 19, 11];

/// What a newcomer's call is given, but for the buffer.
#[derive(Clone, Debug, PartialEq, Eq)]
pub struct Admission {
    pub sheet: Vec<u8>,
    pub book: Vec<u8>,
    /// With its line feed.
    pub line: Vec<u8>,
}

impl Admission {
    /// The sheet with the line put behind it.
    pub fn longer_sheet(&self) -> Vec<u8> {
        [&self.sheet[..], &self.line].concat()
    }

    /// The book of the longer sheet, or the cause to refuse it with a buffer that is long enough.
    pub fn result(&self) -> Result<Vec<u8>, Refusal> {
        let mut buffer = vec![0; paper::BOOK_BYTES];
        let count = newcomer(&self.sheet, &self.book, &self.line, &mut buffer)?;
        buffer.truncate(count);
        Ok(buffer)
    }
}

impl Draft {
    /// The same sheet with one user more.
    pub fn with_user(&self, name: &str, row: &[bool]) -> Draft {
        let mut draft = self.clone();
        draft.users.push(name.to_string());
        draft.held.push(row.to_vec());
        draft
    }
}

/// A newcomer of any kind in a book of any kind. Nothing is wrong, but that there may be too many roles.
pub fn any(random: &mut Random, draft: &Draft) -> Admission {
    let book = any_book(random, draft);
    in_book(random, draft, book)
}

/// A newcomer of any kind in this book of the sheet.
pub fn in_book(random: &mut Random, draft: &Draft, book: Vec<u8>) -> Admission {
    let row = any_row(random, draft, &book);
    let line = user_line(&free_name(random, draft), &row).into_bytes();
    Admission { sheet: draft.bytes(), book, line }
}

/// A newcomer with one or two of the sheet, the book and the line damaged.
pub fn damaged(random: &mut Random, draft: &Draft) -> Admission {
    let mut admission = any(random, draft);
    for _ in 0..random.between(1, 2) {
        match random.below(7) {
            0 => admission.sheet = damage::bytes(random, &admission.sheet),
            1..=2 => admission.book = damage::book(random, draft, &admission.book),
            3 => admission.line = taken_line(random, draft),
            _ => admission.line = damage::bytes(random, &admission.line),
        }
    }
    admission
}

/// The line of a newcomer whose name is taken, in any case.
fn taken_line(random: &mut Random, draft: &Draft) -> Vec<u8> {
    let user = random.below(draft.users.len());
    user_line(&spelling::name(random, &draft.users[user]), &draft.held[user]).into_bytes()
}

/// A name that no user of the sheet has; a permission may have it.
pub fn free_name(random: &mut Random, draft: &Draft) -> String {
    random.until_found(|random| {
        let name =
            if random.percent(20) { random.pick(&draft.permissions).clone() } else { any_name(random) };
        place(&draft.users, name.as_bytes()).is_none().then_some(name)
    })
}

/// What a newcomer holds: nothing, everything, what another one or two hold, what some roles hold, with or without some
/// permissions more or less, or anything.
fn any_row(random: &mut Random, draft: &Draft, book: &[u8]) -> Vec<bool> {
    let permissions = draft.permissions.len();
    let mut row = match random.below(10) {
        0 => vec![false; permissions],
        1 => vec![true; permissions],
        2 => random.pick(&draft.held).clone(),
        3 => union(permissions, [random.pick(&draft.held), random.pick(&draft.held)]),
        4 => {
            let density = random.between(5, 95);
            (0..permissions).map(|_| random.percent(density)).collect()
        }
        _ => roles_row(random, draft, book),
    };
    for _ in 0..random.below(3) {
        row[random.below(permissions)] ^= true;
    }
    row
}

fn union<'a>(permissions: usize, rows: impl IntoIterator<Item = &'a Vec<bool>>) -> Vec<bool> {
    let none = vec![false; permissions];
    rows.into_iter().fold(none, |all, row| all.iter().zip(row).map(|(one, other)| *one || *other).collect())
}

/// The permissions of some roles of the book together.
fn roles_row(random: &mut Random, draft: &Draft, book: &[u8]) -> Vec<bool> {
    let book = BookDraft::made_out(draft, &String::from_utf8_lossy(book));
    let chance = *random.pick(&[20, 50, 100]);
    let rows: Vec<Vec<bool>> = book
        .roles
        .iter()
        .filter(|_| random.percent(chance))
        .map(|role| (0..draft.permissions.len()).map(|permission| role.contains(&permission)).collect())
        .collect();
    union(draft.permissions.len(), &rows)
}

/// A book that stands for the sheet: a session's, as it is or with changes that the checker accepts.
pub fn any_book(random: &mut Random, draft: &Draft) -> Vec<u8> {
    let book = searched_book(random, draft);
    if random.percent(50) { book } else { changed_book(random, draft, &book) }
}

/// A book in which each permission is a role of its own. It is open, and has no witness lines.
pub fn plain_book(draft: &Draft) -> Vec<u8> {
    let permissions = draft.permissions.len();
    let ones = |row: &Vec<bool>| (0..permissions).filter(|permission| row[*permission]).collect();
    let book = BookDraft {
        role_count: permissions.to_string(),
        bound: "0".to_string(),
        state: "open".to_string(),
        roles: (0..permissions).map(|permission| BTreeSet::from([permission])).collect(),
        users: draft.held.iter().map(ones).collect(),
        witness: Vec::new(),
    };
    book.text(draft).into_bytes()
}

/// The book of a session after any search.
pub fn searched_book(random: &mut Random, draft: &Draft) -> Vec<u8> {
    let mut session: Session = sessions::reduced(&draft.bytes());
    let most = *random.pick(&[0, 50, 3_000]);
    session.search(random.between(0, most) as u32).expect("the sheet is reduced");
    session.reduced().expect("the sheet is reduced").book_bytes()
}

/// The book with changes that the checker accepts: witness lines in another order or left out, roles in another order,
/// more roles, of which some hold nothing and some up to the limit, another state word that the counts allow, and names
/// in other case.
pub fn changed_book(random: &mut Random, draft: &Draft, book: &[u8]) -> Vec<u8> {
    let mut book = BookDraft::made_out(draft, &String::from_utf8_lossy(book));
    for _ in 0..random.between(1, 3) {
        match random.below(8) {
            0..=1 => random.shuffle(&mut book.witness),
            2 => drop(book.witness.pop()),
            3 => shuffle_roles(random, &mut book),
            4 => put_empty_role(random, &mut book),
            5 => put_unused_role(random, draft, &mut book),
            6 => put_copied_role(random, &mut book),
            _ if random.percent(20) => book.roles.resize_with(paper::ROLES, BTreeSet::new),
            _ => book.witness.reverse(),
        }
    }
    damage::agree(random, &mut book);
    let text = book.text(draft).into_bytes();
    if random.percent(50) { spelling::book(random, draft, &text) } else { text }
}

fn shuffle_roles(random: &mut Random, book: &mut BookDraft) {
    let mut from: Vec<usize> = (0..book.roles.len()).collect();
    random.shuffle(&mut from);
    book.roles = from.iter().map(|role| book.roles[*role].clone()).collect();
    for roles in &mut book.users {
        *roles = (0..from.len()).filter(|role| roles.contains(&from[*role])).collect();
    }
}

/// A role without permissions, which anyone may have.
fn put_empty_role(random: &mut Random, book: &mut BookDraft) {
    let role = book.roles.len();
    book.roles.push(BTreeSet::new());
    for roles in &mut book.users {
        if random.percent(50) {
            roles.insert(role);
        }
    }
}

/// A role of any permissions, which nobody has.
fn put_unused_role(random: &mut Random, draft: &Draft, book: &mut BookDraft) {
    book.roles.push((0..draft.permissions.len()).filter(|_| random.percent(30)).collect());
}

/// A copy of a role, which some of those have who have the role.
fn put_copied_role(random: &mut Random, book: &mut BookDraft) {
    let copy = book.roles.len();
    if copy == 0 {
        return;
    }
    let role = random.below(copy);
    book.roles.push(book.roles[role].clone());
    for roles in &mut book.users {
        if roles.contains(&role) && random.percent(50) {
            roles.insert(copy);
        }
    }
}

/// A call, and the length of its buffer.
#[derive(Clone, Debug, PartialEq, Eq)]
pub struct Lent {
    pub admission: Admission,
    pub length: usize,
}

/// A call to which, of the causes in the order of checks, the one at this place applies and none before it, and together
/// with it the one behind it; as many of all others behind it as can. At the place past the last one nothing is wrong.
///
/// The sheet has users who hold the first eight of nine permissions, and the newcomer holds the ninth, which no role has.
pub fn refused_from(place: usize) -> Lent {
    // Whether the cause with this number applies, the sheet's, or the one that comes behind the sheet's.
    let of_the_sheet = |number: u32| place < 9 && place < number as usize;
    let behind =
        |number: u32| ORDER[9..].iter().position(|other| *other == number).is_some_and(|at| place <= 9 + at);
    let users = if behind(18) { paper::USERS } else { paper::USERS - 1 };
    let mut draft = Draft::plain(users, 9, |user, permission| permission < 8 && user < 255);
    if behind(9) {
        draft.held[users - 1] = draft.held[0].clone();
    }
    let mut book = BookDraft {
        role_count: String::new(),
        bound: if behind(13) { "7" } else { "1" }.to_string(),
        state: "open".to_string(),
        roles: vec![(0..8).collect(), BTreeSet::new()],
        users: draft.held.iter().map(|row| BTreeSet::from([usize::from(!row[0])])).collect(),
        witness: vec![(0, if behind(15) { 8 } else { 0 })],
    };
    if behind(14) {
        book.roles[0].remove(&7);
    }
    if behind(19) {
        book.roles.resize_with(paper::ROLES, BTreeSet::new);
    }
    book.role_count = book.roles.len().to_string();
    let mut book = book.text(&draft);
    if behind(12) {
        book = book.replacen("\nR1,", "\nr1,", 1);
    }
    let line = refused_line(behind);
    if of_the_sheet(9) {
        draft.held[0][8] = true;
    }
    if of_the_sheet(8) {
        draft.users[1] = "U0".to_string();
    }
    if of_the_sheet(5) {
        draft.users[2] = "u2-of-seventeen..".to_string();
    }
    let mut sheet = String::from_utf8(draft.bytes()).expect("a sheet is plain text");
    if of_the_sheet(7) {
        sheet = sheet.replacen("\nu4,1,", "\nu4,2,", 1);
    }
    if of_the_sheet(6) {
        sheet = sheet.replacen("\nu3,1,", "\nu3,1,1,", 1);
    }
    if of_the_sheet(4) {
        sheet += "last,0,0,0,0,0,0,0,0,0\n";
    }
    if of_the_sheet(3) {
        sheet = sheet.replacen("user,", "User,", 1);
    }
    if of_the_sheet(2) {
        sheet.pop();
    }
    if of_the_sheet(1) {
        sheet.insert_str(0, &"u".repeat(paper::SHEET_BYTES));
    }
    let admission = Admission { sheet: sheet.into_bytes(), book: book.into_bytes(), line };
    let length = if behind(11) { 100 } else { paper::BOOK_BYTES };
    Lent { admission, length }
}

/// The line of a newcomer who holds the last of nine permissions.
fn refused_line(applies: impl Fn(u32) -> bool) -> Vec<u8> {
    let name = match (applies(5), applies(17)) {
        (true, _) => "",
        (false, true) => "U0",
        (false, false) => "newcomer",
    };
    let mut line = format!("{name},0,0,0,0,0,0,0,{},1", if applies(7) { "2" } else { "0" });
    if applies(6) {
        line += ",1";
    }
    if applies(1) {
        line += &",1".repeat(paper::SHEET_BYTES / 2);
    }
    if !applies(2) {
        line += "\n";
    }
    line.into_bytes()
}

/// What two users in the middle hold, and the first permission that neither of them does.
pub fn row_with_rest(draft: &Draft) -> Vec<bool> {
    let middle = draft.users.len() / 2;
    let mut row = union(draft.permissions.len(), [&draft.held[middle], &draft.held[middle / 2]]);
    if let Some(missing) = row.iter_mut().find(|held| !**held) {
        *missing = true;
    }
    row
}
