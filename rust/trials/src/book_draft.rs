//! A book while it is being made, or as far as it can be made out.

use std::collections::BTreeSet;
use std::ops::Range;

use second::roles::State;

use crate::draft::Draft;

/// A cell of the sheet: a user and a permission.
pub type Cell = (usize, usize);

/// Whose name stands at a place of a book.
#[derive(Clone, Copy, Debug, PartialEq, Eq, PartialOrd, Ord)]
pub enum Place {
    /// A permission's, in the first line of block 2.
    RoleHeading,
    /// A user's, at the front of a line of block 3.
    UserLine,
    /// A user's, in a line of block 4.
    WitnessUser,
    /// A permission's, in a line of block 4.
    WitnessPermission,
}

impl Place {
    pub const ALL: [Place; 4] =
        [Place::RoleHeading, Place::UserLine, Place::WitnessUser, Place::WitnessPermission];

    /// The sheet's names of which one stands here.
    pub fn names(self, draft: &Draft) -> &[String] {
        match self {
            Place::RoleHeading | Place::WitnessPermission => &draft.permissions,
            Place::UserLine | Place::WitnessUser => &draft.users,
        }
    }
}

/// The text for this sheet, be it a book or not, with its fields changed. For each it is said whose name stands there,
/// if any does. Commas and line feeds stay.
pub fn with_fields(
    draft: &Draft,
    text: &[u8],
    mut change: impl FnMut(Option<Place>, &[u8]) -> Vec<u8>,
) -> Vec<u8> {
    let lines: Vec<&[u8]> = text.split(|byte| *byte == b'\n').collect();
    let layout = Layout::of(draft, lines.iter().map(|line| line.is_empty()));
    let mut changed: Vec<Vec<u8>> = Vec::new();
    for (number, line) in lines.iter().enumerate() {
        let fields = line.split(|byte| *byte == b',').enumerate();
        let fields: Vec<Vec<u8>> = fields
            .map(|(index, field)| {
                let place = if line.is_empty() { None } else { layout.place(number, index) };
                change(place, field)
            })
            .collect();
        changed.push(fields.join(&b','));
    }
    changed.join(&b'\n')
}

/// Which lines of a text are those of a book for the sheet.
struct Layout {
    role_lines: Range<usize>,
    user_lines: Range<usize>,
    first_witness_line: usize,
}

/// The line that names the permissions.
const ROLE_HEADING_LINE: usize = 3;

impl Layout {
    /// Role lines go on to the first empty line, and there are as many user lines as the sheet has.
    fn of(draft: &Draft, is_empty: impl Iterator<Item = bool>) -> Layout {
        let first_role_line = ROLE_HEADING_LINE + 1;
        let roles = is_empty.skip(first_role_line).take_while(|is_empty| !is_empty).count();
        let role_lines = first_role_line..first_role_line + roles;
        let user_lines = role_lines.end + 2..role_lines.end + 2 + draft.users.len();
        Layout { role_lines, first_witness_line: user_lines.end + 2, user_lines }
    }

    /// Whose name stands in this field of this line, if any does.
    fn place(&self, line: usize, field: usize) -> Option<Place> {
        let is_witness_line = line >= self.first_witness_line;
        match field {
            1.. if line == ROLE_HEADING_LINE => Some(Place::RoleHeading),
            0 if self.user_lines.contains(&line) => Some(Place::UserLine),
            0 if is_witness_line => Some(Place::WitnessUser),
            1 if is_witness_line => Some(Place::WitnessPermission),
            _ => None,
        }
    }
}

/// What a book prints about its roles.
#[derive(Clone, Copy, Debug, PartialEq, Eq)]
pub struct Printed {
    pub roles: usize,
    pub bound: usize,
    pub state: State,
}

impl Printed {
    /// As it stands in the second line of the book.
    pub fn of(book: &[u8]) -> Printed {
        let text = String::from_utf8_lossy(book);
        Printed::in_fields(text.lines().nth(1).unwrap_or_default().split(','))
    }

    /// The number of roles, the bound and the state word, as the fields spell them.
    pub fn in_fields<'a>(mut fields: impl Iterator<Item = &'a str>) -> Printed {
        let mut number =
            || fields.next().and_then(|field| field.parse().ok()).expect("the count is a number");
        let (roles, bound) = (number(), number());
        let word = fields.next();
        let state = State::ALL.into_iter().find(|state| Some(state.word()) == word);
        Printed { roles, bound, state: state.expect("the word is that of a state") }
    }
}

/// What a book says; nothing keeps it within the rules.
#[derive(Clone, Debug, PartialEq, Eq)]
pub struct BookDraft {
    pub role_count: String,
    pub bound: String,
    pub state: String,
    /// For each role, the permissions that it holds.
    pub roles: Vec<BTreeSet<usize>>,
    /// For each user, the roles that they have.
    pub users: Vec<BTreeSet<usize>>,
    pub witness: Vec<Cell>,
}

impl BookDraft {
    /// What can be made out of a text for this sheet, be it a book or not. Names are known as the sheet spells them.
    pub fn made_out(draft: &Draft, text: &str) -> BookDraft {
        let lines: Vec<&str> = text.lines().collect();
        let mut counts = lines.get(1).copied().unwrap_or("").split(',');
        let mut count = || counts.next().unwrap_or("").to_string();
        let layout = Layout::of(draft, lines.iter().map(|line| line.is_empty()));
        let ones_of = |range: Range<usize>| {
            let rows = lines.iter().skip(range.start).take(range.len());
            rows.map(|line| ones(line)).collect()
        };
        let witness_lines = lines.iter().skip(layout.first_witness_line);
        BookDraft {
            role_count: count(),
            bound: count(),
            state: count(),
            roles: ones_of(layout.role_lines),
            users: ones_of(layout.user_lines),
            witness: witness_lines.filter_map(|line| pair(draft, line)).collect(),
        }
    }

    /// The bytes of the book that says this, with names as the sheet spells them.
    pub fn text(&self, draft: &Draft) -> String {
        let mut text = format!("roles,bound,state\n{},{},{}\n", self.role_count, self.bound, self.state);
        text += &format!("\nrole,{}\n", draft.permissions.join(","));
        for (index, role) in self.roles.iter().enumerate() {
            text += &format!("R{}{}\n", index + 1, cells(role, draft.permissions.len()));
        }
        let names: String = (1..=self.roles.len()).map(|number| format!(",R{number}")).collect();
        text += &format!("\nuser{names}\n");
        for (name, user) in draft.users.iter().zip(&self.users) {
            text += &format!("{name}{}\n", cells(user, self.roles.len()));
        }
        text += "\nuser,permission\n";
        for (user, permission) in &self.witness {
            text += &format!("{},{}\n", draft.users[*user], draft.permissions[*permission]);
        }
        text
    }

    /// The cells that some user opens through some role.
    pub fn opened(&self) -> BTreeSet<Cell> {
        let users = self.users.iter().enumerate();
        let through = |(user, roles): (usize, &BTreeSet<usize>)| {
            let permissions: BTreeSet<usize> =
                roles.iter().flat_map(|role| self.roles[*role].clone()).collect();
            permissions.into_iter().map(move |permission| (user, permission))
        };
        users.flat_map(through).collect()
    }
}

/// The places of the ones among the fields after the first.
fn ones(line: &str) -> BTreeSet<usize> {
    let fields = line.split(',').skip(1).enumerate();
    fields.filter(|(_, field)| *field == "1").map(|(place, _)| place).collect()
}

fn cells(ones: &BTreeSet<usize>, count: usize) -> String {
    (0..count).map(|place| if ones.contains(&place) { ",1" } else { ",0" }).collect()
}

fn pair(draft: &Draft, line: &str) -> Option<Cell> {
    let (user, permission) = line.split_once(',')?;
    let user = draft.users.iter().position(|name| name == user)?;
    let permission = draft.permissions.iter().position(|name| name == permission)?;
    Some((user, permission))
}
