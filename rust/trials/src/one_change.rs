//! Two sheets with the same names that differ only in one user's line, or only in one permission's column.

use std::collections::BTreeSet;

use second::roles::State;

use crate::book_draft::{BookDraft, Cell, Printed};
use crate::brute;
use crate::draft::Draft;
use crate::families;
use crate::paper;
use crate::random::Random;
use crate::searches;
use crate::spelling;

/// Where the two sheets may differ.
#[derive(Clone, Copy, Debug, PartialEq, Eq, PartialOrd, Ord)]
pub enum Changed {
    /// In the line of this user.
    Line(usize),
    /// In the column of this permission.
    Column(usize),
}

impl Changed {
    /// The cells of that line or column, in the order of the sheet.
    pub fn cells(self, draft: &Draft) -> Vec<Cell> {
        match self {
            Changed::Line(user) => {
                (0..draft.permissions.len()).map(|permission| (user, permission)).collect()
            }
            Changed::Column(permission) => (0..draft.users.len()).map(|user| (user, permission)).collect(),
        }
    }

    pub fn is_line(self) -> bool {
        matches!(self, Changed::Line(_))
    }
}

/// What the changed line or column has in the second sheet.
#[derive(Clone, Copy, Debug, PartialEq, Eq, PartialOrd, Ord)]
pub enum NewCells {
    Any,
    Ones,
    Zeros,
    /// What it has in the first sheet, but for one cell.
    OneOther,
    /// What it has in the first sheet: the two do not differ.
    Same,
}

impl NewCells {
    pub const ALL: [NewCells; 5] =
        [NewCells::Any, NewCells::Ones, NewCells::Zeros, NewCells::OneOther, NewCells::Same];
}

/// The first and the second sheet, and where they may differ. Their names are equal, also where one is in other case.
#[derive(Clone, Debug, PartialEq, Eq)]
pub struct OneChange {
    pub before: Draft,
    pub after: Draft,
    pub changed: Changed,
}

impl OneChange {
    /// The sheet, and the same with these cells in the line or column, written as `0` and `1`.
    pub fn to(before: &Draft, changed: Changed, cells: &str) -> OneChange {
        let mut after = before.clone();
        let places = changed.cells(before);
        assert_eq!(places.len(), cells.len(), "{changed:?} to {cells}");
        for ((user, permission), value) in places.into_iter().zip(cells.chars()) {
            after.held[user][permission] = value == '1';
        }
        OneChange { before: before.clone(), after, changed }
    }

    pub fn sheets(&self) -> [&Draft; 2] {
        [&self.before, &self.after]
    }

    /// The same two sheets, the second one first.
    pub fn taken_back(&self) -> OneChange {
        OneChange { before: self.after.clone(), after: self.before.clone(), changed: self.changed }
    }

    /// A book of the second sheet, made from one of the first by one role more. A changed line: all roles are taken
    /// from that user, who gets the new one, which holds exactly what they hold now. A changed column: that
    /// permission is taken from all roles, and the new one holds it alone and is given to exactly those who hold it
    /// now. It claims nothing: it is `open` with no witness lines.
    pub fn with_one_role_more(&self, book: &BookDraft) -> BookDraft {
        let (mut roles, mut users) = (book.roles.clone(), book.users.clone());
        let new = roles.len();
        let held = |cell: &Cell| self.after.held[cell.0][cell.1];
        let ones = self.changed.cells(&self.after).into_iter().filter(held);
        match self.changed {
            Changed::Line(user) => {
                users[user] = BTreeSet::from([new]);
                roles.push(ones.map(|(_, permission)| permission).collect());
            }
            Changed::Column(permission) => {
                for role in &mut roles {
                    role.remove(&permission);
                }
                roles.push(BTreeSet::from([permission]));
                for (user, _) in ones {
                    users[user].insert(new);
                }
            }
        }
        BookDraft {
            role_count: roles.len().to_string(),
            bound: "0".to_string(),
            state: State::Open.word().to_string(),
            roles,
            users,
            witness: Vec::new(),
        }
    }
}

/// The sheet, and the same with a line or a column changed in any way, often the first or the last one, and what that
/// then has. The second sheet has some of its names in other case, or none.
pub fn any(random: &mut Random, before: Draft) -> (OneChange, NewCells) {
    let changed = if random.percent(50) {
        Changed::Line(any_place(random, before.users.len()))
    } else {
        Changed::Column(any_place(random, before.permissions.len()))
    };
    let mut after = if random.percent(50) { spelling::sheet(random, &before) } else { before.clone() };
    let new = *random.pick(&NewCells::ALL);
    let cells = changed.cells(&before);
    let one = *random.pick(&cells);
    let density = random.between(5, 95);
    for cell in cells {
        let held = &mut after.held[cell.0][cell.1];
        *held = match new {
            NewCells::Any => random.percent(density),
            NewCells::Ones => true,
            NewCells::Zeros => false,
            NewCells::OneOther => *held != (cell == one),
            NewCells::Same => *held,
        };
    }
    (OneChange { before, after, changed }, new)
}

fn any_place(random: &mut Random, count: usize) -> usize {
    match random.below(4) {
        0 => 0,
        1 => count - 1,
        _ => random.below(count),
    }
}

/// Users and permissions up to which the smallest number of roles can be found by trying, and every search ends soon.
const SMALL: usize = 6;

/// Two sheets of at most six users and six permissions, of which either may have been changed to the other. On some
/// there is something to search.
pub fn any_small(random: &mut Random) -> OneChange {
    let is_small = |draft: &Draft| draft.users.len().max(draft.permissions.len()) <= SMALL;
    let draft = random.until_found(|random| Some(any_sheet(random)).filter(is_small));
    let (change, _) = any(random, draft);
    if random.percent(50) { change } else { change.taken_back() }
}

fn any_sheet(random: &mut Random) -> Draft {
    match random.below(3) {
        0 => families::any(random, SMALL),
        1 => searches::unfinished(random).renamed(random),
        _ => {
            let (users, permissions) = (random.between(1, SMALL), random.between(1, SMALL));
            let density = random.between(5, 95);
            families::random(random, users, permissions, density).renamed(random)
        }
    }
}

/// Judges what the books of two small sheets print once their searches are closed. Neither is `open`, each number is
/// the smallest one, which is found here from the two matrices alone, and the two are at most 1 apart. Gives the move
/// from the first to the second.
pub fn judged_move(change: &OneChange, printed: [Printed; 2]) -> isize {
    for (draft, printed) in change.sheets().into_iter().zip(printed) {
        assert_ne!(printed.state, State::Open, "{draft:?}");
        let smallest = brute::smallest(&draft.held);
        assert_eq!((printed.roles, printed.bound), (smallest, smallest), "{draft:?}");
    }
    let [before, after] = printed.map(|printed| printed.roles as isize);
    assert!((after - before).abs() <= 1, "{before} {after} {change:?}");
    after - before
}

/// Changes with what the books of the two sheets print once their searches are closed, worked out on paper, each with
/// either sheet first. The number of roles goes up by 1, down by 1 or stays, for lines and for columns.
pub fn worked_out() -> Vec<(OneChange, [Printed; 2])> {
    let example = Draft::made_out(paper::EXAMPLE.as_bytes());
    let four = families::crown(4);
    let settled = |roles, state| Printed { roles, bound: roles, state };
    let [two, three] = [2, 3].map(|roles| settled(roles, State::Witnessed));
    let four_roles = settled(4, State::Searched);
    let there = [
        // Everyone holds two permissions, no two the same: (ann, rec), (bo, id) and (cy, map) do not fit.
        (OneChange::to(&example, Changed::Line(2), "101"), [two, three]),
        // (ann, rec) and (bo, map) still do not fit, and nobody else holds anything.
        (OneChange::to(&example, Changed::Line(2), "000"), [two, two]),
        // Ann holds `rec`, bo `id` and `map`, cy `rec` and `map`: (ann, rec), (bo, id) and (cy, map) do not fit.
        (OneChange::to(&example, Changed::Column(1), "010"), [two, three]),
        // Ann and cy hold `rec` and `id`, bo `id` alone: (ann, rec) and (bo, id) do not fit.
        (OneChange::to(&example, Changed::Column(2), "000"), [two, two]),
        // Each grant of the last user and of the last permission, if there is one, dominates one of the other six.
        // These are three users each lacking their own permission, with three roles and a witness of three.
        (OneChange::to(&four, Changed::Line(3), "1111"), [four_roles, three]),
        (OneChange::to(&four, Changed::Column(3), "0000"), [four_roles, three]),
        // One more of the twelve grants is missing, and still three roles are not enough.
        (OneChange::to(&four, Changed::Line(3), "1100"), [four_roles, four_roles]),
        (OneChange::to(&four, Changed::Column(3), "1100"), [four_roles, four_roles]),
    ];
    let back = there.iter().map(|(change, [before, after])| (change.taken_back(), [*after, *before]));
    there.iter().cloned().chain(back).collect()
}
