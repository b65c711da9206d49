//! A sheet while it is being made.

use std::collections::BTreeSet;

use crate::paper;
use crate::random::Random;
use crate::restated::spelling::settled;
use crate::spelling;

/// Names and ones of a sheet; nothing keeps them within the rules.
#[derive(Clone, Debug, PartialEq, Eq)]
pub struct Draft {
    pub users: Vec<String>,
    pub permissions: Vec<String>,
    /// For each user, whether they hold each permission.
    pub held: Vec<Vec<bool>>,
}

/// Names that also have another meaning somewhere in a sheet or a book, or would have one in other case.
const AMBIGUOUS_NAMES: [&str; 16] = [
    "user",
    "User",
    "role",
    "ROLE",
    "roles",
    "permission",
    "R1",
    "r1",
    "R2",
    "0",
    "1",
    "-",
    ".",
    "_",
    "open",
    "Open",
];

/// All bytes that a name may have.
pub const NAME_CHARACTERS: &[u8] = b"ABCDEFGHIJKLMNOPQRSTUVWXYZabcdefghijklmnopqrstuvwxyz0123456789-._";

impl Draft {
    /// Users `u0`, `u1`, .. and permissions `p0`, `p1`, ..
    pub fn plain(users: usize, permissions: usize, holds: impl Fn(usize, usize) -> bool) -> Draft {
        Draft {
            users: (0..users).map(|user| format!("u{user}")).collect(),
            permissions: (0..permissions).map(|permission| format!("p{permission}")).collect(),
            held: (0..users)
                .map(|user| (0..permissions).map(|permission| holds(user, permission)).collect())
                .collect(),
        }
    }

    /// The same ones under other names with letters in both cases, some of them ambiguous or as long as allowed. Some
    /// permissions have a user's name, spelled alike or in other case.
    pub fn renamed(mut self, random: &mut Random) -> Draft {
        self.users = distinct_names(random, self.users.len(), &[]);
        self.permissions = distinct_names(random, self.permissions.len(), &self.users);
        self
    }

    /// The ones as pairs of user and permission in grant order.
    pub fn grants(&self) -> Vec<(usize, usize)> {
        let cells = (0..self.users.len())
            .flat_map(|user| (0..self.permissions.len()).map(move |permission| (user, permission)));
        cells.filter(|(user, permission)| self.held[*user][*permission]).collect()
    }

    pub fn bytes(&self) -> Vec<u8> {
        let mut text = format!("user,{}\n", self.permissions.join(","));
        for (name, row) in self.users.iter().zip(&self.held) {
            text += &user_line(name, row);
        }
        text.into_bytes()
    }

    /// The draft of these bytes, which must be an acceptable sheet.
    pub fn made_out(sheet: &[u8]) -> Draft {
        let text = str::from_utf8(sheet).expect("an acceptable sheet is plain text");
        let mut lines = text.lines().map(|line| line.split(','));
        let permissions = lines.next().expect("there is a first line").skip(1).map(str::to_string).collect();
        let mut draft = Draft { users: Vec::new(), permissions, held: Vec::new() };
        for mut fields in lines {
            draft.users.extend(fields.next().map(str::to_string));
            draft.held.push(fields.map(|field| field == "1").collect());
        }
        draft
    }
}

/// The line of a user of this name, who holds these permissions.
pub fn user_line(name: &str, row: &[bool]) -> String {
    let cells: String = row.iter().map(|held| if *held { ",1" } else { ",0" }).collect();
    format!("{name}{cells}\n")
}

/// So many different names, some of them also among the others given.
fn distinct_names(random: &mut Random, count: usize, others: &[String]) -> Vec<String> {
    let mut seen = BTreeSet::new();
    let mut names = Vec::new();
    while names.len() < count {
        let name = if !others.is_empty() && random.percent(20) {
            shared_name(random, others)
        } else {
            any_name(random)
        };
        if seen.insert(settled(name.as_bytes())) {
            names.push(name);
        }
    }
    names
}

fn shared_name(random: &mut Random, others: &[String]) -> String {
    let name = random.pick(others).clone();
    if random.percent(50) { spelling::name(random, &name) } else { name }
}

/// A name of any kind.
pub fn any_name(random: &mut Random) -> String {
    if random.percent(10) {
        return random.pick(&AMBIGUOUS_NAMES).to_string();
    }
    let length = random.between(1, paper::NAME_BYTES);
    (0..length).map(|_| char::from(*random.pick(NAME_CHARACTERS))).collect()
}
