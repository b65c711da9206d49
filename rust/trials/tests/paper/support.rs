//! What several subjects need.

use second::checker::{CheckAnswer, check};
use second::grants::Grant;
use second::session::{LoadAnswer, ReduceAnswer, Reduced, Session};
use trials::draft::Draft;
pub use trials::paper::EXAMPLE;
use trials::random::Random;
use trials::searches;
use trials::sessions;

/// The book of the worked example.
pub const EXAMPLE_BOOK: &str = "roles,bound,state\n2,2,witnessed\n\nrole,rec,id,map\nR1,1,1,0\nR2,0,1,1\n\n\
    user,R1,R2\nann,1,0\nbo,0,1\ncy,1,1\n\nuser,permission\nann,rec\nbo,map\n";

/// Steps after which a trial stops watching.
pub const WATCHED_STEPS: u32 = 2_000;

/// A session with this sheet, which must be acceptable. It is not reduced.
pub fn loaded(sheet: &[u8]) -> Session {
    sessions::loaded(sheet)
}

/// A session with this sheet, which must be acceptable, reduced.
pub fn session_with(sheet: &[u8]) -> Session {
    sessions::reduced(sheet)
}

/// The session's sheet, what its reduction found out, and how far it has been searched.
pub fn reduced(session: &Session) -> &Reduced {
    session.reduced().expect("the sheet is reduced")
}

/// The book as text.
pub fn book(session: &Session) -> String {
    String::from_utf8(reduced(session).book_bytes()).expect("names are of plain bytes")
}

/// The number of the refusal of a load, 0 if there is none.
pub fn load_number(sheet: &[u8]) -> u32 {
    match Session::fresh().load(sheet) {
        Ok(_) => 0,
        Err(refusal) => refusal.number(),
    }
}

/// The number of the refusal of a check, 0 if there is none.
pub fn check_number(sheet: &str, book: &str) -> u32 {
    match check(sheet.as_bytes(), book.as_bytes()) {
        Ok(_) => 0,
        Err(refusal) => refusal.number(),
    }
}

pub fn load_answer(users: usize, permissions: usize, grants: usize) -> LoadAnswer {
    LoadAnswer { users, permissions, grants }
}

pub fn reduce_answer(kernel: usize, witness: usize) -> ReduceAnswer {
    ReduceAnswer { kernel, witness }
}

pub fn check_answer(roles: usize, witness_lines: usize) -> CheckAnswer {
    CheckAnswer { roles, witness_lines }
}

/// The number of each of the session's grants in the order of the draft.
pub fn numbers(draft: &Draft, grants: &[Grant]) -> Vec<usize> {
    let all = draft.grants();
    let number = |grant: &Grant| {
        let pair = (grant.user.0, grant.permission.0);
        all.iter().position(|other| *other == pair).expect("a grant of the sheet")
    };
    grants.iter().map(number).collect()
}

/// The check of the worked example's book with a piece of it replaced, which must be there.
pub fn check_of_replaced(piece: &str, other: &str) -> u32 {
    assert!(EXAMPLE_BOOK.contains(piece), "{piece}");
    check_number(EXAMPLE, &EXAMPLE_BOOK.replacen(piece, other, 1))
}

/// A book for the worked example's sheet with these counts and witness lines and this many roles without
/// users put to its two.
pub fn example_book(counts: &str, more_roles: usize, witness: &str) -> String {
    let last = more_roles + 2;
    let roles: String = (3..=last).map(|role| format!("R{role},0,1,0\n")).collect();
    let names: String = (1..=last).map(|role| format!(",R{role}")).collect();
    let none = ",0".repeat(more_roles);
    format!(
        "roles,bound,state\n{counts}\n\nrole,rec,id,map\nR1,1,1,0\nR2,0,1,1\n{roles}\nuser{names}\n\
         ann,1,0{none}\nbo,0,1{none}\ncy,1,1{none}\n\nuser,permission\n{witness}"
    )
}

/// A sheet on which there is something to search.
pub fn unfinished(random: &mut Random) -> (Draft, Session) {
    let draft = searches::unfinished(random);
    let session = session_with(&draft.bytes());
    (draft, session)
}
