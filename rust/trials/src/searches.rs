//! Sheets to search: random ones on which there is something to search, and ones of which the whole search is known.

use second::roles::State;
use second::session::{SearchAnswer, Session};

use crate::draft::Draft;
use crate::families;
use crate::random::Random;
use crate::sessions;
use crate::steps::{NO_STEPS, search_answer};

/// A random sheet that its first cover does not finish.
pub fn unfinished(random: &mut Random) -> Draft {
    random.until_found(|random| {
        let density = random.between(40, 80);
        let (users, permissions) = (random.between(4, 7), random.between(4, 7));
        let draft = families::random(random, users, permissions, density);
        is_open(&draft).then_some(draft)
    })
}

/// A sheet with more permissions than a word has bits, on which there may be something to search.
pub fn any_wide_or_unfinished(random: &mut Random) -> Draft {
    if random.percent(50) {
        families::behind(60, &unfinished(random))
    } else {
        families::any_wide(random, 10)
    }
}

/// Whether the sheet, which must be acceptable, is open when it is reduced.
pub fn is_open(draft: &Draft) -> bool {
    let answer = sessions::reduced::<Session>(&draft.bytes()).search(0);
    answer.is_ok_and(|answer| answer.state == State::Open)
}

/// Sheets with what one search of the largest budget answers, worked out apart from this code. The last one has a
/// kernel that is too large to be searched.
pub fn worked_out() -> Vec<(Draft, SearchAnswer)> {
    vec![
        (families::crown(3), search_answer(NO_STEPS, 3, 3, State::Witnessed)),
        (families::crown(4), search_answer([125, 62, 62, 1], 4, 4, State::Searched)),
        (families::crown(5), search_answer([1_613, 806, 806, 1], 4, 4, State::Searched)),
        (improved(), search_answer([45, 22, 22, 1], 5, 5, State::Searched)),
        (finished_by_the_witness(), search_answer([9, 8, 1, 0], 4, 4, State::Witnessed)),
        (families::crown(12), search_answer(NO_STEPS, 12, 3, State::Open)),
    ]
}

/// The search finds five classes where the first cover has six, and then closes.
pub fn improved() -> Draft {
    named(
        "qrstuvw",
        "abcdefg",
        &["1101011", "1101111", "0111111", "1101010", "1010011", "1110111", "1010111"],
    )
}

/// The search finds a class less than the first cover has, and so as many roles as the witness has grants.
pub fn finished_by_the_witness() -> Draft {
    named("qrstu", "abcde", &["01111", "01110", "10010", "11001", "10111"])
}

/// Eight users each lacking their own permission, of whom one lacks another one too. It takes 102,899,783 steps to
/// close.
pub fn long() -> Draft {
    Draft::plain(8, 8, |user, permission| user != permission && (user, permission) != (2, 7))
}

/// A sheet with names of one letter each and the rows of its users.
fn named(users: &str, permissions: &str, rows: &[&str]) -> Draft {
    let letters = |names: &str| names.chars().map(String::from).collect();
    let held = rows.iter().map(|row| row.chars().map(|cell| cell == '1').collect()).collect();
    Draft { users: letters(users), permissions: letters(permissions), held }
}
