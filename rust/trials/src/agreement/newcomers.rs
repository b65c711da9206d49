//! A newcomer in an existing book: with every kind of book and of newcomer, one after another, at every limit, and with
//! every two causes that are judged one behind the other.

use second::checker::CheckAnswer;
use second::implementation::Implementation;
use second::newcomer::newcomer;
use second::refusal::Refusal;
use second::roles::State;
use second::script::lent_buffer;

use crate::agreement::checked;
use crate::book_draft::{BookDraft, Printed};
use crate::cases::cases;
use crate::draft::{Draft, user_line};
use crate::extremes;
use crate::families;
use crate::newcomers::{self, Admission, Lent, ORDER};
use crate::paper;
use crate::random::Random;
use crate::sessions::first_book;
use crate::spelling;
use crate::tally::Tally;

/// The answer of both with a buffer of this length; the buffers are then compared whole. A refused newcomer leaves
/// every byte, and an accepted one those past the book.
pub fn joined<Other: Implementation>(
    sheet: &[u8],
    book: &[u8],
    line: &[u8],
    length: usize,
) -> Result<usize, Refusal> {
    let context = || [sheet, book, line].map(|bytes| String::from_utf8_lossy(bytes).into_owned()).join("\n");
    let before = lent_buffer(length);
    let mut expected_buffer = before.clone();
    let expected = newcomer(sheet, book, line, &mut expected_buffer);
    let kept = expected.unwrap_or(0);
    assert!(expected_buffer[kept..] == before[kept..], "{}", context());
    let mut buffer = before;
    assert_eq!(Other::newcomer(sheet, book, line, &mut buffer), expected, "{}", context());
    assert!(buffer == expected_buffer, "{}\nand not\n{}", String::from_utf8_lossy(&buffer), context());
    expected
}

/// The answer of both with a buffer that is long enough. If there is a book, also with buffers of its length, one byte
/// shorter, of no byte and some bytes longer. Gives the book, of which both checkers must think the same.
pub fn joined_book<Other: Implementation>(admission: &Admission) -> Result<Vec<u8>, Refusal> {
    let Admission { sheet, book, line } = admission;
    let answer = |length| joined::<Other>(sheet, book, line, length);
    let count = answer(paper::BOOK_BYTES)?;
    for length in [0, count / 2, count - 1] {
        assert_eq!(answer(length), Err(Refusal::BufferLength), "{length}");
    }
    for length in [count, count + 1, count + 100] {
        assert_eq!(answer(length), Ok(count), "{length}");
    }
    let book = admission.result()?;
    checked::<Other>(&admission.longer_sheet(), &book).expect("a newcomer's book is accepted");
    Ok(book)
}

/// The state word of the book, and whether the newcomer's book has a role more.
fn outcome(admission: &Admission, result: &[u8]) -> (&'static str, bool) {
    let (before, after) = (Printed::of(&admission.book), Printed::of(result));
    (before.state.word(), before.roles != after.roles)
}

/// Newcomers in books as sessions write them: open, searched and witnessed.
pub fn newcomers_agree<Other: Implementation>(count: u64, sheet: impl Fn(&mut Random) -> Draft) {
    let mut seen = Tally::default();
    cases(count, |random| {
        let draft = sheet(random);
        let book = newcomers::searched_book(random, &draft);
        for _ in 0..3 {
            let admission = newcomers::in_book(random, &draft, book.clone());
            let result = joined_book::<Other>(&admission).expect("nothing is wrong");
            seen.note(outcome(&admission, &result));
        }
    });
    for state in State::ALL.map(State::word) {
        seen.expect([true, false].map(|is_new| (state, is_new)), 5);
    }
}

/// Newcomers in books that no session writes: with witness lines in any order or left out, roles in any order, more of
/// them, and names in other case. A book in other case gives what the book in the sheet's spelling gives.
pub fn changed_books_agree<Other: Implementation>(count: u64, sheet: impl Fn(&mut Random) -> Draft) {
    let mut seen = Tally::default();
    cases(count, |random| {
        let draft = sheet(random);
        let book = newcomers::searched_book(random, &draft);
        let changed = newcomers::changed_book(random, &draft, &book);
        if checked::<Other>(&draft.bytes(), &changed).is_err() {
            seen.note(None);
            return;
        }
        let admission = newcomers::in_book(random, &draft, changed.clone());
        let result = joined_book::<Other>(&admission);
        let respelt = Admission { book: spelling::book(random, &draft, &changed), ..admission };
        assert_eq!(joined_book::<Other>(&respelt), result, "{draft:?}");
        seen.note(Some(result.map_or_else(Refusal::number, |_| 0)));
    });
    seen.expect([Some(0)], 50);
    seen.expect([Some(19)], 3);
}

/// Newcomers one after another: each one's book is the next one's, with the longer sheet.
pub fn chains_agree<Other: Implementation>(count: u64, length: usize, sheet: impl Fn(&mut Random) -> Draft) {
    let mut seen = Tally::default();
    cases(count, |random| {
        let mut draft = sheet(random);
        let mut book = newcomers::any_book(random, &draft);
        for _ in 0..length {
            let admission = newcomers::in_book(random, &draft, book);
            let Ok(result) = joined_book::<Other>(&admission) else { return };
            seen.note(outcome(&admission, &result));
            draft = Draft::made_out(&admission.longer_sheet());
            book = if random.percent(30) { spelling::book(random, &draft, &result) } else { result };
        }
    });
    for state in State::ALL.map(State::word) {
        seen.expect([true, false].map(|is_new| (state, is_new)), 5);
    }
}

/// Sheets, books and lines that are damaged, one or two of them at once, and buffers of any length.
pub fn damaged_newcomers_agree<Other: Implementation>(count: u64) {
    let mut numbers = Tally::default();
    cases(count, |random| {
        let draft = families::any(random, 8);
        let Admission { sheet, book, line } = newcomers::damaged(random, &draft);
        for length in [paper::BOOK_BYTES, random.below(400)] {
            let answer = joined::<Other>(&sheet, &book, &line, length);
            numbers.note(answer.map_or_else(Refusal::number, |_| 0));
        }
    });
    numbers.expect([0, 2, 3, 5, 6, 7, 8, 11, 12, 13, 14, 15, 17], 5);
}

/// Every cause with the one that is judged behind it, and as many of the others behind it as can apply with it.
pub fn refused_newcomers_agree<Other: Implementation>() {
    let answer = |place| {
        let Lent { admission, length } = newcomers::refused_from(place);
        joined::<Other>(&admission.sheet, &admission.book, &admission.line, length)
    };
    for (place, number) in ORDER.into_iter().enumerate() {
        assert_eq!(answer(place).map_err(Refusal::number), Err(number), "{place}");
    }
    assert!(answer(ORDER.len()).is_ok());
}

/// A book of the sheet with so many roles: those of the first book, and then some that hold nothing.
fn book_with_roles(draft: &Draft, roles: usize) -> Vec<u8> {
    let mut book = BookDraft::made_out(draft, &String::from_utf8_lossy(&first_book(&draft.bytes())));
    assert!(book.roles.len() <= roles, "{draft:?}");
    if book.roles.len() < roles {
        book.roles.resize_with(roles, Default::default);
        book.role_count = roles.to_string();
        book.bound = book.witness.len().to_string();
        book.state = State::Open.word().to_string();
    }
    book.text(draft).into_bytes()
}

/// Each limit passes and one more is refused.
pub fn limits_agree<Other: Implementation>() {
    for (admission, number) in at_the_limits() {
        let answer = joined_book::<Other>(&admission);
        let found = answer.as_ref().map_or_else(|refusal| refusal.number(), |_| 0);
        assert_eq!(found, number, "{}", String::from_utf8_lossy(&admission.line));
    }
}

/// Newcomers at each limit and one beyond, with the number of the refusal, 0 if there is none.
fn at_the_limits() -> Vec<(Admission, u32)> {
    let admission = |draft: &Draft, line: &str| Admission {
        sheet: draft.bytes(),
        book: first_book(&draft.bytes()),
        line: line.as_bytes().to_vec(),
    };
    let in_plain_book = |draft: &Draft, line: &str| Admission {
        sheet: draft.bytes(),
        book: newcomers::plain_book(draft),
        line: line.as_bytes().to_vec(),
    };
    let mut outcomes = Vec::new();
    let two = Draft::plain(2, 2, |user, permission| user <= permission);
    for (line, number) in LINES {
        outcomes.push((admission(&two, line), number));
    }
    // Bytes of the longer sheet. The sheet has as many grants as there can be, so the newcomer holds nothing.
    for (users, permissions, bytes, number) in [
        (240, 128, 65_535, 0),
        (240, 128, 65_536, 0),
        (240, 128, 65_537, 1),
        (254, 125, 65_536, 0),
        (254, 125, 65_537, 1),
    ] {
        let line = user_line("newcomer", &vec![false; permissions]);
        let draft = extremes::filled(&mut Random::from_seed(9), users, permissions, bytes - line.len());
        outcomes.push((in_plain_book(&draft, &line), number));
    }
    let longest = extremes::longest(&mut Random::from_seed(9));
    let lines = [("", 2), ("\n", 1), ("n", 1)];
    outcomes.extend(lines.map(|(line, number)| (in_plain_book(&longest, line), number)));
    // Users.
    for (users, number) in [(254, 0), (255, 0), (256, 18)] {
        let draft = extremes::full(users, 4);
        for line in ["n,0,0,0,0\n", "n,1,1,1,1\n", "n,0,1,0,0\n"] {
            outcomes.push((admission(&draft, line), number));
        }
        outcomes.push((admission(&draft, "U253,1,1,1,1\n"), 17));
    }
    // Grants: 255 users who hold all of eight permissions have eight grants less than there may be.
    let draft = Draft::plain(255, 9, |_, permission| permission < 8);
    for (line, number) in
        [("n,1,1,1,1,1,1,1,1,0\n", 0), ("n,1,1,1,1,1,1,1,1,1\n", 9), ("n,0,1,1,1,1,1,1,1,1\n", 0)]
    {
        outcomes.push((admission(&draft, line), number));
    }
    // Roles: with one more of them, or without. Of those that there are only the first holds something.
    for (roles, number) in [(1, 0), (63, 0), (64, 0), (126, 0), (127, 0), (128, 19)] {
        let draft = extremes::full(3, 3);
        let with_roles =
            |line: &str| Admission { book: book_with_roles(&draft, roles), ..admission(&draft, line) };
        outcomes.extend(["n,0,1,0\n", "n,1,1,0\n"].map(|line| (with_roles(line), number)));
        outcomes.extend(["n,0,0,0\n", "n,1,1,1\n"].map(|line| (with_roles(line), 0)));
    }
    outcomes.extend(at_the_limit_of_the_book());
    outcomes
}

/// Books of as many bytes as are read, whose bound is a number of many digits, and of one more.
fn at_the_limit_of_the_book() -> Vec<(Admission, u32)> {
    let draft = families::crown(4);
    let book = String::from_utf8(first_book(&draft.bytes())).expect("a book is plain text");
    let with_bytes = |bytes: usize| {
        let bound = |digits: usize| book.replacen("\n4,3,", &format!("\n4,{},", "7".repeat(digits)), 1);
        bound(bytes - bound(0).len()).into_bytes()
    };
    let admission =
        |bytes| Admission { sheet: draft.bytes(), book: with_bytes(bytes), line: b"n,1,0,0,0\n".to_vec() };
    vec![(admission(paper::BOOK_BYTES), 13), (admission(paper::BOOK_BYTES + 1), 12)]
}

/// Lines for a sheet of two users `u0` and `u1` and two permissions, with the number of the refusal.
const LINES: [(&str, u32); 45] = [
    ("n,0,0\n", 0),
    ("n,0,1\n", 0),
    ("n,1,0\n", 0),
    ("n,1,1\n", 0),
    ("sixteen-bytes...,1,1\n", 0),
    ("p0,1,1\n", 0),
    ("user,1,1\n", 0),
    ("R1,1,0\n", 0),
    ("1,1,0\n", 0),
    // No bytes, line feeds elsewhere than at the end, and none at the end.
    ("", 2),
    ("n,1,1", 2),
    ("n,1,1\n\n", 2),
    ("\nn,1,1\n", 2),
    ("n,1\n,1\n", 2),
    ("n,1,1\nm,1,1\n", 2),
    ("n,1,1\nm,1,1", 2),
    ("\n\n", 2),
    ("n", 2),
    // Bytes that are not allowed.
    ("n,1,1\r\n", 2),
    ("n,1,1\r", 2),
    ("n,1,1\n\r", 2),
    ("n,1, 1\n", 2),
    ("n,1,1 \n", 2),
    ("n,1,1\0\n", 2),
    ("\u{e4},1,1\n", 2),
    ("n;1;1\n", 2),
    // Names that are too short or too long.
    ("\n", 5),
    (",1,1\n", 5),
    (",\n", 5),
    ("seventeen-bytes..,1,1\n", 5),
    ("seventeen-bytes..\n", 5),
    // Cells too few or too many.
    ("n\n", 6),
    ("n,\n", 6),
    ("n,1\n", 6),
    ("n,1,1,1\n", 6),
    ("n,1,1,\n", 6),
    ("u0,1\n", 6),
    // Cells that are neither.
    ("n,1,2\n", 7),
    ("n,,1\n", 7),
    ("n,1,\n", 7),
    ("n,01,1\n", 7),
    ("n,1,-1\n", 7),
    ("U1,1,x\n", 7),
    // Names that are taken.
    ("u0,1,1\n", 17),
    ("U1,0,0\n", 17),
];

/// Newcomers in the books of large sheets: with what two users hold and one permission more, with nothing, and with
/// everything that one user holds. Where there is no room for a line, for more grants or for a role, that is refused.
pub fn large_newcomers_agree<Other: Implementation>(drafts: &[Draft]) {
    let mut random = Random::from_seed(7);
    let mut seen = Tally::default();
    for draft in drafts {
        let book = first_book(&draft.bytes());
        let given = checked::<Other>(&draft.bytes(), &book).expect("a written book is accepted");
        let none = vec![false; draft.permissions.len()];
        for row in [newcomers::row_with_rest(draft), none, draft.held[0].clone()] {
            let name = newcomers::free_name(&mut random, draft);
            let admission = Admission {
                sheet: draft.bytes(),
                book: spelling::book(&mut random, draft, &book),
                line: user_line(&name, &row).into_bytes(),
            };
            let answer = joined_book::<Other>(&admission);
            if let Ok(result) = &answer {
                let CheckAnswer { roles, witness_lines } =
                    checked::<Other>(&admission.longer_sheet(), result)
                        .expect("a newcomer's book is accepted");
                assert!(roles == given.roles || roles == given.roles + 1, "{draft:?}");
                assert_eq!(witness_lines, given.witness_lines, "{draft:?}");
            }
            seen.note(answer.map_or_else(Refusal::number, |_| 0));
        }
    }
    seen.expect([0], drafts.len());
}

/// Newcomers at large sheets, some of them with all grants or all roles in the second word of 64.
pub fn large_extremes_agree<Other: Implementation>() {
    let mut random = Random::from_seed(8);
    let less = |mut draft: Draft, users: usize| {
        draft.users.truncate(users);
        draft.held.truncate(users);
        draft
    };
    large_newcomers_agree::<Other>(&[
        less(extremes::with_longest_names(&mut random), 255),
        extremes::with_names_in_mixed_case(&mut random),
        less(extremes::filled(&mut random, 251, 128, 65_530), 249),
        less(extremes::with_longest_book(), 232),
        extremes::with_grants(&mut random, 64, 64, 1_900),
        extremes::with_grants(&mut random, 240, 128, 1_800),
        extremes::full(15, 128),
        extremes::full(255, 7),
        families::crown(44),
        families::band(64, 20),
        families::blocks(&[(32, 7); 7]),
        families::blocks(&[(1, 1); 127]),
        families::blocks(&[(8, 63), (8, 2), (8, 63)]),
        families::behind(64, &families::crown(40)),
        families::behind(127, &extremes::full(240, 1)),
        families::paired(&mut random, 128),
        families::star(200, 128),
        Draft::plain(240, 128, |_, _| false),
    ]);
}
