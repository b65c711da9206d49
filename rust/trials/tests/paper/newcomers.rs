//! A newcomer in an existing book: books worked out by hand, the order of checks, the rules against the restated ones,
//! and what is promised of the book.

use second::checker::check;
use second::newcomer::newcomer;
use second::refusal::Refusal;
use second::roles::State;
use second::script::lent_buffer;
use second::session::Session;
use trials::agreement::newcomers as agreement;
use trials::book_draft::BookDraft;
use trials::brute;
use trials::cases::cases;
use trials::draft::{Draft, user_line};
use trials::extremes;
use trials::families;
use trials::newcomers::{self, Admission, Lent, ORDER};
use trials::paper;
use trials::random::Random;
use trials::restated;
use trials::searches;
use trials::sessions::first_book;
use trials::tally::Tally;

use crate::support::{EXAMPLE, EXAMPLE_BOOK, book, check_answer, check_number, example_book, session_with};

const ROOSTS: &str = include_str!("../../../../examples/roosts.csv");

/// The book of the newcomer, or the number of the refusal, with a buffer that is long enough.
fn joined(sheet: &str, book: &str, line: &str) -> Result<String, u32> {
    admission(sheet, book, line)
        .result()
        .map(|book| String::from_utf8(book).expect("a book is plain text"))
        .map_err(Refusal::number)
}

fn admission(sheet: &str, book: &str, line: &str) -> Admission {
    let [sheet, book, line] = [sheet, book, line].map(|text| text.as_bytes().to_vec());
    Admission { sheet, book, line }
}

fn text(bytes: Vec<u8>) -> String {
    String::from_utf8(bytes).expect("sheets and books are plain text")
}

/// The text with a piece of it replaced, which must be there once.
fn with(text: &str, piece: &str, other: &str) -> String {
    assert_eq!(text.matches(piece).count(), 1, "{piece}");
    text.replace(piece, other)
}

#[test]
fn friend_of_finn_gets_the_role_of_finn_and_the_rest_in_a_new_one() {
    let book = text(first_book(ROOSTS.as_bytes()));
    let friend = with(&book, "finn,0,0,0,0,1\n", "finn,0,0,0,0,1\ngus,0,0,0,0,1\n");
    assert_eq!(joined(ROOSTS, &book, "gus,0,0,0,0,1,0\n"), Ok(friend));
    let expected = "roles,bound,state\n6,5,open\n\n\
        role,hartley-audio,hartley-site,millrace-audio,millrace-site,county-map,upload\n\
        R1,1,1,0,0,1,1\nR2,1,0,1,0,0,0\nR3,0,0,1,0,0,1\nR4,0,0,1,1,1,1\nR5,0,0,0,0,1,0\nR6,0,0,0,1,0,1\n\n\
        user,R1,R2,R3,R4,R5,R6\nada,1,0,0,0,0,0\nbram,0,1,1,0,0,0\ncleo,0,0,0,1,0,0\ndov,1,0,1,1,0,0\n\
        esme,0,1,0,0,0,0\nfinn,0,0,0,0,1,0\ngus,0,0,0,0,1,1\n\n\
        user,permission\nada,hartley-site\nbram,upload\ncleo,millrace-site\nesme,millrace-audio\nfinn,county-map\n";
    assert_eq!(joined(ROOSTS, &book, "gus,0,0,0,1,1,1\n").as_deref(), Ok(expected));
    let both = [ROOSTS, "gus,0,0,0,1,1,1\n"].concat();
    assert_eq!(check(both.as_bytes(), expected.as_bytes()), Ok(check_answer(6, 5)));
}

/// Dov's permissions are all, so every role is among the newcomer's, also those that Dov has not.
#[test]
fn newcomer_gets_every_role_whose_permissions_they_hold() {
    let book = text(first_book(ROOSTS.as_bytes()));
    let all = with(&book, "finn,0,0,0,0,1\n", "finn,0,0,0,0,1\ngus,1,1,1,1,1\n");
    assert_eq!(joined(ROOSTS, &book, "gus,1,1,1,1,1,1\n"), Ok(all));
    let none = with(&book, "finn,0,0,0,0,1\n", "finn,0,0,0,0,1\ngus,0,0,0,0,0\n");
    assert_eq!(joined(ROOSTS, &book, "gus,0,0,0,0,0,0\n"), Ok(none));
}

#[test]
fn with_nothing_left_over_the_state_and_the_bound_are_kept() {
    let witnessed = with(EXAMPLE_BOOK, "cy,1,1\n", "cy,1,1\ndee,1,0\n");
    assert_eq!(joined(EXAMPLE, EXAMPLE_BOOK, "dee,1,1,0\n"), Ok(witnessed));
    let searched = example_book("2,2,searched", 0, "bo,map\n");
    assert_eq!(
        joined(EXAMPLE, &searched, "dee,0,1,1\n"),
        Ok(with(&searched, "cy,1,1\n", "cy,1,1\ndee,0,1\n"))
    );
    let open = example_book("2,1,open", 0, "bo,map\n");
    assert_eq!(joined(EXAMPLE, &open, "dee,1,1,1\n"), Ok(with(&open, "cy,1,1\n", "cy,1,1\ndee,1,1\n")));
}

#[test]
fn with_something_left_over_the_book_is_open_with_the_witness_lines_as_bound() {
    let longer = |bound: usize, witness: &str| {
        format!(
            "roles,bound,state\n3,{bound},open\n\nrole,rec,id,map\nR1,1,1,0\nR2,0,1,1\nR3,1,0,0\n\nuser,R1,R2,R3\n\
             ann,1,0,0\nbo,0,1,0\ncy,1,1,0\ndee,0,0,1\n\nuser,permission\n{witness}"
        )
    };
    for (counts, witness, bound) in [
        ("2,2,witnessed", "ann,rec\nbo,map\n", 2),
        ("2,2,searched", "bo,map\n", 1),
        ("2,2,searched", "", 0),
        ("2,1,open", "ann,rec\n", 1),
        ("2,0,open", "", 0),
    ] {
        let book = example_book(counts, 0, witness);
        assert_eq!(joined(EXAMPLE, &book, "dee,1,0,0\n"), Ok(longer(bound, witness)), "{counts}");
    }
}

/// A finished search of four users each lacking their own permission has four roles.
#[test]
fn searched_book_of_a_session_stays_searched() {
    let mut session = session_with(&families::crown(4).bytes());
    assert_eq!(session.search(125).map(|answer| answer.state), Ok(State::Searched));
    let sheet = text(families::crown(4).bytes());
    let searched = joined(&sheet, &book(&session), "u4,1,1,1,1\n").expect("nothing is wrong");
    assert!(searched.starts_with("roles,bound,state\n4,4,searched\n\n"), "{searched}");
    assert!(searched.contains("\nu4,1,1,1,1\n\n"), "{searched}");
}

#[test]
fn role_without_permissions_is_everyones() {
    let empty = with(&example_book("3,2,open", 1, "bo,map\nann,rec\n"), "R3,0,1,0\n", "R3,0,0,0\n");
    assert_eq!(
        joined(EXAMPLE, &empty, "dee,0,0,0\n"),
        Ok(with(&empty, "cy,1,1,0\n", "cy,1,1,0\ndee,0,0,1\n"))
    );
    let expected = "roles,bound,state\n4,2,open\n\nrole,rec,id,map\nR1,1,1,0\nR2,0,1,1\nR3,0,0,0\nR4,0,0,1\n\n\
        user,R1,R2,R3,R4\nann,1,0,0,0\nbo,0,1,0,0\ncy,1,1,0,0\ndee,0,0,1,1\n\nuser,permission\nbo,map\nann,rec\n";
    assert_eq!(joined(EXAMPLE, &empty, "dee,0,0,1\n").as_deref(), Ok(expected));
}

/// Also a role that nobody has, and one that says what others say together.
#[test]
fn every_role_counts_whoever_has_it() {
    let unused = example_book("3,2,open", 1, "bo,map\nann,rec\n");
    assert_eq!(
        joined(EXAMPLE, &unused, "dee,0,1,0\n"),
        Ok(with(&unused, "cy,1,1,0\n", "cy,1,1,0\ndee,0,0,1\n"))
    );
    assert_eq!(
        joined(EXAMPLE, &unused, "dee,1,1,0\n"),
        Ok(with(&unused, "cy,1,1,0\n", "cy,1,1,0\ndee,1,0,1\n"))
    );
}

#[test]
fn names_are_spelled_as_in_the_sheet_and_the_newcomers_as_in_the_line() {
    let respelt = EXAMPLE_BOOK.replace("ann", "ANN").replace("map\n", "Map\n").replace("rec", "rEc");
    assert_eq!(check_number(EXAMPLE, &respelt), 0);
    let expected = with(EXAMPLE_BOOK, "cy,1,1\n", "cy,1,1\nDeE,0,1\n");
    assert_eq!(joined(EXAMPLE, &respelt, "DeE,0,1,1\n"), Ok(expected));
    let sheet = EXAMPLE.replace("ann", "aNN");
    let expected = EXAMPLE_BOOK.replace("ann", "aNN").replace("cy,1,1\n", "cy,1,1\ndee,0,1\n");
    assert_eq!(joined(&sheet, &respelt, "dee,0,1,1\n"), Ok(expected));
}

#[test]
fn witness_lines_stay_in_their_order() {
    let turned = with(EXAMPLE_BOOK, "ann,rec\nbo,map\n", "bo,map\nann,rec\n");
    assert_eq!(joined(EXAMPLE, &turned, "dee,1,1,1\n"), Ok(with(&turned, "cy,1,1\n", "cy,1,1\ndee,1,1\n")));
    let longer = joined(EXAMPLE, &turned, "dee,0,0,1\n").expect("nothing is wrong");
    assert!(longer.ends_with("dee,0,0,1\n\nuser,permission\nbo,map\nann,rec\n"), "{longer}");
}

#[test]
fn book_without_roles() {
    let (sheet, book) =
        ("user,p\nu,0\n", "roles,bound,state\n0,0,witnessed\n\nrole,p\n\nuser\nu\n\nuser,permission\n");
    assert_eq!(joined(sheet, book, "v,0\n"), Ok(with(book, "\nu\n", "\nu\nv\n")));
    let expected = "roles,bound,state\n1,0,open\n\nrole,p\nR1,1\n\nuser,R1\nu,0\nv,1\n\nuser,permission\n";
    assert_eq!(joined(sheet, book, "v,1\n").as_deref(), Ok(expected));
}

#[test]
fn name_is_compared_with_users_only_and_in_any_case() {
    for line in ["ann,1,1,0\n", "Ann,1,1,0\n", "CY,0,0,0\n"] {
        assert_eq!(joined(EXAMPLE, EXAMPLE_BOOK, line), Err(17), "{line}");
    }
    for line in ["rec,1,1,0\n", "user,1,1,0\n", "R1,1,1,0\n", "ann.,1,1,0\n", "an,1,1,0\n"] {
        assert!(joined(EXAMPLE, EXAMPLE_BOOK, line).is_ok(), "{line}");
    }
}

/// The book is judged for the sheet as it is given, not for the longer one.
#[test]
fn book_of_the_longer_sheet_is_refused() {
    let line = "dee,1,1,0\n";
    let longer = joined(EXAMPLE, EXAMPLE_BOOK, line).expect("nothing is wrong");
    assert_eq!(joined(EXAMPLE, &longer, line), Err(12));
    assert_eq!(joined(&[EXAMPLE, line].concat(), &longer, line), Err(17));
    assert!(joined(&[EXAMPLE, line].concat(), &longer, "ed,1,1,0\n").is_ok());
}

#[test]
fn buffer_is_judged_last_and_bytes_past_the_book_stay() {
    let call = |line: &str, length: usize| {
        let mut buffer = lent_buffer(length);
        let answer = newcomer(EXAMPLE.as_bytes(), EXAMPLE_BOOK.as_bytes(), line.as_bytes(), &mut buffer);
        (answer.map_err(Refusal::number), buffer)
    };
    let expected = with(EXAMPLE_BOOK, "cy,1,1\n", "cy,1,1\ndee,1,0\n");
    let count = expected.len();
    for length in [0, 1, count - 1] {
        assert_eq!(call("dee,1,1,0\n", length), (Err(11), lent_buffer(length)));
        assert_eq!(call("ann,1,1,0\n", length), (Err(17), lent_buffer(length)));
    }
    for length in [count, count + 1, count + 300] {
        let (answer, buffer) = call("dee,1,1,0\n", length);
        assert_eq!(answer, Ok(count));
        assert_eq!(buffer, [expected.as_bytes(), &lent_buffer(length)[count..]].concat());
    }
}

#[test]
fn numbers_are_1_to_19() {
    assert!(Refusal::ALL.map(Refusal::number).into_iter().eq(1..=19));
    assert_eq!(Refusal::with_number(17), Some(Refusal::NameTaken));
    assert_eq!(Refusal::with_number(18), Some(Refusal::UsersFull));
    assert_eq!(Refusal::with_number(19), Some(Refusal::RolesFull));
    assert_eq!((Refusal::with_number(0), Refusal::with_number(20)), (None, None));
}

/// The number is the first in the order of checks: of the sheet, then of the longer sheet, then of the book.
#[test]
fn number_is_the_first_in_the_order_of_checks() {
    let taken_and_long = ["ANN", &",1".repeat(40_000), "\n"].concat();
    assert_eq!(joined("user,p\nu,2\n", "", &taken_and_long), Err(7));
    assert_eq!(joined(EXAMPLE, "", &taken_and_long), Err(1));
    assert_eq!(joined(EXAMPLE, "", ""), Err(2));
    assert_eq!(joined(EXAMPLE, "", "ann,1,2\n"), Err(6));
    assert_eq!(joined(EXAMPLE, "", "ann,1,1,2\n"), Err(7));
    assert_eq!(joined(EXAMPLE, "", "ann,1,1,1\n"), Err(12));
    assert_eq!(joined(EXAMPLE, &with(EXAMPLE_BOOK, "2,2,", "2,3,"), "ann,1,1,1\n"), Err(13));
    assert_eq!(joined(EXAMPLE, &with(EXAMPLE_BOOK, "R1,1,1,0", "R1,1,1,1"), "ann,1,1,1\n"), Err(14));
    assert_eq!(joined(EXAMPLE, &with(EXAMPLE_BOOK, "bo,map\n", "ann,map\n"), "ann,1,1,1\n"), Err(15));
}

#[test]
fn each_cause_with_the_one_judged_behind_it() {
    agreement::refused_newcomers_agree::<Session>();
    for (place, number) in ORDER.into_iter().enumerate() {
        let Lent { admission: Admission { sheet, book, line }, length } = newcomers::refused_from(place);
        assert_eq!(restated::newcomer::answer(&sheet, &book, &line, length), Err(number), "{place}");
    }
}

#[test]
fn each_limit_passes_and_one_more_is_refused() {
    agreement::limits_agree::<Session>();
}

/// The call and the restated one, with buffers of any length. Gives the number of the refusal, 0 if there is none.
fn assert_restated(admission: &Admission, length: usize) -> u32 {
    let Admission { sheet, book, line } = admission;
    let mut buffer = lent_buffer(length);
    let answer = newcomer(sheet, book, line, &mut buffer);
    let expected = restated::newcomer::answer(sheet, book, line, length);
    let context = || [sheet, book, line].map(|bytes| String::from_utf8_lossy(bytes).into_owned()).join("\n");
    assert_eq!(
        answer.map_err(Refusal::number),
        expected.as_ref().map(Vec::len).map_err(|number| *number),
        "{}",
        context()
    );
    let book = expected.as_deref().unwrap_or_default();
    assert_eq!(buffer, [book, &lent_buffer(length)[book.len()..]].concat(), "{}", context());
    expected.err().unwrap_or(0)
}

#[test]
fn rules_are_the_restated_ones() {
    let mut numbers = Tally::default();
    cases(4_000, |random| {
        let wide = random.percent(10);
        let draft = if wide { families::any_wide(random, 8) } else { families::any(random, 8) };
        let admission = if random.percent(50) {
            newcomers::any(random, &draft)
        } else {
            newcomers::damaged(random, &draft)
        };
        for length in [paper::BOOK_BYTES, random.below(500)] {
            numbers.note(assert_restated(&admission, length));
        }
    });
    numbers.expect([0, 2, 3, 5, 6, 7, 8, 11, 12, 13, 14, 15, 17, 19], 5);
}

/// The last user of a large sheet as the newcomer in a book of the others: with a role for each permission, with one less,
/// which is right where nobody else holds the last permission, and with other changes.
#[test]
fn rules_are_the_restated_ones_on_large_sheets() {
    let mut random = Random::from_seed(4);
    let mut numbers = Tally::default();
    for mut draft in [
        extremes::longest(&mut random),
        extremes::with_longest_names(&mut random),
        extremes::with_names_in_mixed_case(&mut random),
        extremes::filled(&mut random, 256, 125, paper::SHEET_BYTES),
        extremes::with_longest_book(),
        extremes::full(16, 128),
        families::behind(64, &families::crown(45)),
        families::blocks(&[(1, 1); 128]),
    ] {
        let (name, row) = (draft.users.pop(), draft.held.pop());
        let line = user_line(&name.expect("there is a user"), &row.expect("there is a user")).into_bytes();
        let plain = newcomers::plain_book(&draft);
        let mut without_last = BookDraft::made_out(&draft, &String::from_utf8_lossy(&plain));
        without_last.roles.pop();
        without_last.role_count = without_last.roles.len().to_string();
        let changed = newcomers::changed_book(&mut random, &draft, &plain);
        for book in [plain, without_last.text(&draft).into_bytes(), changed] {
            let admission = Admission { sheet: draft.bytes(), book, line: line.clone() };
            numbers.note(assert_restated(&admission, paper::BOOK_BYTES));
            if let Ok(result) = admission.result() {
                assert_promised(&admission, &result);
            }
        }
    }
    numbers.expect([0], 10);
}

/// The checker accepts the book for the longer sheet with the right counts. Those who were there have the roles that
/// they had, and those roles hold what they held.
fn assert_promised(admission: &Admission, result: &[u8]) {
    let (sheet, longer) = (Draft::made_out(&admission.sheet), Draft::made_out(&admission.longer_sheet()));
    let given = restated_book(&sheet, &admission.book);
    let found = BookDraft::made_out(&longer, &String::from_utf8_lossy(result));
    let (roles, users) = (given.roles.len(), given.users.len());
    assert_eq!(found.roles[..roles], given.roles);
    assert_eq!(found.users[..users], given.users);
    assert_eq!(found.witness, given.witness);
    assert_eq!(
        check(&admission.longer_sheet(), result),
        Ok(check_answer(found.roles.len(), given.witness.len()))
    );
    if found.roles.len() == roles {
        assert_eq!((found.bound, found.state), (given.bound, given.state));
    } else {
        assert_eq!(found.roles.len(), roles + 1);
        assert_eq!((found.bound, found.state), (given.witness.len().to_string(), "open".to_string()));
        let has_new_role = |roles_of: &std::collections::BTreeSet<usize>| roles_of.contains(&roles);
        assert_eq!(found.users.iter().filter(|roles_of| has_new_role(roles_of)).count(), 1);
    }
}

/// What a book says, whose names may be in other case.
fn restated_book(draft: &Draft, book: &[u8]) -> BookDraft {
    let spelled = restated::form::spelled_as_in_the_sheet(draft, book);
    BookDraft::made_out(draft, &String::from_utf8_lossy(&spelled))
}

#[test]
fn book_is_accepted_and_nobody_is_moved() {
    let mut roles = Tally::default();
    cases(3_000, |random| {
        let draft = families::any(random, 8);
        let admission = newcomers::any(random, &draft);
        if let Ok(result) = admission.result() {
            assert_promised(&admission, &result);
            let longer = Draft::made_out(&admission.longer_sheet());
            let new = BookDraft::made_out(&longer, &String::from_utf8_lossy(&result)).roles.len()
                - restated_book(&draft, &admission.book).roles.len();
            roles.note(new);
        }
    });
    roles.expect([0, 1], 200);
}

/// Newcomers one after another, until there are as many users as there can be.
#[test]
fn newcomers_up_to_the_limit_of_users() {
    let mut random = Random::from_seed(3);
    let mut draft = families::staircase(4);
    let mut book = first_book(&draft.bytes());
    for user in draft.users.len()..paper::USERS {
        let row: Vec<bool> = (0..4).map(|_| random.percent(50)).collect();
        let line = user_line(&format!("joined{user}"), &row).into_bytes();
        let admission = Admission { sheet: draft.bytes(), book, line };
        let result = admission.result().expect("there is room");
        assert_promised(&admission, &result);
        (draft, book) = (Draft::made_out(&admission.longer_sheet()), result);
    }
    assert_eq!(draft.users.len(), 256);
    let sheet = text(draft.bytes());
    assert_eq!(joined(&sheet, &text(book.clone()), "last,0,0,0,0\n"), Err(18));
    assert_eq!(joined(&sheet, &text(book), "JOINED9,0,0,0,0\n"), Err(17));
}

/// Newcomers with a permission of their own each, until there are as many roles as there can be.
#[test]
fn newcomers_up_to_the_limit_of_roles() {
    let mut draft = Draft::plain(1, paper::PERMISSIONS, |_, _| false);
    let mut book = first_book(&draft.bytes());
    for permission in 0..paper::PERMISSIONS {
        let row: Vec<bool> = (0..paper::PERMISSIONS).map(|other| other == permission).collect();
        let line = user_line(&format!("joined{permission}"), &row).into_bytes();
        let admission = Admission { sheet: draft.bytes(), book, line };
        let result = admission.result().expect("there is room");
        assert_promised(&admission, &result);
        (draft, book) = (Draft::made_out(&admission.longer_sheet()), result);
    }
    assert!(book.starts_with(b"roles,bound,state\n128,0,open\n"));
    let all = user_line("all", &[true; paper::PERMISSIONS]).into_bytes();
    assert!(Admission { sheet: draft.bytes(), book, line: all }.result().is_ok());
}

/// No newcomer's book is longer than the checker reads, so the buffer of the newcomer program is long enough. The longest
/// names, as many users as there can be, and as many permissions as then have room, and as many roles.
#[test]
fn longest_books_are_within_the_limit_of_the_checker() {
    let permissions = 118;
    let mut draft = extremes::with_name_bytes(
        Draft::plain(paper::USERS, permissions, |user, permission| user % permissions == permission),
        paper::NAME_BYTES,
    );
    let excess = draft.bytes().len().saturating_sub(paper::SHEET_BYTES);
    draft.permissions.iter_mut().for_each(|name| name.truncate(16 - excess.div_ceil(permissions)));
    assert!(draft.bytes().len() <= paper::SHEET_BYTES);
    let (name, row) =
        (draft.users.pop().expect("there is a user"), draft.held.pop().expect("there is a user"));
    let mut book = BookDraft::made_out(&draft, &String::from_utf8_lossy(&first_book(&draft.bytes())));
    book.roles.resize_with(paper::ROLES, Default::default);
    book.role_count = paper::ROLES.to_string();
    book.state = "open".to_string();
    let admission = Admission {
        sheet: draft.bytes(),
        book: book.text(&draft).into_bytes(),
        line: user_line(&name, &row).into_bytes(),
    };
    let count = admission.result().expect("nothing is wrong").len();
    assert!((100_000..paper::BOOK_BYTES).contains(&count), "{count}");
}

/// A role set of the longer sheet is one of the sheet with the newcomer left out. So the smallest count of the longer
/// sheet is at least that of the sheet, and at most one more; a bound stays a bound, and a word that is kept stays true.
#[test]
fn kept_words_stay_true() {
    let mut seen = Tally::default();
    cases(1_000, |random| {
        let draft = match random.below(3) {
            0 => families::any(random, 5),
            _ => searches::unfinished(random),
        };
        if draft.users.len() > 6 || draft.permissions.len() > 6 {
            return;
        }
        let book = newcomers::searched_book(random, &draft);
        let admission = newcomers::in_book(random, &draft, book);
        let result = admission.result().expect("nothing is wrong");
        let longer = Draft::made_out(&admission.longer_sheet());
        let (before, after) = (brute::smallest(&draft.held), brute::smallest(&longer.held));
        assert!(before <= after && after <= before + 1, "{before} {after} {longer:?}");
        let found = BookDraft::made_out(&longer, &String::from_utf8_lossy(&result));
        let bound: usize = found.bound.parse().expect("the bound is a number");
        assert!(bound <= after && after <= found.roles.len(), "{after} {found:?}");
        assert!(found.state == "open" || found.roles.len() == after, "{after} {found:?}");
        seen.note((found.state, after - before));
    });
    seen.expect(
        [("searched", 0), ("witnessed", 0), ("open", 0), ("open", 1)]
            .map(|(word, more)| (word.to_string(), more)),
        5,
    );
}

#[test]
fn newcomers_in_books_of_sessions() {
    agreement::newcomers_agree::<Session>(500, |random| families::any(random, 8));
}

#[test]
fn newcomers_in_changed_books() {
    agreement::changed_books_agree::<Session>(1_000, |random| families::any(random, 8));
}

#[test]
fn newcomers_one_after_another() {
    agreement::chains_agree::<Session>(200, 6, |random| families::any(random, 6));
}

#[test]
fn damaged_newcomers() {
    agreement::damaged_newcomers_agree::<Session>(2_000);
}
