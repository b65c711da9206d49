//! One spelling, one person: names of users and of permissions are equal if they agree with `A-Z` read as `a-z`. Role
//! names and the words of the form keep their case.

use second::checker::check;
use second::names::are_one;
use second::session::Session;
use trials::book_draft::Place;
use trials::cases::cases;
use trials::draft::Draft;
use trials::extremes;
use trials::families;
use trials::restated::causes::lowest_cause;
use trials::restated::form::verdict;
use trials::sessions::first_book;
use trials::spelling;
use trials::tally::Tally;

use crate::support::{
    EXAMPLE, EXAMPLE_BOOK, book, check_answer, check_number, check_of_replaced, example_book, load_answer,
    load_number, reduce_answer, session_with,
};

/// The number of a sheet with these two users, and of one with these two permissions, which must be the same.
fn number_of_two(name: &str, other: &str) -> u32 {
    let users = load_number(format!("user,p,q\n{name},1,0\n{other},0,1\n").as_bytes());
    let permissions = load_number(format!("user,{name},{other}\nu,1,0\nv,0,1\n").as_bytes());
    assert_eq!(users, permissions, "{name} {other}");
    users
}

/// The check of a book with a piece of it replaced, which must be there.
fn check_of_one(sheet: &str, text: &str, piece: &str, other: &str) -> u32 {
    assert!(text.contains(piece), "{piece}");
    check_number(sheet, &text.replacen(piece, other, 1))
}

#[test]
fn two_names_that_differ_in_case_give_8() {
    for (name, other) in [
        ("Ann", "ann"),
        ("ann", "Ann"),
        ("ANN", "aNn"),
        ("ann", "ann"),
        ("z", "Z"),
        ("A", "a"),
        ("x-1_.Z", "X-1_.z"),
        ("abcdefghijklmnop", "ABCDEFGHIJKLMNOP"),
        ("qrstuvwxyz012345", "QRSTUVWXYZ012345"),
        ("abcdefghijklmnop", "abcdefghijklmnoP"),
    ] {
        assert_eq!(number_of_two(name, other), 8, "{name} {other}");
    }
}

#[test]
fn two_names_that_differ_in_more_than_case_stand() {
    for (name, other) in [
        ("Ann", "anna"),
        ("ann", "an"),
        ("Ann", "ANM"),
        ("a-b", "A_B"),
        ("a.b", "A-B"),
        ("0", "O"),
        ("1", "l"),
        ("_", "-"),
        ("ab", "BA"),
        ("abcdefghijklmnop", "ABCDEFGHIJKLMNOQ"),
        ("abcdefghijklmnop", "BBCDEFGHIJKLMNOP"),
    ] {
        assert_eq!(number_of_two(name, other), 0, "{name} {other}");
    }
}

#[test]
fn names_need_not_be_neighbours_to_be_one() {
    assert_eq!(load_number(b"user,p\nAnn,1\nbo,1\ncy,0\naNN,1\n"), 8);
    assert_eq!(load_number(b"user,p,q,r,P\nAnn,1,0,0,1\n"), 8);
    assert_eq!(load_number(b"user,p,q,r,s\nAnn,1,0,0,1\nbo,1,0,0,0\n"), 0);
    let mut draft = extremes::full(256, 8);
    assert_eq!(load_number(&draft.bytes()), 0);
    draft.users[255] = "U0".to_string();
    assert_eq!(load_number(&draft.bytes()), 8);
    let mut draft = extremes::full(16, 128);
    draft.permissions[127] = "P0".to_string();
    assert_eq!(load_number(&draft.bytes()), 8);
}

#[test]
fn lower_causes_go_before_two_names_of_one_spelling() {
    assert_eq!(load_number(b"user,p,q\nAnn,1,0\nann,0,1"), 2);
    assert_eq!(load_number(b"User,p,q\nAnn,1,0\nann,0,1\n"), 3);
    assert_eq!(load_number(b"user,p,P\n"), 4);
    assert_eq!(load_number(b"user,p,q\nAnn,1,0\nann,0,1\n,0,0\n"), 5);
    assert_eq!(load_number(b"user,p,q\nAnn,1,0\nann,0\n"), 6);
    assert_eq!(load_number(b"user,p,q\nAnn,1,0\nann,0,2\n"), 7);
}

#[test]
fn two_names_of_one_spelling_go_before_too_many_grants() {
    let mut draft = extremes::full(33, 64);
    assert_eq!(load_number(&draft.bytes()), 9);
    draft.users[32] = "U0".to_string();
    assert_eq!(load_number(&draft.bytes()), 8);
}

/// The grants are those of a user alone with a permission, so each is single.
#[test]
fn user_and_permission_may_share_a_name_in_any_case() {
    let sheet = "user,ANN,bo\nann,1,0\nBO,0,1\n";
    let text = "roles,bound,state\n2,2,witnessed\n\nrole,ANN,bo\nR1,1,0\nR2,0,1\n\nuser,R1,R2\nann,1,0\nBO,0,1\n\n\
        user,permission\nann,ANN\nBO,bo\n";
    let mut session = Session::fresh();
    assert_eq!(session.load(sheet.as_bytes()), Ok(load_answer(2, 2, 2)));
    assert_eq!(session.reduce(), Ok(reduce_answer(0, 2)));
    assert_eq!(book(&session), text);
    assert_eq!(check_number(sheet, text), 0);
    assert_eq!(check_number(sheet, &text.replace("ann,ANN\nBO,bo\n", "ANN,ann\nbo,BO\n")), 0);
    assert_eq!(check_number(sheet, &text.replace("ann,ANN\nBO,bo\n", "ANN,bo\nBO,bo\n")), 15);
    assert_eq!(load_number(b"user,ann,bo\nann,1,0\nbo,0,1\n"), 0);
}

#[test]
fn first_field_of_a_sheet_keeps_its_case() {
    for word in ["USER", "User", "useR", "uSer"] {
        assert_eq!(load_number(format!("{word},p\nu,1\n").as_bytes()), 3, "{word}");
    }
    assert_eq!(load_number(b"user,USER\nUser,1\n"), 0);
    assert_eq!(load_number(b"user,USER,user\nUser,1,0\n"), 8);
}

#[test]
fn letters_of_other_alphabets_have_no_case() {
    assert_eq!(load_number(b"user,p\n\xc4,1\n\xe4,0\n"), 2);
    assert_eq!(load_number(b"user,\xc3\x84\nu,1\n"), 2);
    let sheet = b"user,d\nD,1\n";
    let named = |heading: &[u8], user: &[u8], witness: &[u8]| {
        let text = [
            b"roles,bound,state\n1,1,witnessed\n\nrole,",
            heading,
            b"\nR1,1\n\nuser,R1\n",
            user,
            b",1\n\nuser,permission\n",
            witness,
            b"\n",
        ];
        check(sheet, &text.concat()).map_err(|refusal| refusal.number())
    };
    assert_eq!(named(b"D", b"d", b"d,D"), Ok(check_answer(1, 1)));
    // The byte of the letter with its highest bit set.
    assert_eq!(named(b"\xe4", b"D", b"D,d"), Err(12));
    assert_eq!(named(b"d", b"\xc4", b"D,d"), Err(12));
    assert_eq!(named(b"d", b"D", b"\xe4,d"), Err(12));
    assert_eq!(named(b"d", b"D", b"D,\xc4"), Err(12));
}

#[test]
fn each_name_of_a_book_may_be_spelled_in_any_case() {
    assert_eq!(check_of_replaced("role,rec,id,map", "role,REC,Id,map"), 0);
    assert_eq!(check_of_replaced("\nann,1,0", "\nAnn,1,0"), 0);
    assert_eq!(check_of_replaced("\ncy,1,1", "\nCY,1,1"), 0);
    assert_eq!(check_of_replaced("ann,rec\n", "ANN,rec\n"), 0);
    assert_eq!(check_of_replaced("ann,rec\n", "ann,reC\n"), 0);
    assert_eq!(check_of_replaced("ann,rec\nbo,map\n", "Bo,Map\naNn,REC\n"), 0);
    let text = "roles,bound,state\n2,2,witnessed\n\nrole,Rec,iD,MAP\nR1,1,1,0\nR2,0,1,1\n\nuser,R1,R2\nANN,1,0\n\
        Bo,0,1\ncY,1,1\n\nuser,permission\naNn,rEC\nbO,map\n";
    assert_eq!(check(EXAMPLE.as_bytes(), text.as_bytes()), Ok(check_answer(2, 2)));
    let other = "user,REC,ID,MAP\nANN,1,1,0\nBO,0,1,1\nCY,1,1,1\n";
    assert_eq!(check(other.as_bytes(), text.as_bytes()), Ok(check_answer(2, 2)));
    assert_eq!(check(other.as_bytes(), EXAMPLE_BOOK.as_bytes()), Ok(check_answer(2, 2)));
}

#[test]
fn order_of_the_names_is_the_sheets_in_any_case() {
    assert_eq!(check_of_replaced("role,rec,id,map", "role,ID,REC,MAP"), 12);
    assert_eq!(check_of_replaced("ann,1,0\nbo,0,1", "BO,0,1\nANN,1,0"), 12);
    assert_eq!(check_of_replaced("bo,map\n", "MAP,BO\n"), 12);
}

#[test]
fn words_of_the_form_keep_their_case() {
    for (word, other) in [
        ("roles,bound,state", "Roles,bound,state"),
        ("roles,bound,state", "roles,Bound,state"),
        ("roles,bound,state", "roles,bound,State"),
        ("roles,bound,state", "ROLES,BOUND,STATE"),
        ("2,2,witnessed", "2,2,Witnessed"),
        ("2,2,witnessed", "2,2,WITNESSED"),
        ("2,2,witnessed", "2,2,witnesseD"),
        ("role,rec", "Role,rec"),
        ("role,rec", "ROLE,rec"),
        ("R1,1,1,0", "r1,1,1,0"),
        ("R2,0,1,1", "r2,0,1,1"),
        ("user,R1,R2", "User,R1,R2"),
        ("user,R1,R2", "USER,R1,R2"),
        ("user,R1,R2", "user,r1,R2"),
        ("user,R1,R2", "user,R1,r2"),
        ("user,permission", "User,permission"),
        ("user,permission", "user,Permission"),
        ("user,permission", "USER,PERMISSION"),
    ] {
        assert_eq!(check_of_replaced(word, other), 12, "{other}");
    }
    for (word, number) in [("open", 0), ("OPEN", 12), ("Open", 12)] {
        assert_eq!(check_number(EXAMPLE, &example_book(&format!("2,1,{word}"), 0, "BO,map\n")), number);
    }
    for (word, number) in [("searched", 0), ("SEARCHED", 12), ("Searched", 12)] {
        assert_eq!(check_number(EXAMPLE, &example_book(&format!("2,2,{word}"), 0, "BO,map\n")), number);
    }
}

/// A user called as a role is, and a permission too: the names may be spelled in any case, the role names may not.
#[test]
fn role_names_keep_their_case_where_names_are_spelled_alike() {
    let sheet = "user,r1\nR1,1\n";
    let text =
        "roles,bound,state\n1,1,witnessed\n\nrole,r1\nR1,1\n\nuser,R1\nR1,1\n\nuser,permission\nR1,r1\n";
    assert_eq!(book(&session_with(sheet.as_bytes())), text);
    let number = |piece: &str, other: &str| check_of_one(sheet, text, piece, other);
    assert_eq!(number("role,r1\nR1,1\n", "role,R1\nR1,1\n"), 0);
    assert_eq!(number("role,r1\nR1,1\n", "role,r1\nr1,1\n"), 12);
    assert_eq!(number("user,R1\nR1,1\n", "user,R1\nr1,1\n"), 0);
    assert_eq!(number("user,R1\nR1,1\n", "user,r1\nR1,1\n"), 12);
    assert_eq!(number("permission\nR1,r1\n", "permission\nr1,R1\n"), 0);
}

#[test]
fn words_of_the_form_keep_their_case_where_names_are_spelled_alike() {
    let sheet = "user,permission\nuser,1\n";
    let text = book(&session_with(sheet.as_bytes()));
    let heading = "\n\nuser,permission\nuser,permission\n";
    assert!(text.ends_with(heading), "{text}");
    let number = |other: &str| check_number(sheet, &text.replacen(heading, other, 1));
    assert_eq!(number("\n\nuser,permission\nUSER,Permission\n"), 0);
    assert_eq!(number("\n\nUSER,permission\nuser,permission\n"), 12);
    assert_eq!(number("\n\nuser,Permission\nuser,permission\n"), 12);
}

/// No letters: bytes that are 32 apart, as the two cases of a letter are.
#[test]
fn bytes_that_are_no_letters_have_no_case() {
    let sheet = "user,a_b,p-0\nu.9,1,1\n";
    let text = "roles,bound,state\n1,1,witnessed\n\nrole,a_b,p-0\nR1,1,1\n\nuser,R1\nu.9,1\n\n\
        user,permission\nu.9,p-0\n";
    assert_eq!(book(&session_with(sheet.as_bytes())), text);
    let number = |piece: &str, other: &str| check_of_one(sheet, text, piece, other);
    assert_eq!(number("role,a_b,p-0", "role,A_B,P-0"), 0);
    assert_eq!(number("\nu.9,1", "\nU.9,1"), 0);
    assert_eq!(number("u.9,p-0\n", "U.9,P-0\n"), 0);
    for (piece, other) in [
        ("role,a_b", "role,a\x7fb"),
        (",p-0\nR1", ",p\r0\nR1"),
        (",p-0\nR1", ",p-\x10\nR1"),
        ("\nu.9,1", "\nu\x0e9,1"),
        ("\nu.9,1", "\nu.\x19,1"),
        ("u.9,p-0\n", "u\x0e9,p-0\n"),
        ("u.9,p-0\n", "u.\x19,p-0\n"),
        ("u.9,p-0\n", "u.9,p\r0\n"),
        ("u.9,p-0\n", "u.9,p-\x10\n"),
        ("u.9,p-0\n", "u.9,a\x7fb\n"),
        ("u.9,p-0\n", "u.9,a?b\n"),
    ] {
        assert_eq!(number(piece, other), 12, "{other:?}");
    }
}

#[test]
fn misspelt_names_give_12() {
    for (piece, other) in [
        ("role,rec", "role,recs"),
        ("role,rec", "role,r@c"),
        ("role,rec", "role,re`"),
        ("role,rec", "role,"),
        ("\nann,1", "\nAnna,1"),
        ("\nann,1", "\nAn,1"),
        ("\nann,1", "\n{nn,1"),
        ("\nann,1", "\n[nn,1"),
        ("bo,map\n", "B0,map\n"),
        ("bo,map\n", "bo ,map\n"),
        ("bo,map\n", "bo,M@P\n"),
        ("bo,map\n", "bo,MA\n"),
    ] {
        assert_eq!(check_of_replaced(piece, other), 12, "{other:?}");
    }
}

#[test]
fn same_witness_twice_in_other_case_gives_15_if_the_counts_agree_and_else_13() {
    assert_eq!(check_of_replaced("bo,map\n", "ANN,Rec\n"), 15);
    assert_eq!(check_of_replaced("bo,map\n", "bo,map\nBO,MAP\n"), 13);
    assert_eq!(check_number(EXAMPLE, &example_book("4,2,open", 2, "bo,map\nBo,Map\n")), 15);
    assert_eq!(check_number(EXAMPLE, &example_book("4,2,open", 2, "bo,map\nann,REC\n")), 0);
}

#[test]
fn witness_grants_in_other_case_are_judged_alike() {
    assert_eq!(check_of_replaced("bo,map\n", "ANN,MAP\n"), 15);
    assert_eq!(check_of_replaced("bo,map\n", "CY,REC\n"), 15);
    assert_eq!(check_of_replaced("bo,map\n", "Ann,ID\n"), 15);
}

#[test]
fn counts_and_product_of_a_book_in_other_case_are_judged_alike() {
    assert_eq!(check_of_replaced("\nann,1,0", "\nANN,1,1"), 14);
    let spelled = EXAMPLE_BOOK.replace("\nann,", "\nANN,").replace(",rec", ",Rec");
    assert_eq!(check_number(EXAMPLE, &spelled), 0);
    assert_eq!(check_number(EXAMPLE, &spelled.replace("2,2,w", "2,3,w")), 13);
    assert_eq!(check_number(EXAMPLE, &spelled.replace("R1,1,1,0", "R1,1,1,1")), 14);
}

/// The second load is of the same sheet in other case, and the book is spelled as the last accepted sheet.
#[test]
fn book_is_spelled_as_its_sheet_is() {
    let sheet = "user,Rec,ID,map\nAnn,1,1,0\nBO,0,1,1\ncY,1,1,1\n";
    let text = "roles,bound,state\n2,2,witnessed\n\nrole,Rec,ID,map\nR1,1,1,0\nR2,0,1,1\n\n\
        user,R1,R2\nAnn,1,0\nBO,0,1\ncY,1,1\n\nuser,permission\nAnn,Rec\nBO,map\n";
    let mut session = session_with(EXAMPLE.as_bytes());
    assert_eq!(book(&session), EXAMPLE_BOOK);
    assert_eq!(session.load(sheet.as_bytes()), Ok(load_answer(3, 3, 7)));
    assert_eq!(session.reduce(), Ok(reduce_answer(0, 2)));
    assert_eq!(book(&session), text);
    let refused = sheet.replace("BO", "aNN");
    assert_eq!(session.load(refused.as_bytes()).map_err(|refusal| refusal.number()), Err(8));
    assert_eq!(book(&session), text);
    assert_eq!(check_number(EXAMPLE, text), 0);
    assert_eq!(check_number(sheet, EXAMPLE_BOOK), 0);
    assert_eq!(check_number(&refused, text), 8);
}

/// Of all pairs of bytes, those of equal bytes are one, and those of a letter's two cases.
#[test]
fn exactly_the_cases_of_a_letter_are_one() {
    let mut pairs = 0;
    for byte in 0..=u8::MAX {
        for other in 0..=u8::MAX {
            let (low, high) = (byte.min(other), byte.max(other));
            let are_cases = (65..=90).contains(&low) && high == low + 32;
            assert_eq!(are_one(&[byte], &[other]), low == high || are_cases, "{byte} {other}");
            assert_eq!(are_one(&[b'x', byte], &[b'X', other]), low == high || are_cases, "{byte} {other}");
            pairs += usize::from(are_one(&[byte], &[other]));
        }
    }
    assert_eq!(pairs, 256 + 2 * 26);
    assert!(!are_one(b"ann", b"anna") && !are_one(b"anna", b"ann") && !are_one(b"", b"a"));
}

/// Sheets that differ in case only are judged a second time, in one pass over the bytes.
#[test]
fn spelled_sheets_get_the_same_number_from_the_second_judgement() {
    cases(3_000, |random| {
        let draft = families::any(random, 8);
        let judged = [
            (spelling::sheet(random, &draft).bytes(), 0),
            (spelling::with_clash(random, &draft).bytes(), 8),
            (spelling::with_first_field_in_other_case(random, &draft), 3),
            (spelling::with_foreign_letter(random, &draft), 2),
        ];
        for (sheet, expected) in judged {
            assert_eq!(load_number(&sheet), expected, "{}", String::from_utf8_lossy(&sheet));
            assert_eq!(lowest_cause(&sheet).unwrap_or(0), expected, "{}", String::from_utf8_lossy(&sheet));
        }
    });
}

/// The judgement of a book, which must be the same in the second way.
fn judge(draft: &Draft, text: &[u8]) -> u32 {
    let found = check(&draft.bytes(), text)
        .map(|answer| (answer.roles, answer.witness_lines))
        .map_err(|refusal| refusal.number());
    assert_eq!(found, verdict(draft, text), "{draft:?} {}", String::from_utf8_lossy(text));
    found.err().unwrap_or(0)
}

#[test]
fn spelled_books_get_the_same_judgement_in_the_second_way() {
    let mut places = Tally::default();
    let mut doubled_books = Tally::default();
    cases(3_000, |random| {
        let is_wide = random.percent(10);
        let draft = if is_wide { families::any_wide(random, 6) } else { families::any(random, 6) };
        let text = first_book(&draft.bytes());
        assert_eq!(judge(&draft, &spelling::book(random, &draft, &text)), 0);
        assert_eq!(judge(&spelling::sheet(random, &draft), &text), 0);
        let (place, misspelt) = spelling::misspelt_book(random, &draft, &text);
        assert_eq!(judge(&draft, &misspelt), 12);
        assert_eq!(judge(&draft, &spelling::with_word_in_other_case(random, &draft, &text)), 12);
        let doubled = spelling::with_witness_twice(random, &draft, &text);
        if let Some(text) = &doubled {
            assert_eq!(judge(&draft, text), 15);
        }
        places.note(Some(place));
        doubled_books.note(doubled.is_some());
    });
    places.expect(Place::ALL.map(Some), 50);
    doubled_books.expect([true], 50);
}
