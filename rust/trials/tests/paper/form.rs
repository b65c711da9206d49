//! The form of a book to the byte: what the checker refuses with 12.

use crate::support::{
    EXAMPLE, EXAMPLE_BOOK, book, check_number, check_of_replaced, example_book, session_with,
};

#[test]
fn every_changed_line_end_gives_12() {
    assert_eq!(check_number(EXAMPLE, EXAMPLE_BOOK.trim_end()), 12);
    assert_eq!(check_number(EXAMPLE, &format!("{EXAMPLE_BOOK}\n")), 12);
    assert_eq!(check_number(EXAMPLE, &format!("\n{EXAMPLE_BOOK}")), 12);
    assert_eq!(check_number(EXAMPLE, &format!("{EXAMPLE_BOOK}x")), 12);
    for (place, _) in EXAMPLE_BOOK.match_indices('\n') {
        let with = |piece: &str| [&EXAMPLE_BOOK[..place], piece, &EXAMPLE_BOOK[place + 1..]].concat();
        for piece in ["", "\n\n", "\r\n", "\r", " \n", ",\n"] {
            assert_eq!(check_number(EXAMPLE, &with(piece)), 12, "{piece:?} at {place}");
        }
    }
}

#[test]
fn every_changed_heading_gives_12() {
    assert_eq!(check_of_replaced("roles,bound,state", "role,bound,state"), 12);
    assert_eq!(check_of_replaced("role,rec", "roles,rec"), 12);
    assert_eq!(check_of_replaced("role,rec,id,map", "role,id,rec,map"), 12);
    assert_eq!(check_of_replaced("role,rec,id,map", "role,rec,id"), 12);
    assert_eq!(check_of_replaced("user,R1,R2", "user,R2,R1"), 12);
    assert_eq!(check_of_replaced("user,R1,R2", "user,R1"), 12);
    assert_eq!(check_of_replaced("user,R1,R2", "users,R1,R2"), 12);
    assert_eq!(check_of_replaced("user,permission", "user,permissions"), 12);
}

#[test]
fn names_and_order_are_the_sheets() {
    assert_eq!(check_of_replaced("\nann,1,0", "\nanne,1,0"), 12);
    assert_eq!(check_of_replaced("ann,1,0\nbo,0,1", "bo,0,1\nann,1,0"), 12);
    assert_eq!(check_of_replaced("cy,1,1\n", ""), 12);
    assert_eq!(check_of_replaced("cy,1,1\n", "cy,1,1\ncy,1,1\n"), 12);
    assert_eq!(check_of_replaced("R1,1,1,0\nR2,0,1,1", "R2,0,1,1\nR1,1,1,0"), 12);
    assert_eq!(check_of_replaced("R2,0,1,1", "R02,0,1,1"), 12);
    assert_eq!(check_of_replaced("R2,0,1,1", "r2,0,1,1"), 12);
    assert_eq!(check_of_replaced("R2,0,1,1", "R2,0,1,2"), 12);
    assert_eq!(check_of_replaced("R2,0,1,1", "R2,0,1"), 12);
    assert_eq!(check_of_replaced("bo,0,1", "bo,0,"), 12);
}

#[test]
fn counts_are_decimal_without_leading_zeros() {
    for counts in ["02,2", "2,02", "+2,2", "2,-2", ",2", "2,", " 2,2", "2.0,2", "0x2,2", "2,2,2"] {
        assert_eq!(check_of_replaced("2,2,witnessed", &format!("{counts},witnessed")), 12, "{counts}");
    }
    for counts in ["0,2", "2,0", "20,2", "2,22", "1,1", "3,3"] {
        assert_eq!(check_of_replaced("2,2,witnessed", &format!("{counts},witnessed")), 13, "{counts}");
    }
}

#[test]
fn count_of_any_length_is_of_the_form() {
    let no_number = "3".repeat(2_000);
    assert_eq!(check_of_replaced("2,2,witnessed", &format!("{no_number},2,witnessed")), 13);
    assert_eq!(check_of_replaced("2,2,witnessed", &format!("2,{no_number},witnessed")), 13);
    assert_eq!(check_of_replaced("2,2,witnessed", &format!("{no_number},{no_number},witnessed")), 13);
    for bits in [8, 16, 32, 64] {
        let wrapped = (1_u128 << bits) + 2;
        assert_eq!(check_of_replaced("2,2,witnessed", &format!("{wrapped},2,witnessed")), 13, "{wrapped}");
        assert_eq!(check_of_replaced("2,2,witnessed", &format!("2,{wrapped},witnessed")), 13, "{wrapped}");
    }
}

#[test]
fn state_word_is_one_of_three() {
    for word in ["", "Witnessed", "closed", "open ", "witnessed,"] {
        assert_eq!(check_of_replaced("2,2,witnessed", &format!("2,2,{word}")), 12, "{word}");
    }
    assert_eq!(check_of_replaced("2,2,witnessed", "2,2"), 12);
}

#[test]
fn one_hundred_and_twenty_eight_role_lines_are_of_the_form_and_one_more_is_not() {
    let number = |roles: usize| {
        let counts = format!("{roles},2,open");
        check_number(EXAMPLE, &example_book(&counts, roles - 2, "bo,map\nann,rec\n"))
    };
    assert_eq!([64, 65, 99, 100, 127, 128].map(number), [0; 6]);
    assert_eq!([129, 130, 200].map(number), [12; 3]);
}

/// The names of the roles from R100 on have three digits.
#[test]
fn role_names_are_decimal_without_leading_zeros() {
    let text = example_book("128,2,open", 126, "bo,map\nann,rec\n");
    for (name, other) in [("\nR128,", "\nR0128,"), ("\nR100,", "\nR1OO,"), (",R99,R100,", ",R99,R099,")] {
        assert!(text.contains(name), "{name}");
        assert_eq!(check_number(EXAMPLE, &text.replacen(name, other, 1)), 12, "{other}");
    }
}

/// The length is judged at the limit: counts of any length fill the book up.
#[test]
fn book_of_131072_bytes_is_read_and_one_more_byte_gives_12() {
    let filled = |bytes: usize| {
        let digits = bytes - EXAMPLE_BOOK.len() + 1;
        EXAMPLE_BOOK.replacen("2,2,w", &format!("2,{},w", "7".repeat(digits)), 1)
    };
    assert_eq!(filled(131_072).len(), 131_072);
    assert_eq!(check_number(EXAMPLE, &filled(65_536)), 13);
    assert_eq!(check_number(EXAMPLE, &filled(65_537)), 13);
    assert_eq!(check_number(EXAMPLE, &filled(131_072)), 13);
    assert_eq!(check_number(EXAMPLE, &filled(131_073)), 12);
}

#[test]
fn unknown_witness_name_gives_12() {
    assert_eq!(check_of_replaced("bo,map\n", "bob,map\n"), 12);
    assert_eq!(check_of_replaced("bo,map\n", "bo,maps\n"), 12);
    assert_eq!(check_of_replaced("bo,map\n", "rec,map\n"), 12);
    assert_eq!(check_of_replaced("bo,map\n", "bo,cy\n"), 12);
    assert_eq!(check_of_replaced("bo,map\n", "bo\n"), 12);
    assert_eq!(check_of_replaced("bo,map\n", "bo,map,map\n"), 12);
    assert_eq!(check_of_replaced("bo,map\n", "map,bo\n"), 12);
}

/// Names that are also words of the book do not confuse its reader.
#[test]
fn names_may_be_words_of_the_book() {
    let sheet = "user,permission,user,R1\nuser,1,1,0\nrole,0,1,1\nR1,1,1,1\n";
    let text = book(&session_with(sheet.as_bytes()));
    assert_eq!(check_number(sheet, &text), 0);
    assert!(text.contains("\n\nuser,permission\nuser,permission\nrole,R1\n"), "{text}");
}

#[test]
fn sheet_without_grants_has_one_book() {
    let sheet = "user,p\nu,0\n";
    let text = "roles,bound,state\n0,0,witnessed\n\nrole,p\n\nuser\nu\n\nuser,permission\n";
    assert_eq!(check_number(sheet, text), 0);
    assert_eq!(check_number(sheet, &text.replace("witnessed", "searched")), 13);
    assert_eq!(check_number(sheet, &text.replace("witnessed", "open")), 13);
    assert_eq!(check_number(sheet, &text.replace("u\n\n", "u,\n\n")), 12);
}
