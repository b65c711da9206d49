//! The checker's answer, and what it says about the counts, the product and the witness of a book of the
//! form.

use second::checker::check;

use crate::support::{EXAMPLE, EXAMPLE_BOOK, check_answer, check_number, check_of_replaced, example_book};

#[test]
fn answer_is_roles_and_witness_lines() {
    assert_eq!(check(EXAMPLE.as_bytes(), EXAMPLE_BOOK.as_bytes()), Ok(check_answer(2, 2)));
    let open = example_book("5,1,open", 3, "bo,map\n");
    assert_eq!(check(EXAMPLE.as_bytes(), open.as_bytes()), Ok(check_answer(5, 1)));
}

#[test]
fn sheet_is_judged_before_anything_of_the_book() {
    let long = "x".repeat(131_073);
    assert_eq!(check_number("user,p\nu,2\n", &long), 7);
    assert_eq!(check_number("", ""), 2);
    assert_eq!(check_number(EXAMPLE, &long), 12);
    assert_eq!(check_number(EXAMPLE, ""), 12);
}

#[test]
fn witnessed_needs_bound_roles_and_witness_lines_equal() {
    assert_eq!(check_number(EXAMPLE, &example_book("2,2,witnessed", 0, "bo,map\nann,rec\n")), 0);
    assert_eq!(check_number(EXAMPLE, &example_book("2,2,witnessed", 0, "bo,map\n")), 13);
    assert_eq!(check_number(EXAMPLE, &example_book("2,1,witnessed", 0, "bo,map\nann,rec\n")), 13);
    assert_eq!(check_number(EXAMPLE, &example_book("3,3,witnessed", 1, "bo,map\nann,rec\n")), 13);
}

#[test]
fn searched_needs_bound_equal_to_roles_and_fewer_witness_lines() {
    assert_eq!(check_number(EXAMPLE, &example_book("2,2,searched", 0, "bo,map\n")), 0);
    assert_eq!(check_number(EXAMPLE, &example_book("2,2,searched", 0, "")), 0);
    assert_eq!(check_number(EXAMPLE, &example_book("2,2,searched", 0, "bo,map\nann,rec\n")), 13);
    assert_eq!(check_number(EXAMPLE, &example_book("2,1,searched", 0, "bo,map\n")), 13);
    assert_eq!(check_number(EXAMPLE, &example_book("1,2,searched", 0, "bo,map\n")), 13);
}

#[test]
fn open_needs_bound_equal_to_witness_lines_and_more_roles() {
    assert_eq!(check_number(EXAMPLE, &example_book("2,1,open", 0, "bo,map\n")), 0);
    assert_eq!(check_number(EXAMPLE, &example_book("2,0,open", 0, "")), 0);
    assert_eq!(check_number(EXAMPLE, &example_book("2,2,open", 0, "bo,map\nann,rec\n")), 13);
    assert_eq!(check_number(EXAMPLE, &example_book("2,2,open", 0, "bo,map\n")), 13);
    assert_eq!(check_number(EXAMPLE, &example_book("3,1,open", 0, "bo,map\n")), 13);
}

#[test]
fn roles_that_nobody_has_or_that_hold_nothing_are_allowed() {
    assert_eq!(check_number(EXAMPLE, &example_book("3,2,open", 1, "bo,map\nann,rec\n")), 0);
    let empty = example_book("3,2,open", 1, "bo,map\nann,rec\n").replace("R3,0,1,0", "R3,0,0,0");
    assert_eq!(check_number(EXAMPLE, &empty), 0);
    assert_eq!(check_number(EXAMPLE, &empty.replace("bo,0,1,0", "bo,0,1,1")), 0);
}

#[test]
fn product_that_is_not_the_sheet_gives_14() {
    assert_eq!(check_of_replaced("R1,1,1,0", "R1,1,1,1"), 14);
    assert_eq!(check_of_replaced("R1,1,1,0", "R1,1,0,0"), 14);
    assert_eq!(check_of_replaced("bo,0,1", "bo,1,1"), 14);
    assert_eq!(check_of_replaced("bo,0,1", "bo,0,0"), 14);
}

#[test]
fn witness_lines_may_stand_in_any_order() {
    assert_eq!(check_of_replaced("ann,rec\nbo,map\n", "bo,map\nann,rec\n"), 0);
}

#[test]
fn witness_grant_that_is_not_held_gives_15() {
    assert_eq!(check_of_replaced("bo,map\n", "ann,map\n"), 15);
}

#[test]
fn two_witness_grants_that_fit_give_15() {
    assert_eq!(check_of_replaced("bo,map\n", "cy,rec\n"), 15);
    assert_eq!(check_of_replaced("bo,map\n", "ann,id\n"), 15);
}

#[test]
fn same_witness_twice_gives_15_if_the_counts_agree_and_else_13() {
    assert_eq!(check_of_replaced("bo,map\n", "ann,rec\n"), 15);
    assert_eq!(check_of_replaced("bo,map\n", "bo,map\nbo,map\n"), 13);
    assert_eq!(check_number(EXAMPLE, &example_book("4,2,open", 2, "bo,map\nbo,map\n")), 15);
}

#[test]
fn lowest_cause_of_a_book_is_given() {
    let product_and_witness = EXAMPLE_BOOK.replace("R1,1,1,0", "R1,1,1,1").replace("bo,map\n", "ann,map\n");
    assert_eq!(check_number(EXAMPLE, &product_and_witness), 14);
    let counts_too = product_and_witness.replace("2,2,w", "2,3,w");
    assert_eq!(check_number(EXAMPLE, &counts_too), 13);
    let form_too = counts_too.replace("user,permission", "user,permit");
    assert_eq!(check_number(EXAMPLE, &form_too), 12);
}

#[test]
fn book_of_another_sheet_is_refused() {
    let other = EXAMPLE.replace("bo,0,1,1", "bo,1,1,1");
    assert_eq!(check_number(&other, EXAMPLE_BOOK), 14);
    assert_eq!(check_number(&EXAMPLE.replace("bo", "bob"), EXAMPLE_BOOK), 12);
}
