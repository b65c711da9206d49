//! The baseline held to the second implementation: it would measure nothing if it did something else.

use baseline::session::Session;
use trials::agreement::{self, newcomers, one_change, reducing, steps};
use trials::families::{any, any_wide, behind};
use trials::searches::{any_wide_or_unfinished, unfinished};

#[test]
fn books_of_small_sheets() {
    agreement::books_agree::<Session>(8_000, |random| any(random, 8));
}

#[test]
fn books_of_middle_sheets() {
    agreement::books_agree::<Session>(1_000, |random| any(random, 16));
}

#[test]
fn books_of_wide_sheets() {
    agreement::books_agree::<Session>(300, |random| any_wide(random, 12));
}

#[test]
fn damaged_sheets() {
    agreement::damaged_sheets_agree::<Session>(20_000);
}

#[test]
fn checks() {
    agreement::checks_agree::<Session>(10_000, |random| any(random, 8));
}

#[test]
fn checks_of_wide_sheets() {
    agreement::checks_agree::<Session>(2_000, |random| any_wide(random, 8));
}

#[test]
fn spelled_sheets() {
    agreement::spelled_sheets_agree::<Session>(3_000);
}

#[test]
fn spelled_books() {
    agreement::spelled_books_agree::<Session>(3_000, |random| any(random, 8));
}

#[test]
fn spelled_books_of_wide_sheets() {
    agreement::spelled_books_agree::<Session>(500, |random| any_wide(random, 8));
}

#[test]
fn bytes_of_names() {
    agreement::bytes_of_names_agree::<Session>();
}

#[test]
fn lengths_of_names() {
    agreement::lengths_of_names_agree::<Session>();
}

#[test]
fn sequences() {
    agreement::sequences_agree::<Session>(1_000, 30, 8);
}

#[test]
fn calls_without_a_sheet() {
    reducing::calls_without_a_sheet_agree::<Session>(200);
}

#[test]
fn sheets_not_reduced() {
    reducing::sheets_not_reduced_agree::<Session>(1_000, |random| any(random, 8));
}

#[test]
fn wide_sheets_not_reduced() {
    reducing::sheets_not_reduced_agree::<Session>(200, |random| any_wide(random, 8));
}

#[test]
fn repeated_reductions() {
    reducing::repeated_reductions_agree::<Session>(2_000, |random| any(random, 10));
}

#[test]
fn repeated_reductions_of_wide_sheets() {
    reducing::repeated_reductions_agree::<Session>(300, |random| any_wide(random, 10));
}

#[test]
fn reloaded_sheets() {
    reducing::reloaded_sheets_agree::<Session>(1_000, |random| any(random, 10));
}

#[test]
fn corrected_sheets() {
    reducing::corrected_sheets_agree::<Session>(1_000);
}

#[test]
fn budgets_before_the_reduction() {
    reducing::budgets_before_the_reduction_agree::<Session>();
}

#[test]
fn single_steps() {
    steps::single_steps_agree::<Session>(500, unfinished);
}

#[test]
fn searches_in_parts() {
    steps::parts_agree::<Session>(1_000, unfinished);
}

#[test]
fn searches_in_parts_of_wide_sheets() {
    steps::parts_agree::<Session>(300, |random| behind(60, &unfinished(random)));
}

#[test]
fn last_steps() {
    steps::last_steps_agree::<Session>(500, unfinished);
}

#[test]
fn worked_out_searches() {
    steps::worked_out_searches_agree::<Session>();
}

#[test]
fn smallest() {
    agreement::roles_are_smallest::<Session>(1_000);
}

#[test]
fn extremes() {
    agreement::extremes_agree::<Session>();
}

#[test]
fn wide_extremes() {
    agreement::wide_extremes_agree::<Session>();
}

#[test]
fn random_large_sheets() {
    agreement::random_large_sheets_agree::<Session>(40);
}

#[test]
fn limits() {
    agreement::limits_agree::<Session>();
}

#[test]
fn book_limits() {
    agreement::book_limits_agree::<Session>();
}

#[test]
fn kernels() {
    agreement::kernels_agree::<Session>(4);
}

#[test]
fn newcomers_in_books_of_sessions() {
    newcomers::newcomers_agree::<Session>(1_000, |random| any(random, 8));
}

#[test]
fn newcomers_in_books_of_unfinished_sheets() {
    newcomers::newcomers_agree::<Session>(200, unfinished);
}

#[test]
fn newcomers_in_books_of_wide_sheets() {
    newcomers::newcomers_agree::<Session>(300, any_wide_or_unfinished);
}

#[test]
fn newcomers_in_changed_books() {
    newcomers::changed_books_agree::<Session>(2_000, |random| any(random, 8));
}

#[test]
fn newcomers_in_changed_books_of_wide_sheets() {
    newcomers::changed_books_agree::<Session>(500, |random| any_wide(random, 8));
}

#[test]
fn newcomers_one_after_another() {
    newcomers::chains_agree::<Session>(300, 8, |random| any(random, 6));
}

#[test]
fn damaged_newcomers() {
    newcomers::damaged_newcomers_agree::<Session>(5_000);
}

#[test]
fn refused_newcomers() {
    newcomers::refused_newcomers_agree::<Session>();
}

#[test]
fn limits_of_newcomers() {
    newcomers::limits_agree::<Session>();
}

#[test]
fn newcomers_at_large_sheets() {
    newcomers::large_extremes_agree::<Session>();
}

#[test]
fn one_change_of_small_sheets() {
    one_change::small_sheets_agree::<Session>(1_000);
}

#[test]
fn one_change_of_sheets_of_any_size() {
    one_change::changed_sheets_agree::<Session>(500, |random| any(random, 16));
}

#[test]
fn one_change_of_wide_sheets() {
    one_change::changed_sheets_agree::<Session>(200, any_wide_or_unfinished);
}

#[test]
fn known_changes() {
    one_change::worked_out_changes_agree::<Session>();
}
