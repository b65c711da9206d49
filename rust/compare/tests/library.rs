//! The library of the proved implementation held to the second one, byte for byte.

use compare::library::{Library, book, with_room, wrong_size};
use second::refusal::Refusal;
use second::script::lent_buffer;
use second::session;
use trials::agreement::{self, newcomers, one_change, reducing, steps};
use trials::cases::cases;
use trials::damage;
use trials::extremes;
use trials::families::{any, any_wide, behind};
use trials::paper;
use trials::searches::{any_wide_or_unfinished, unfinished};
use trials::spelling;
use trials::tally::Tally;

#[test]
fn a_session_has_the_size_that_the_library_gives_it() {
    with_room(|| assert_eq!(wrong_size(), None));
}

#[test]
fn books_of_small_sheets() {
    with_room(|| agreement::books_agree::<Library>(5_000, |random| any(random, 8)));
}

#[test]
fn books_of_middle_sheets() {
    with_room(|| agreement::books_agree::<Library>(500, |random| any(random, 16)));
}

#[test]
fn books_of_wide_sheets() {
    with_room(|| agreement::books_agree::<Library>(300, |random| any_wide(random, 12)));
}

#[test]
fn damaged_sheets() {
    with_room(|| agreement::damaged_sheets_agree::<Library>(10_000));
}

#[test]
fn checks() {
    with_room(|| agreement::checks_agree::<Library>(5_000, |random| any(random, 8)));
}

#[test]
fn checks_of_wide_sheets() {
    with_room(|| agreement::checks_agree::<Library>(2_000, |random| any_wide(random, 8)));
}

#[test]
fn spelled_sheets() {
    with_room(|| agreement::spelled_sheets_agree::<Library>(2_000));
}

#[test]
fn spelled_books() {
    with_room(|| agreement::spelled_books_agree::<Library>(2_000, |random| any(random, 8)));
}

#[test]
fn spelled_books_of_wide_sheets() {
    with_room(|| agreement::spelled_books_agree::<Library>(500, |random| any_wide(random, 8)));
}

#[test]
fn bytes_of_names() {
    with_room(agreement::bytes_of_names_agree::<Library>);
}

#[test]
fn lengths_of_names() {
    with_room(agreement::lengths_of_names_agree::<Library>);
}

#[test]
fn sequences() {
    with_room(|| agreement::sequences_agree::<Library>(1_000, 30, 8));
}

#[test]
fn calls_without_a_sheet() {
    with_room(|| reducing::calls_without_a_sheet_agree::<Library>(200));
}

#[test]
fn sheets_not_reduced() {
    with_room(|| reducing::sheets_not_reduced_agree::<Library>(1_000, |random| any(random, 8)));
}

#[test]
fn wide_sheets_not_reduced() {
    with_room(|| reducing::sheets_not_reduced_agree::<Library>(200, |random| any_wide(random, 8)));
}

#[test]
fn repeated_reductions() {
    with_room(|| reducing::repeated_reductions_agree::<Library>(1_000, |random| any(random, 10)));
}

#[test]
fn repeated_reductions_of_wide_sheets() {
    with_room(|| reducing::repeated_reductions_agree::<Library>(300, |random| any_wide(random, 10)));
}

#[test]
fn reloaded_sheets() {
    with_room(|| reducing::reloaded_sheets_agree::<Library>(1_000, |random| any(random, 10)));
}

#[test]
fn corrected_sheets() {
    with_room(|| reducing::corrected_sheets_agree::<Library>(1_000));
}

#[test]
fn budgets_before_the_reduction() {
    with_room(reducing::budgets_before_the_reduction_agree::<Library>);
}

#[test]
fn single_steps() {
    with_room(|| steps::single_steps_agree::<Library>(200, unfinished));
}

#[test]
fn searches_in_parts() {
    with_room(|| steps::parts_agree::<Library>(500, unfinished));
}

#[test]
fn searches_in_parts_of_wide_sheets() {
    with_room(|| steps::parts_agree::<Library>(200, |random| behind(60, &unfinished(random))));
}

#[test]
fn last_steps() {
    with_room(|| steps::last_steps_agree::<Library>(300, unfinished));
}

#[test]
fn worked_out_searches() {
    with_room(steps::worked_out_searches_agree::<Library>);
}

#[test]
fn smallest() {
    with_room(|| agreement::roles_are_smallest::<Library>(1_000));
}

#[test]
fn extremes() {
    with_room(agreement::extremes_agree::<Library>);
}

#[test]
fn wide_extremes() {
    with_room(agreement::wide_extremes_agree::<Library>);
}

#[test]
fn random_large_sheets() {
    with_room(|| agreement::random_large_sheets_agree::<Library>(20));
}

#[test]
fn limits() {
    with_room(agreement::limits_agree::<Library>);
}

#[test]
fn book_limits() {
    with_room(agreement::book_limits_agree::<Library>);
}

#[test]
fn kernels() {
    with_room(|| agreement::kernels_agree::<Library>(2));
}

#[test]
fn newcomers_in_books_of_sessions() {
    with_room(|| newcomers::newcomers_agree::<Library>(1_000, |random| any(random, 8)));
}

#[test]
fn newcomers_in_books_of_unfinished_sheets() {
    with_room(|| newcomers::newcomers_agree::<Library>(200, unfinished));
}

#[test]
fn newcomers_in_books_of_wide_sheets() {
    with_room(|| newcomers::newcomers_agree::<Library>(300, any_wide_or_unfinished));
}

#[test]
fn newcomers_in_changed_books() {
    with_room(|| newcomers::changed_books_agree::<Library>(2_000, |random| any(random, 8)));
}

#[test]
fn newcomers_in_changed_books_of_wide_sheets() {
    with_room(|| newcomers::changed_books_agree::<Library>(500, |random| any_wide(random, 8)));
}

#[test]
fn newcomers_one_after_another() {
    with_room(|| newcomers::chains_agree::<Library>(300, 8, |random| any(random, 6)));
}

#[test]
fn damaged_newcomers() {
    with_room(|| newcomers::damaged_newcomers_agree::<Library>(5_000));
}

#[test]
fn refused_newcomers() {
    with_room(newcomers::refused_newcomers_agree::<Library>);
}

#[test]
fn limits_of_newcomers() {
    with_room(newcomers::limits_agree::<Library>);
}

#[test]
fn newcomers_at_large_sheets() {
    with_room(newcomers::large_extremes_agree::<Library>);
}

#[test]
fn one_change_of_small_sheets() {
    with_room(|| one_change::small_sheets_agree::<Library>(1_000));
}

#[test]
fn one_change_of_sheets_of_any_size() {
    with_room(|| one_change::changed_sheets_agree::<Library>(500, |random| any(random, 16)));
}

#[test]
fn one_change_of_wide_sheets() {
    with_room(|| one_change::changed_sheets_agree::<Library>(200, any_wide_or_unfinished));
}

#[test]
fn known_changes() {
    with_room(one_change::worked_out_changes_agree::<Library>);
}

/// Both implementations' answers to one call that loads, reduces, searches and writes, which must be the same.
fn book_by_one_call(sheet: &[u8], budget: u32, length: usize) -> Result<usize, Refusal> {
    let mut buffer = lent_buffer(length);
    let mut expected_buffer = buffer.clone();
    let expected = session::book(sheet, budget, &mut expected_buffer);
    assert_eq!(book(sheet, budget, &mut buffer), expected, "{}", String::from_utf8_lossy(sheet));
    assert!(buffer == expected_buffer, "{}", String::from_utf8_lossy(sheet));
    expected
}

/// One call that loads, reduces, searches and writes, on good and on damaged sheets and with buffers of all lengths.
#[test]
fn books_by_one_call() {
    with_room(|| {
        let mut numbers = Tally::default();
        cases(3_000, |random| {
            let draft = any(random, 8);
            let sheet = match random.below(10) {
                0..=2 => damage::bytes(random, &draft.bytes()),
                3 => spelling::with_clash(random, &draft).bytes(),
                _ => draft.bytes(),
            };
            let budget = random.below(2_000) as u32;
            let length = if random.percent(80) { paper::BOOK_BYTES } else { random.below(400) };
            numbers.note(book_by_one_call(&sheet, budget, length).err());
        });
        let refused = [Refusal::BufferLength, Refusal::FieldCount, Refusal::NameTwice];
        numbers.expect(refused.map(Some).into_iter().chain([None]), 5);
    });
}

/// The longest book has more bytes than the book program's buffer and fewer than the checker reads.
#[test]
fn long_books_by_one_call() {
    with_room(|| {
        let sheet = extremes::with_longest_book().bytes();
        let count = book_by_one_call(&sheet, 0, paper::BOOK_BYTES).expect("the buffer is long enough");
        assert_eq!(book_by_one_call(&sheet, 0, count), Ok(count));
        for length in [count - 1, paper::PROGRAM_BUFFER_BYTES] {
            assert_eq!(book_by_one_call(&sheet, 0, length), Err(Refusal::BufferLength));
        }
    });
}
