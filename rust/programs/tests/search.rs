//! The search program as it is called.

use std::path::Path;

use programs::{book_output, search_output};
use second::roles::State;
use second::rounds::Round;
use trials::draft::Draft;
use trials::extremes;
use trials::families::crown;
use trials::process::said_and_printed;
use trials::random::Random;
use trials::rounds::lines_without_rates;
use trials::searches;
use trials::sessions::first_book;
use trials::steps::search_answer;

/// What the program says of its rounds, without their rates, and what it prints.
fn searched(arguments: &[&str], sheet: &[u8]) -> (Vec<String>, String) {
    let program = Path::new(env!("CARGO_BIN_EXE_second-search"));
    let (said, printed) = said_and_printed(program, arguments, sheet);
    (lines_without_rates(&said), printed)
}

/// The book of the sheet after one search of this budget.
fn book(sheet: &[u8], budget: u32) -> String {
    String::from_utf8(book_output(sheet, budget)).expect("a book is plain text")
}

/// Sheets that are finished in the first round, be it without a step, by the witness or by closing.
#[test]
fn the_round_is_said_and_the_book_is_printed() {
    for (draft, line) in [
        (Draft::plain(1, 1, |_, _| false), "0 steps so far, depth gained 0, 0 roles, bound 0, witnessed"),
        (crown(3), "0 steps so far, depth gained 0, 3 roles, bound 3, witnessed"),
        (searches::finished_by_the_witness(), "9 steps so far, depth gained 7, 4 roles, bound 4, witnessed"),
        (searches::improved(), "45 steps so far, depth gained 0, 5 roles, bound 5, searched"),
        (crown(4), "125 steps so far, depth gained 0, 4 roles, bound 4, searched"),
    ] {
        let sheet = draft.bytes();
        let expected = (vec![line.to_string()], book(&sheet, u32::MAX));
        for arguments in [&[][..], &["1"], &["2"], &["4294967295"], &["0"], &["x"]] {
            assert_eq!(searched(arguments, &sheet), expected, "{arguments:?}");
        }
    }
}

#[test]
fn the_number_of_a_refusal_is_printed_and_nothing_is_said() {
    for (sheet, number) in [
        (Vec::new(), "2\n"),
        (b"user,p\nu,2\n".to_vec(), "7\n"),
        (extremes::full(1, 129).bytes(), "3\n"),
        (extremes::of_bytes(65_536), "5\n"),
        (extremes::of_bytes(65_537), "1\n"),
        (extremes::of_bytes(400_000), "1\n"),
    ] {
        for arguments in [&[][..], &["3"]] {
            assert_eq!(searched(arguments, &sheet), (Vec::new(), number.to_string()));
        }
    }
}

/// With a kernel above 128, here one of 132 grants, a search makes no step, so every round answers `open`.
#[test]
fn rounds_are_the_first_argument() {
    let sheet = crown(12).bytes();
    let rounds_of = |arguments: &[&str]| {
        let (lines, printed) = searched(arguments, &sheet);
        let is_open = |line: &String| line == "0 steps so far, depth gained 0, 12 roles, bound 3, open";
        assert!(lines.iter().all(is_open) && printed == book(&sheet, 0), "{arguments:?}");
        lines.len()
    };
    for (argument, rounds) in [("1", 1), ("3", 3), ("003", 3), ("000000000000000000003", 3), ("3601", 3_601)]
    {
        assert_eq!(rounds_of(&[argument]), rounds, "{argument}");
    }
    for argument in ["", "0", "000", "x", "+3", "-3", " 3", "3 ", "3.0", "0x3", "4294967296"] {
        assert_eq!(rounds_of(&[argument]), 3_600, "{argument}");
    }
    assert_eq!(rounds_of(&[]), 3_600);
    assert_eq!((rounds_of(&["2", "5"]), rounds_of(&["x", "5"])), (2, 3_600));
}

/// The program's buffer has room for every book; the book program's has not.
#[test]
fn books_longer_than_the_book_programs_buffer_are_printed() {
    for bytes in [65_536, 65_537] {
        assert_eq!(searched(&[], &extremes::with_book_bytes(bytes).bytes()).1.len(), bytes);
    }
    let (lines, printed) = searched(&[], &extremes::with_longest_book().bytes());
    assert_eq!(lines, ["0 steps so far, depth gained 0, 128 roles, bound 128, witnessed"]);
    assert_eq!(printed.len(), 103_780);
    let sheet = extremes::with_long_book(&mut Random::from_seed(1)).bytes();
    assert!(searched(&["2"], &sheet).1.into_bytes() == first_book(&sheet));
}

/// What the program would say and print if it searched as fast as the baseline does.
fn long_search(draft: &Draft, rounds: u32) -> (Vec<String>, String) {
    let mut said = String::new();
    let output =
        search_output::<baseline::session::Session>(&draft.bytes(), rounds, |line| said += &(line + "\n"));
    (lines_without_rates(&said), String::from_utf8(output).expect("a book is plain text"))
}

/// The steps are summed up over the rounds, and the depth gained is that of a round alone. The numbers were worked out
/// apart from this code.
#[test]
fn each_round_goes_on_where_the_one_before_ended() {
    let (lines, printed) = long_search(&crown(8), 2);
    assert_eq!(
        lines,
        [
            "100000000 steps so far, depth gained 34, 6 roles, bound 3, open",
            "200000000 steps so far, depth gained -8, 6 roles, bound 3, open",
        ]
    );
    assert_eq!(printed.lines().nth(1), Some("6,3,open"));
}

#[test]
fn the_round_that_closes_is_the_last() {
    let (lines, printed) = long_search(&searches::long(), 3_600);
    assert_eq!(
        lines,
        [
            "100000000 steps so far, depth gained 22, 5 roles, bound 3, open",
            "102899783 steps so far, depth gained -22, 5 roles, bound 5, searched",
        ]
    );
    assert_eq!(printed.lines().nth(1), Some("5,5,searched"));
}

#[test]
fn lines_have_room_for_every_number() {
    let answer = search_answer([100_000_000, 0, 100_000_000, 0], 128, 127, State::Open);
    let round = Round { answer, steps: 429_496_729_500_000_000 };
    assert_eq!(
        round.line(u64::MAX),
        "429496729500000000 steps so far, depth gained -100000000, 128 roles, bound 127, open, \
         18446744073709551615 steps a second"
    );
}
