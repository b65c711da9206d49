//! Large sheets, up to every limit, against the restated rules.

use second::session::Session;
use trials::cases::cases;
use trials::draft::Draft;
use trials::extremes;
use trials::families;
use trials::paper;
use trials::random::Random;
use trials::restated::form::verdict;
use trials::restated::whole::Prepared;

use crate::support::{load_number, numbers, reduced};

/// Reduction, witness, first cover and book of a large sheet.
fn try_large(draft: &Draft) {
    let mut session = Session::fresh();
    let loaded = session.load(&draft.bytes()).expect("the sheet is acceptable");
    let answer = session.reduce().expect("a sheet is loaded");
    let expected = Prepared::of(draft);
    let state = reduced(&session);
    assert_eq!(numbers(draft, &state.reduction().kernel), expected.kernel);
    assert_eq!(numbers(draft, state.witness()), expected.witness);
    assert_eq!(state.machine().best().classes, expected.first_best);
    let (kernel, witness) = (expected.kernel.len(), expected.witness.len());
    assert_eq!((loaded.grants, answer.kernel, answer.witness), (draft.grants().len(), kernel, witness));
    let roles = session.search(1_000).expect("the sheet is reduced").roles;
    assert!(roles <= paper::ROLES);
    let book = reduced(&session).book_bytes();
    assert_eq!(verdict(draft, &book), Ok((roles, witness)));
}

#[test]
fn longest_sheets() {
    try_large(&extremes::longest(&mut Random::from_seed(2)));
    try_large(&extremes::with_longest_names(&mut Random::from_seed(2)));
}

#[test]
fn most_users_and_permissions() {
    try_large(&extremes::filled(&mut Random::from_seed(2), 251, 128, 65_536));
    try_large(&extremes::filled(&mut Random::from_seed(2), 256, 125, 65_536));
    try_large(&extremes::with_long_book(&mut Random::from_seed(2)));
    try_large(&extremes::with_longest_book());
}

#[test]
fn full_sheet_of_2048_grants() {
    try_large(&extremes::full(16, 128));
    try_large(&extremes::full(32, 64));
    try_large(&extremes::full(256, 8));
}

/// In 128 columns a row has two words of 64.
#[test]
fn grants_in_the_second_word_alone() {
    try_large(&families::behind(64, &families::crown(45)));
    try_large(&families::behind(64, &families::band(64, 20)));
    try_large(&families::behind(127, &extremes::full(240, 1)));
    try_large(&families::behind(64, &extremes::with_grants(&mut Random::from_seed(2), 64, 64, 2_048)));
}

#[test]
fn blocks_that_meet_where_the_second_word_begins() {
    try_large(&families::blocks(&[(16, 64), (16, 64)]));
    try_large(&families::blocks(&[(8, 63), (8, 2), (8, 63)]));
    try_large(&families::beside(&families::crown(32), &families::behind(32, &families::crown(32))));
}

#[test]
fn own_permission_and_another_one() {
    try_large(&families::paired(&mut Random::from_seed(2), 128));
    try_large(&families::band(128, 2));
}

#[test]
fn widest_crown() {
    try_large(&families::crown(45));
}

#[test]
fn widest_bands() {
    try_large(&families::band(64, 5));
    try_large(&families::band(64, 20));
    try_large(&families::band(128, 16));
}

#[test]
fn widest_staircase_and_star() {
    try_large(&families::staircase(63));
    try_large(&families::star(256, 64));
    try_large(&families::star(240, 128));
}

#[test]
fn widest_blocks() {
    try_large(&families::blocks(&[(1, 1); 128]));
    try_large(&families::blocks(&[(4, 1); 64]));
    try_large(&families::blocks(&[(32, 8); 8]));
}

#[test]
fn copied_users_and_permissions() {
    let mut random = Random::from_seed(3);
    let base = families::random(&mut random, 16, 16, 30);
    let wide = families::turned(&families::with_copied_users(&mut random, &base, 16));
    try_large(&families::with_copied_users(&mut random, &wide, 60));
}

#[test]
fn random_large_sheets() {
    cases(6, |random| {
        let users = random.between(30, 240);
        let permissions = random.between(20, paper::PERMISSIONS);
        let grants = random.between(300, 1_500.min(users * permissions / 2));
        try_large(&extremes::with_grants(random, users, permissions, grants).renamed(random));
    });
}

#[test]
fn each_limit_passes_and_one_more_is_refused() {
    let named = |bytes| extremes::with_name_bytes(extremes::full(2, 2), bytes).bytes();
    let sized = |users, permissions| Draft::plain(users, permissions, |_, _| false).bytes();
    let granted = |count| extremes::with_grants(&mut Random::from_seed(4), 256, 64, count).bytes();
    let outcomes = [
        (named(16), 0),
        (named(17), 5),
        (sized(256, 64), 0),
        (sized(256, 65), 0),
        (sized(257, 64), 4),
        (sized(257, 65), 4),
        (sized(200, 128), 0),
        (sized(200, 129), 3),
        (sized(257, 100), 4),
        (granted(2_048), 0),
        (granted(2_049), 9),
    ];
    for (sheet, expected) in outcomes {
        assert_eq!(load_number(&sheet), expected, "{}", String::from_utf8_lossy(&sheet[..40]));
    }
}

/// The length is the first cause: a sheet can be too long and else well formed, as each is that has 252 users or more
/// and 128 permissions, or 256 users and 126 permissions or more. The names here are the shortest that there can be but
/// for the dot, which would save two bytes: 38 names of one byte, the others of two.
#[test]
fn well_formed_sheet_can_be_too_long() {
    let shortest = |users, permissions| {
        extremes::with_shortest_names(Draft::plain(users, permissions, |_, _| false)).bytes()
    };
    assert_eq!((shortest(251, 128).len(), load_number(&shortest(251, 128))), (65_322, 0));
    assert_eq!((shortest(252, 128).len(), load_number(&shortest(252, 128))), (65_581, 1));
    assert_eq!((shortest(256, 125).len(), load_number(&shortest(256, 125))), (65_072, 0));
    assert_eq!((shortest(256, 126).len(), load_number(&shortest(256, 126))), (65_587, 1));
    assert_eq!((shortest(256, 128).len(), load_number(&shortest(256, 128))), (66_617, 1));
    for (users, permissions) in [(240, 128), (251, 128), (256, 125)] {
        let filled = |bytes| extremes::filled(&mut Random::from_seed(4), users, permissions, bytes).bytes();
        assert_eq!(load_number(&filled(65_535)), 0);
        assert_eq!(load_number(&filled(65_536)), 0);
        assert_eq!(load_number(&filled(65_537)), 1);
    }
}
