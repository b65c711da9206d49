//! Another implementation held to the second one: given the same calls, both must answer the same, and leave
//! the same bytes in the lent buffers.

use second::checker::{CheckAnswer, check};
use second::implementation::Implementation;
use second::refusal::Refusal;
use second::roles::State;
use second::script::{Call, lent_buffer};
use second::session::{LoadAnswer, ReduceAnswer, SearchAnswer, Session};

use crate::book_draft::{BookDraft, Place, with_fields};
use crate::brute;
use crate::calls::sequence;
use crate::cases::cases;
use crate::damage;
use crate::draft::{Draft, NAME_CHARACTERS};
use crate::extremes;
use crate::families;
use crate::kernels::with_kernel;
use crate::paper;
use crate::random::Random;
use crate::restated::spelling::settled;
use crate::restated::whole::Prepared;
use crate::spelling;
use crate::steps::{NO_STEPS, counts, judged_search};
use crate::tally::Tally;

pub mod newcomers;
pub mod one_change;
pub mod reducing;
pub mod steps;

/// Steps within which nearly all small sheets are finished.
const SMALL_BUDGET: u32 = 100_000;

/// Steps for larger sheets.
const LARGE_BUDGET: u32 = 2_000;

/// A session of each implementation, given the same calls.
pub struct Pair<Other> {
    second: Session,
    other: Other,
}

impl<Other: Implementation> Pair<Other> {
    pub fn fresh() -> Self {
        Pair { second: Session::fresh(), other: Other::fresh() }
    }

    /// Sessions with this sheet, which must be acceptable. It is not reduced.
    pub fn loaded(draft: &Draft) -> Self {
        let mut pair = Pair::fresh();
        pair.load(&draft.bytes()).expect("the sheet is acceptable");
        pair
    }

    /// Sessions with this sheet, which must be acceptable, reduced.
    pub fn reduced(draft: &Draft) -> Self {
        let mut pair = Pair::loaded(draft);
        pair.reduce().expect("a sheet is loaded");
        pair
    }

    pub fn load(&mut self, sheet: &[u8]) -> Result<LoadAnswer, Refusal> {
        let expected = self.second.load(sheet);
        assert_eq!(self.other.load(sheet), expected, "{}", String::from_utf8_lossy(sheet));
        expected
    }

    pub fn reduce(&mut self) -> Result<ReduceAnswer, Refusal> {
        let expected = self.second.reduce();
        assert_eq!(self.other.reduce(), expected, "{:?}", self.second);
        expected
    }

    /// A search whose counts are also judged by where the machine stands before it and after it.
    pub fn search(&mut self, budget: u32) -> Result<SearchAnswer, Refusal> {
        let expected = judged_search(&mut self.second, budget);
        assert_eq!(self.other.search(budget), expected, "{:?}", self.second);
        expected
    }

    /// A writing into a buffer of this length; the buffers are then compared whole. A refused one leaves every byte.
    pub fn write(&mut self, length: usize) -> Result<usize, Refusal> {
        let mut expected_buffer = lent_buffer(length);
        let expected = self.second.write(&mut expected_buffer);
        let mut buffer = lent_buffer(length);
        assert!(
            expected.is_ok() || expected_buffer == buffer,
            "{}",
            String::from_utf8_lossy(&expected_buffer)
        );
        assert_eq!(self.other.write(&mut buffer), expected, "{:?}", self.second);
        assert!(
            buffer == expected_buffer,
            "{}\nand not\n{}",
            String::from_utf8_lossy(&buffer),
            String::from_utf8_lossy(&expected_buffer)
        );
        expected
    }

    /// Writings of the book into buffers of its length, one byte shorter and some bytes longer. Gives the book.
    pub fn book(&mut self) -> Vec<u8> {
        let book = self.second.reduced().expect("the sheet is reduced").book_bytes();
        assert_eq!(self.write(book.len()), Ok(book.len()));
        assert_eq!(self.write(book.len() - 1), Err(Refusal::BufferLength));
        assert_eq!(self.write(book.len() + 100), Ok(book.len()));
        book
    }

    /// Searches of any budget and writings into buffers of these lengths, all refused by this cause.
    fn assert_refused(&mut self, refusal: Refusal, lengths: &[usize]) {
        for budget in [0, 1, u32::MAX] {
            assert_eq!(self.search(budget), Err(refusal));
        }
        for length in lengths {
            assert_eq!(self.write(*length), Err(refusal));
        }
    }

    /// Makes a call and gives its name and the number of the refusal, 0 if there is none.
    fn call(&mut self, call: &Call) -> (&'static str, u32) {
        let (name, refusal) = match call {
            Call::Load(sheet) => ("load", self.load(sheet).err()),
            Call::Reduce => ("reduce", self.reduce().err()),
            Call::Search(budget) => ("search", self.search(*budget).err()),
            Call::Write(length) => ("write", self.write(*length).err()),
            Call::Check { sheet, book } => ("check", checked::<Other>(sheet, book).err()),
            Call::Newcomer { sheet, book, line, length } => {
                ("newcomer", newcomers::joined::<Other>(sheet, book, line, *length).err())
            }
        };
        (name, refusal.map_or(0, Refusal::number))
    }
}

/// The judgement of both checkers.
pub fn checked<Other: Implementation>(sheet: &[u8], book: &[u8]) -> Result<CheckAnswer, Refusal> {
    let expected = check(sheet, book);
    let found = Other::check(sheet, book);
    assert_eq!(found, expected, "{}\n{}", String::from_utf8_lossy(sheet), String::from_utf8_lossy(book));
    expected
}

/// Loads, reductions, searches and books of such sheets.
pub fn books_agree<Other: Implementation>(count: u64, sheet: impl Fn(&mut Random) -> Draft) {
    let mut states = Tally::default();
    cases(count, |random| {
        let mut pair = Pair::<Other>::reduced(&sheet(random));
        for budget in [0, 1, random.below(20) as u32, random.below(3_000) as u32] {
            let answer = pair.search(budget).expect("the sheet is reduced");
            states.note(answer.state.word());
        }
        pair.book();
    });
    states.expect(State::ALL.map(State::word), 5);
}

/// Loads of sheets with damaged bytes.
pub fn damaged_sheets_agree<Other: Implementation>(count: u64) {
    let mut numbers = Tally::default();
    cases(count, |random| {
        let sheet = families::any(random, 8).bytes();
        let damaged = damage::bytes(random, &sheet);
        numbers.note(Pair::<Other>::fresh().load(&damaged).err());
    });
    let refused = [
        Refusal::SheetBytes,
        Refusal::FirstLine,
        Refusal::UserLines,
        Refusal::NameLength,
        Refusal::FieldCount,
    ];
    numbers.expect(refused.map(Some), 5);
    numbers.expect([None, Some(Refusal::FieldValue), Some(Refusal::NameTwice)], 5);
}

/// Checks of good and of damaged books of such sheets.
pub fn checks_agree<Other: Implementation>(count: u64, sheet: impl Fn(&mut Random) -> Draft) {
    let mut numbers = Tally::default();
    cases(count, |random| {
        let draft = sheet(random);
        let mut pair = Pair::<Other>::reduced(&draft);
        pair.search(random.below(500) as u32).expect("the sheet is reduced");
        let book = pair.book();
        checked::<Other>(&draft.bytes(), &book).expect("a written book is accepted");
        let damaged = match random.below(10) {
            0..=6 => damage::book(random, &draft, &book),
            _ => damage::bytes(random, &book),
        };
        numbers.note(checked::<Other>(&draft.bytes(), &damaged).err());
        let sheet = damage::bytes(random, &draft.bytes());
        checked::<Other>(&sheet, &book).ok();
    });
    let refused = [Refusal::BookForm, Refusal::BookCounts, Refusal::BookProduct, Refusal::BookWitness];
    numbers.expect(refused.map(Some), 20);
    numbers.expect([None], 20);
}

/// Loads of sheets that differ in case only: with other names, with two names that are one, and with the first field in
/// other case. Each book is spelled as its sheet is.
pub fn spelled_sheets_agree<Other: Implementation>(count: u64) {
    cases(count, |random| {
        let draft = families::any(random, 8);
        let mut pair = Pair::<Other>::fresh();
        let counts = (pair.load(&draft.bytes()), pair.reduce());
        assert_spelled_as(&draft, &pair.book());
        let respelt = spelling::sheet(random, &draft);
        assert_eq!((pair.load(&respelt.bytes()), pair.reduce()), counts, "{respelt:?}");
        let book = pair.book();
        assert_spelled_as(&respelt, &book);
        let refused = [
            (spelling::with_clash(random, &draft).bytes(), Refusal::NameTwice),
            (spelling::with_first_field_in_other_case(random, &draft), Refusal::FirstLine),
            (spelling::with_foreign_letter(random, &draft), Refusal::SheetBytes),
        ];
        for (sheet, refusal) in refused {
            assert_eq!(pair.load(&sheet), Err(refusal), "{}", String::from_utf8_lossy(&sheet));
            assert_eq!(checked::<Other>(&sheet, &book), Err(refusal), "{}", String::from_utf8_lossy(&sheet));
        }
        assert_eq!(pair.book(), book, "a refused load changes nothing");
    });
}

/// Every name in the book is, byte for byte, one of the sheet's.
fn assert_spelled_as(draft: &Draft, book: &[u8]) {
    with_fields(draft, book, |place, field| {
        let is_spelled = |place: Place| place.names(draft).iter().any(|name| name.as_bytes() == field);
        assert!(place.is_none_or(is_spelled), "{draft:?} {}", String::from_utf8_lossy(book));
        field.to_vec()
    });
}

/// Checks of books that are right but for their spelling: names in other case are accepted; a name misspelt, a word or
/// a role name in other case and a grant named twice in any case are not.
pub fn spelled_books_agree<Other: Implementation>(count: u64, sheet: impl Fn(&mut Random) -> Draft) {
    let mut misspelt_places = Tally::default();
    let mut doubled_books = Tally::default();
    cases(count, |random| {
        let draft = sheet(random);
        let mut pair = Pair::<Other>::reduced(&draft);
        pair.search(random.below(500) as u32).expect("the sheet is reduced");
        let book = pair.book();
        let judged = |draft: &Draft, book: &[u8]| checked::<Other>(&draft.bytes(), book);
        let answer = judged(&draft, &book).expect("a written book is accepted");
        assert_eq!(judged(&draft, &spelling::book(random, &draft, &book)), Ok(answer));
        assert_eq!(judged(&spelling::sheet(random, &draft), &book), Ok(answer));
        let (place, misspelt) = spelling::misspelt_book(random, &draft, &book);
        assert_eq!(judged(&draft, &misspelt), Err(Refusal::BookForm));
        misspelt_places.note(Some(place));
        let word = spelling::with_word_in_other_case(random, &draft, &book);
        assert_eq!(judged(&draft, &word), Err(Refusal::BookForm));
        let doubled = spelling::with_witness_twice(random, &draft, &book);
        if let Some(book) = &doubled {
            assert_eq!(judged(&draft, book), Err(Refusal::BookWitness));
        }
        doubled_books.note(doubled.is_some());
    });
    misspelt_places.expect(Place::ALL.map(Some), 20);
    doubled_books.expect([true], 20);
}

/// Every two bytes as names of two users and of two permissions, and every byte in the place of every byte of a name in
/// a book, block by block. Only a letter in its other case is the same.
pub fn bytes_of_names_agree<Other: Implementation>() {
    let mut pair = Pair::<Other>::fresh();
    for own in NAME_CHARACTERS {
        let draft = named_alike(&char::from(*own).to_string());
        let book = Pair::<Other>::reduced(&draft).book();
        for other in 0..=u8::MAX {
            let are_one = settled(&[*own]) == settled(&[other]);
            for place in Place::ALL {
                let changed = with_name_at(&draft, &book, place, &[other]);
                let found = checked::<Other>(&draft.bytes(), &changed);
                assert_eq!(found.err(), (!are_one).then_some(Refusal::BookForm), "{own} {other} {place:?}");
            }
            if NAME_CHARACTERS.contains(&other) {
                let names = [own, &other].map(|byte| char::from(*byte).to_string());
                assert_names_agree(&mut pair, names, are_one);
            }
        }
    }
}

/// Names of every length in other case, and such ones that differ in one letter more, at every place, or have a letter
/// less or more.
pub fn lengths_of_names_agree<Other: Implementation>() {
    let mut random = Random::from_seed(10);
    let mut pair = Pair::<Other>::fresh();
    for length in 1..=paper::NAME_BYTES {
        let name: String =
            (0..length).map(|_| char::from(*random.pick(&NAME_CHARACTERS[..2 * 26]))).collect();
        let draft = named_alike(&name);
        let book = Pair::<Other>::reduced(&draft).book();
        let turned = spelling::all_turned(&name);
        let mut assert_agree = |other: &str, are_one: bool| {
            assert_names_agree(&mut pair, [&name, other].map(str::to_string), are_one);
            for place in Place::ALL {
                let changed = with_name_at(&draft, &book, place, other.as_bytes());
                let found = checked::<Other>(&draft.bytes(), &changed);
                assert_eq!(found.err(), (!are_one).then_some(Refusal::BookForm), "{name} {other} {place:?}");
            }
        };
        assert_agree(&turned, true);
        for place in 0..length {
            let letter = if settled(&turned.as_bytes()[place..=place]) == b"q" { "Z" } else { "q" };
            assert_agree(&[&turned[..place], letter, &turned[place + 1..]].concat(), false);
        }
        assert_agree(&turned[1..], false);
        assert_agree(&format!("{turned}q"), false);
    }
}

/// One user who holds one permission, both of this name.
fn named_alike(name: &str) -> Draft {
    let mut draft = extremes::full(1, 1);
    draft.users[0] = name.to_string();
    draft.permissions[0] = name.to_string();
    draft
}

/// The book with another name at this place.
fn with_name_at(draft: &Draft, book: &[u8], place: Place, name: &[u8]) -> Vec<u8> {
    with_fields(draft, book, |found, field| if found == Some(place) { name } else { field }.to_vec())
}

/// Two users of these names, and two permissions, are refused exactly if the names are one.
fn assert_names_agree<Other: Implementation>(pair: &mut Pair<Other>, names: [String; 2], are_one: bool) {
    let mut users = extremes::full(2, 1);
    users.users = names.to_vec();
    let mut permissions = extremes::full(1, 2);
    permissions.permissions = names.to_vec();
    for draft in [users, permissions] {
        let have_length = names.iter().all(|name| (1..=paper::NAME_BYTES).contains(&name.len()));
        let expected = match (have_length, are_one) {
            (false, _) => Some(Refusal::NameLength),
            (true, true) => Some(Refusal::NameTwice),
            (true, false) => None,
        };
        assert_eq!(pair.load(&draft.bytes()).err(), expected, "{draft:?}");
    }
}

/// Whole sequences of calls, refused ones among them.
pub fn sequences_agree<Other: Implementation>(count: u64, length: usize, size: usize) {
    let mut seen = Tally::default();
    cases(count, |random| {
        let mut pair = Pair::<Other>::fresh();
        for call in sequence(random, length, size) {
            seen.note(pair.call(&call));
        }
    });
    let outcomes: [(&str, &[u32]); 6] = [
        ("load", &[0, 1, 2, 3, 5, 6, 7, 8]),
        ("reduce", &[0, 10]),
        ("search", &[0, 10, 16]),
        ("write", &[0, 10, 11, 16]),
        ("check", &[0, 12, 13, 14, 15]),
        ("newcomer", &[0, 2, 6, 11, 12, 17]),
    ];
    for (call, numbers) in outcomes {
        seen.expect(numbers.iter().map(|number| (call, *number)), 3);
    }
}

/// Role counts against the smallest number of roles, found from the two matrices alone.
pub fn roles_are_smallest<Other: Implementation>(count: u64) {
    let mut states = Tally::default();
    cases(count, |random| {
        let (users, permissions) = (random.between(3, 6), random.between(3, 6));
        let density = random.between(20, 90);
        let draft = families::random(random, users, permissions, density);
        let smallest = brute::smallest(&draft.held);
        let mut pair = Pair::<Other>::reduced(&draft);
        for budget in [0, random.below(50) as u32, SMALL_BUDGET] {
            let answer = pair.search(budget).expect("the sheet is reduced");
            assert!(answer.bound <= smallest && smallest <= answer.roles, "{smallest} {answer:?} {draft:?}");
            let is_settled = answer.state != State::Open;
            assert!(!is_settled || answer.roles == smallest, "{smallest} {answer:?} {draft:?}");
            states.note(answer.state.word());
        }
        pair.book();
    });
    states.expect(State::ALL.map(State::word), 5);
}

/// Sheets as large as there can be, reduced, searched and written, with their books checked, as written, with names in
/// other case and with one name misspelt.
pub fn large_sheets_agree<Other: Implementation>(drafts: &[Draft]) {
    let mut random = Random::from_seed(7);
    for draft in drafts {
        let mut pair = Pair::<Other>::loaded(draft);
        pair.assert_refused(Refusal::NotReduced, &[0, paper::BOOK_BYTES]);
        let counts = pair.reduce();
        pair.search(LARGE_BUDGET).expect("the sheet is reduced");
        assert_eq!(pair.reduce(), counts);
        let book = pair.book();
        let answer = checked::<Other>(&draft.bytes(), &book).expect("a written book is accepted");
        let spelled = spelling::book(&mut random, draft, &book);
        assert_eq!(checked::<Other>(&draft.bytes(), &spelled), Ok(answer));
        let (_, misspelt) = spelling::misspelt_book(&mut random, draft, &book);
        assert_eq!(checked::<Other>(&draft.bytes(), &misspelt), Err(Refusal::BookForm));
    }
}

/// Sheets at the limits.
pub fn extremes_agree<Other: Implementation>() {
    let mut random = Random::from_seed(5);
    let base = families::random(&mut random, 16, 16, 30);
    let wide = families::turned(&families::with_copied_users(&mut random, &base, 16));
    large_sheets_agree::<Other>(&[
        extremes::with_longest_names(&mut random),
        extremes::with_names_in_mixed_case(&mut random),
        extremes::full(32, 64),
        extremes::full(256, 8),
        extremes::with_grants(&mut random, 64, 64, paper::GRANTS),
        extremes::with_grants(&mut random, 256, 32, paper::GRANTS),
        families::crown(45),
        families::band(64, 5),
        families::band(64, 20),
        families::band(64, 32),
        families::staircase(63),
        families::star(256, 64),
        families::blocks(&[(4, 1); 64]),
        families::blocks(&[(32, 8); 8]),
        families::with_copied_users(&mut random, &wide, 60),
        Draft::plain(256, 64, |_, _| false),
    ]);
}

/// Sheets at the limits with more permissions than a word has bits: grants in the second word alone, and blocks that
/// meet where the second word begins or lie across that place.
pub fn wide_extremes_agree<Other: Implementation>() {
    let mut random = Random::from_seed(8);
    let half_full = extremes::with_grants(&mut random, 64, 64, paper::GRANTS);
    large_sheets_agree::<Other>(&[
        extremes::longest(&mut random),
        extremes::filled(&mut random, 251, 128, paper::SHEET_BYTES),
        extremes::filled(&mut random, 256, 125, paper::SHEET_BYTES),
        extremes::with_long_book(&mut random),
        extremes::with_longest_book(),
        extremes::with_grants(&mut random, 128, 128, paper::GRANTS),
        extremes::with_grants(&mut random, 20, 128, paper::GRANTS),
        extremes::full(16, 128),
        extremes::full(31, 65),
        families::behind(64, &half_full),
        families::behind(63, &families::crown(45)),
        families::behind(64, &families::crown(45)),
        families::behind(127, &extremes::full(240, 1)),
        families::blocks(&[(16, 64), (16, 64)]),
        families::blocks(&[(8, 63), (8, 2), (8, 63)]),
        families::blocks(&[(1, 1); 128]),
        families::blocks(&[(8, 16); 8]),
        families::paired(&mut random, 128),
        families::band(128, 2),
        families::band(128, 16),
        families::star(240, 128),
        Draft::plain(240, 128, |_, _| false),
    ]);
}

/// Random sheets between the small ones and the limits.
pub fn random_large_sheets_agree<Other: Implementation>(count: u64) {
    cases(count, |random| {
        let users = random.between(20, 100);
        let permissions = random.between(15, paper::PERMISSIONS);
        let grants = random.between(100, 900.min(users * permissions / 2));
        let draft = extremes::with_grants(random, users, permissions, grants).renamed(random);
        large_sheets_agree::<Other>(&[draft]);
    });
}

/// Each limit passes and is reduced, and one more is refused.
pub fn limits_agree<Other: Implementation>() {
    let mut random = Random::from_seed(6);
    let named = |bytes| extremes::with_name_bytes(extremes::full(2, 2), bytes).bytes();
    let sized = |users, permissions| Draft::plain(users, permissions, |_, _| false).bytes();
    let mut granted = |count| extremes::with_grants(&mut random, 256, 64, count).bytes();
    let filled = |users, permissions, bytes| {
        extremes::filled(&mut Random::from_seed(9), users, permissions, bytes).bytes()
    };
    let outcomes = [
        (named(paper::NAME_BYTES), None),
        (named(paper::NAME_BYTES + 1), Some(Refusal::NameLength)),
        (sized(paper::USERS, 64), None),
        (sized(paper::USERS, 65), None),
        (sized(200, paper::PERMISSIONS), None),
        (sized(200, paper::PERMISSIONS + 1), Some(Refusal::FirstLine)),
        (sized(paper::USERS + 1, 100), Some(Refusal::UserLines)),
        (sized(paper::USERS, paper::PERMISSIONS), Some(Refusal::SheetLength)),
        (filled(240, 128, paper::SHEET_BYTES), None),
        (filled(240, 128, paper::SHEET_BYTES + 1), Some(Refusal::SheetLength)),
        (filled(251, 128, paper::SHEET_BYTES), None),
        (filled(251, 128, paper::SHEET_BYTES + 1), Some(Refusal::SheetLength)),
        (filled(256, 125, paper::SHEET_BYTES), None),
        (filled(256, 125, paper::SHEET_BYTES + 1), Some(Refusal::SheetLength)),
        (granted(paper::GRANTS), None),
        (granted(paper::GRANTS + 1), Some(Refusal::GrantCount)),
        (extremes::of_bytes(paper::SHEET_BYTES), Some(Refusal::NameLength)),
        (extremes::of_bytes(paper::SHEET_BYTES + 1), Some(Refusal::SheetLength)),
        (Vec::new(), Some(Refusal::SheetBytes)),
    ];
    for (sheet, expected) in outcomes {
        let mut pair = Pair::<Other>::fresh();
        assert_eq!(pair.load(&sheet).err(), expected);
        assert_eq!(pair.reduce().err(), expected.map(|_| Refusal::NoSheet));
    }
}

/// Books of as many role lines and bytes as are read, and of one more.
pub fn book_limits_agree<Other: Implementation>() {
    let draft = families::crown(4);
    let book = Pair::<Other>::reduced(&draft).book();
    let number = |book: &BookDraft| {
        checked::<Other>(&draft.bytes(), book.text(&draft).as_bytes()).err().map_or(0, Refusal::number)
    };
    for (roles, expected) in [(64, 0), (65, 0), (paper::ROLES, 0), (paper::ROLES + 1, 12)] {
        let mut book = BookDraft::made_out(&draft, &String::from_utf8_lossy(&book));
        book.roles.resize_with(roles, Default::default);
        book.role_count = roles.to_string();
        assert_eq!(number(&book), expected, "{roles} role lines");
    }
    for (bytes, expected) in
        [(65_536, 13), (65_537, 13), (paper::BOOK_BYTES, 13), (paper::BOOK_BYTES + 1, 12)]
    {
        let mut book = BookDraft::made_out(&draft, &String::from_utf8_lossy(&book));
        let rest = book.text(&draft).len() - book.bound.len();
        book.bound = "7".repeat(bytes - rest);
        assert_eq!(number(&book), expected, "{bytes} bytes");
    }
}

/// Kernels of 127 and 128 grants are searched, one of 129 is not, wherever their permissions stand and however often
/// they are reduced.
pub fn kernels_agree<Other: Implementation>(count: u64) {
    cases(count, |random| {
        for size in [127, paper::SEARCHED_KERNEL, 129] {
            let draft = unfinished_kernel::<Other>(random, size);
            kernel_agrees::<Other>(&draft, size);
            kernel_agrees::<Other>(&families::behind(55, &draft), size);
        }
    });
}

fn kernel_agrees<Other: Implementation>(draft: &Draft, size: usize) {
    let mut pair = Pair::<Other>::loaded(draft);
    pair.assert_refused(Refusal::NotReduced, &[0, paper::BOOK_BYTES]);
    let searched = [10_000, 20_000].map(|budget| {
        assert_eq!(pair.reduce().map(|counts| counts.kernel), Ok(size));
        counts(&pair.search(budget).expect("the sheet is reduced"))
    });
    let prepared = Prepared::of(draft);
    let whole = prepared.search(30_000);
    assert_eq!(searched, [whole.counts(0..10_000), whole.counts(10_000..30_000)], "{draft:?}");
    assert_eq!(searched[0] != NO_STEPS, size <= paper::SEARCHED_KERNEL);
    let book = pair.book();
    checked::<Other>(&draft.bytes(), &book).expect("a written book is accepted");
}

/// A sheet with a kernel of this size that the first cover does not finish.
fn unfinished_kernel<Other: Implementation>(random: &mut Random, size: usize) -> Draft {
    random.until_found(|random| {
        let draft = with_kernel(random, size);
        let mut pair = Pair::<Other>::reduced(&draft);
        let state = pair.search(0).expect("the sheet is reduced").state;
        (state == State::Open).then_some(draft)
    })
}
