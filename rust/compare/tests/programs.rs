//! The proved programs held to those of the second implementation.

use std::path::{Path, PathBuf};

use baseline::session::Session as FastSession;
use compare::programs::{NEWCOMER, both, printed};
use programs::{book_output, check_output, newcomer_output, search_output};
use second::implementation::Implementation;
use second::roles::State;
use second::script::{Call, answer_line};
use second::session::{SearchAnswer, Session};
use trials::book_draft::Printed;
use trials::calls::{script, sequence};
use trials::cases::cases;
use trials::damage;
use trials::draft::{Draft, user_line};
use trials::extremes;
use trials::families;
use trials::kernels::with_kernel;
use trials::newcomers::{self, Admission, Lent, ORDER};
use trials::one_change::{self, OneChange, judged_move};
use trials::paper;
use trials::random::Random;
use trials::rounds::lines_without_rates;
use trials::searches;
use trials::sessions::first_book;
use trials::spelling;
use trials::tally::Tally;

fn expected_book(sheet: &[u8], budget: u32) -> String {
    String::from_utf8(book_output(sheet, budget)).expect("a book is plain text")
}

/// A folder of this test's own.
fn folder(name: &str) -> PathBuf {
    let folder = PathBuf::from(env!("CARGO_TARGET_TMPDIR")).join(name);
    std::fs::create_dir_all(&folder).expect("the folder can be made");
    folder
}

#[test]
fn book_program_prints_the_same_books_and_refusals() {
    cases(60, |random| {
        let sheet = families::any(random, 12).bytes();
        let budget = random.below(1_000) as u32;
        let arguments = [budget.to_string()];
        assert_eq!(printed("rolebook", &[&arguments[0]], &sheet), expected_book(&sheet, budget));
        let damaged = damage::bytes(random, &sheet);
        assert_eq!(printed("rolebook", &[], &damaged), expected_book(&damaged, 0));
    });
}

/// Names in other case, two names that are one, and the first field in other case.
#[test]
fn book_program_prints_the_same_for_other_spellings() {
    cases(30, |random| {
        let draft = families::any(random, 8);
        let sheets = [
            spelling::sheet(random, &draft).bytes(),
            spelling::with_clash(random, &draft).bytes(),
            spelling::with_first_field_in_other_case(random, &draft),
            spelling::with_foreign_letter(random, &draft),
        ];
        let texts = sheets.map(|sheet| {
            let text = printed("rolebook", &[], &sheet);
            assert_eq!(text, expected_book(&sheet, 0));
            text
        });
        assert!(texts[0].starts_with("roles,bound,state\n"), "{}", texts[0]);
        assert_eq!(texts[1..], ["8\n", "3\n", "2\n"]);
    });
}

#[test]
fn book_program_takes_the_largest_sheets() {
    let mut random = Random::from_seed(7);
    let sheets = [
        extremes::longest(&mut random).bytes(),
        extremes::with_longest_names(&mut random).bytes(),
        extremes::with_names_in_mixed_case(&mut random).bytes(),
        extremes::full(32, 64).bytes(),
        extremes::full(16, 128).bytes(),
        families::crown(45).bytes(),
        families::behind(64, &families::crown(45)).bytes(),
        families::blocks(&[(16, 64), (16, 64)]).bytes(),
        families::paired(&mut random, 110).bytes(),
        Draft::plain(256, 64, |_, _| false).bytes(),
        Draft::plain(240, 128, |_, _| false).bytes(),
        extremes::filled(&mut random, 251, 128, paper::SHEET_BYTES).bytes(),
        extremes::filled(&mut random, 251, 128, paper::SHEET_BYTES + 1).bytes(),
        [extremes::filled(&mut random, 251, 128, paper::SHEET_BYTES).bytes(), b"a\n".to_vec()].concat(),
        extremes::full(1, paper::PERMISSIONS).bytes(),
        extremes::full(1, paper::PERMISSIONS + 1).bytes(),
        extremes::of_bytes(paper::SHEET_BYTES),
        extremes::of_bytes(paper::SHEET_BYTES + 1),
        extremes::of_bytes(10 * paper::SHEET_BYTES),
        Vec::new(),
    ];
    for sheet in sheets {
        assert_eq!(printed("rolebook", &[], &sheet), expected_book(&sheet, 0));
    }
}

/// Its buffer has 65,536 bytes.
#[test]
fn book_program_prints_11_for_a_book_longer_than_its_buffer() {
    let sheets = [
        (extremes::with_book_bytes(paper::PROGRAM_BUFFER_BYTES), false),
        (extremes::with_book_bytes(paper::PROGRAM_BUFFER_BYTES + 1), true),
        (extremes::with_long_book(&mut Random::from_seed(1)), true),
        (extremes::with_longest_book(), true),
    ];
    for (draft, is_refused) in sheets {
        let sheet = draft.bytes();
        let text = printed("rolebook", &["0"], &sheet);
        assert_eq!(text, expected_book(&sheet, 0));
        assert_eq!(text == "11\n", is_refused);
    }
}

/// The four-user sheet is closed with step 125.
#[test]
fn book_program_reads_its_budget() {
    let sheet = families::crown(4).bytes();
    let searched = expected_book(&sheet, 125);
    let open = expected_book(&sheet, 0);
    assert_ne!(searched, open);
    for argument in ["125", "00125", "000000000000000000125", "126", "4294967295"] {
        assert_eq!(printed("rolebook", &[argument], &sheet), searched, "{argument}");
    }
    for argument in ["", "0", "124", "+125", "-125", " 125", "125 ", "125.0", "0x125", "1e3", "4294967296"] {
        assert_eq!(printed("rolebook", &[argument], &sheet), open, "{argument}");
    }
    assert_eq!(printed("rolebook", &["99999999999999999999"], &sheet), open);
    assert_eq!(printed("rolebook", &["0", "125"], &sheet), open);
    assert_eq!(printed("rolebook", &["125", "0"], &sheet), searched);
}

#[test]
fn check_program_prints_the_same_judgements() {
    let folder = folder("checked");
    let (sheet_path, book_path) = (folder.join("sheet"), folder.join("book"));
    let paths = [&sheet_path, &book_path].map(|path| path.to_str().expect("the path is plain text"));
    cases(60, |random| {
        let draft = families::any(random, 10);
        let sheet = draft.bytes();
        let book = book_output(&sheet, 0);
        let damaged_sheet = damage::bytes(random, &sheet);
        let damaged_book = damage::book(random, &draft, &book);
        for (sheet, book) in [(&sheet, &book), (&sheet, &damaged_book), (&damaged_sheet, &book)] {
            std::fs::write(&sheet_path, sheet).expect("the sheet can be written");
            std::fs::write(&book_path, book).expect("the book can be written");
            let found = printed("rolecheck", &paths, b"");
            assert_eq!(found.as_bytes(), check_output(sheet, book), "{}", String::from_utf8_lossy(book));
        }
    });
}

/// Names in other case, a name misspelt, a word in other case, and a witness grant named twice.
#[test]
fn check_program_prints_the_same_for_other_spellings() {
    let folder = folder("spelled");
    let (sheet_path, book_path) = (folder.join("sheet"), folder.join("book"));
    let paths = [&sheet_path, &book_path].map(|path| path.to_str().expect("the path is plain text"));
    cases(30, |random| {
        let draft = families::any(random, 8);
        let sheet = draft.bytes();
        let book = book_output(&sheet, 0);
        std::fs::write(&sheet_path, &sheet).expect("the sheet can be written");
        let judged = |book: &[u8]| {
            std::fs::write(&book_path, book).expect("the book can be written");
            let found = printed("rolecheck", &paths, b"");
            assert_eq!(found.as_bytes(), check_output(&sheet, book), "{}", String::from_utf8_lossy(book));
            found
        };
        assert_eq!(judged(&spelling::book(random, &draft, &book)), judged(&book));
        assert_eq!(judged(&spelling::misspelt_book(random, &draft, &book).1), "12\n");
        assert_eq!(judged(&spelling::with_word_in_other_case(random, &draft, &book)), "12\n");
        if let Some(doubled) = spelling::with_witness_twice(random, &draft, &book) {
            assert_eq!(judged(&doubled), "15\n");
        }
    });
}

#[test]
fn check_program_refuses_books_that_are_too_long() {
    let folder = folder("long");
    let (sheet_path, book_path) = (folder.join("sheet"), folder.join("book"));
    let paths = [&sheet_path, &book_path].map(|path| path.to_str().expect("the path is plain text"));
    let sheet = families::crown(4).bytes();
    let counted = |digits: usize| {
        let text = expected_book(&sheet, 125);
        text.replacen("\n4,4,", &format!("\n{},4,", "9".repeat(digits)), 1).into_bytes()
    };
    let rest = counted(0).len();
    std::fs::write(&sheet_path, &sheet).expect("the sheet can be written");
    for (bytes, expected) in [(paper::BOOK_BYTES, "13\n"), (paper::BOOK_BYTES + 1, "12\n")] {
        let book = counted(bytes - rest);
        assert_eq!(book.len(), bytes);
        std::fs::write(&book_path, &book).expect("the book can be written");
        assert_eq!(check_output(&sheet, &book), expected.as_bytes());
        assert_eq!(printed("rolecheck", &paths, b""), expected);
    }
}

/// Files with the sheet, the book and the line, in this folder.
fn files_of(folder: &Path, admission: &Admission) -> [String; 3] {
    let parts = [("sheet", &admission.sheet), ("book", &admission.book), ("line", &admission.line)];
    parts.map(|(part, bytes)| {
        let path = folder.join(part);
        std::fs::write(&path, bytes).expect("the file can be written");
        path.to_str().expect("the path is plain text").to_string()
    })
}

/// The join program prints what the second one does. Gives it.
fn assert_joined(folder: &Path, admission: &Admission) -> String {
    let paths = files_of(folder, admission);
    let found = printed(NEWCOMER, &paths.each_ref().map(String::as_str), b"");
    let expected = newcomer_output(&admission.sheet, &admission.book, &admission.line);
    assert!(found.as_bytes() == expected, "{}\n{found}", String::from_utf8_lossy(&admission.line));
    found
}

#[test]
fn join_program_prints_the_same_books_and_refusals() {
    let folder = folder("joined");
    cases(60, |random| {
        let wide = random.percent(20);
        let draft = if wide { families::any_wide(random, 8) } else { families::any(random, 10) };
        assert_joined(&folder, &newcomers::any(random, &draft));
        assert_joined(&folder, &newcomers::damaged(random, &draft));
    });
}

/// Its buffer has room for every book, so that no newcomer is refused by 11.
#[test]
fn join_program_prints_each_refusal() {
    let folder = folder("join-refused");
    for (place, number) in ORDER.into_iter().enumerate() {
        let found = assert_joined(&folder, &newcomers::refused_from(place).admission);
        assert_eq!(found == format!("{number}\n"), number != 11, "{place}");
    }
}

#[test]
fn join_program_takes_the_longest_sheets_books_and_lines() {
    let folder = folder("join-long");
    let draft = extremes::with_longest_book();
    let book = first_book(&draft.bytes());
    let text = String::from_utf8_lossy(&book);
    let admission = |book: Vec<u8>, line: Vec<u8>| Admission { sheet: draft.bytes(), book, line };
    let mut shorter = draft.clone();
    let (name, row) = (shorter.users.pop(), shorter.held.pop());
    let line = user_line(&name.expect("there is a user"), &row.expect("there is a user")).into_bytes();
    let fits = Admission { sheet: shorter.bytes(), book: first_book(&shorter.bytes()), line: line.clone() };
    assert_eq!(fits.longer_sheet().len(), paper::SHEET_BYTES);
    assert!(assert_joined(&folder, &fits).len() > 100_000);
    for bytes in [paper::BOOK_BYTES, paper::BOOK_BYTES + 1, 1 << 20] {
        assert_joined(
            &folder,
            &Admission { book: book_of_bytes(&text, bytes), ..admission(book.clone(), line.clone()) },
        );
    }
    for bytes in [0, 1, paper::SHEET_BYTES, 1 << 20, (1 << 20) + 1, 1 << 21] {
        let line = vec![b'n'; bytes];
        let expected = if bytes == 0 { "2\n" } else { "1\n" };
        assert_eq!(assert_joined(&folder, &admission(book.clone(), line)), expected);
    }
    for bytes in [paper::SHEET_BYTES + 1, 1 << 20] {
        let sheet = extremes::of_bytes(bytes);
        assert_eq!(
            assert_joined(&folder, &Admission { sheet, ..admission(book.clone(), line.clone()) }),
            "1\n"
        );
    }
}

/// With other arguments than three files that can be read, the check program and the newcomer program print nothing.
#[test]
fn check_and_join_programs_need_their_files() {
    let admission = newcomers::refused_from(ORDER.len()).admission;
    let [sheet, book, line] = files_of(&folder("join-files"), &admission);
    let (sheet, book, line, missing) = (sheet.as_str(), book.as_str(), line.as_str(), "no-such-file");
    let calls: [(&str, &[&str]); 12] = [
        ("rolecheck", &[]),
        ("rolecheck", &[sheet]),
        ("rolecheck", &[sheet, missing]),
        ("rolecheck", &[missing, book]),
        ("rolecheck", &[sheet, book, line]),
        (NEWCOMER, &[]),
        (NEWCOMER, &[sheet]),
        (NEWCOMER, &[sheet, book]),
        (NEWCOMER, &[sheet, book, missing]),
        (NEWCOMER, &[sheet, missing, line]),
        (NEWCOMER, &[missing, book, line]),
        (NEWCOMER, &[sheet, book, line, line]),
    ];
    for (program, arguments) in calls {
        let (said, printed) = both(program, arguments, b"");
        assert!(printed.is_empty() && !said.is_empty(), "{program} {arguments:?}: {printed} {said}");
    }
}

/// The longest book, with a bound of so many digits that the book has this many bytes.
fn book_of_bytes(book: &str, bytes: usize) -> Vec<u8> {
    let bound = |digits: usize| book.replacen("\n128,128,", &format!("\n128,{},", "7".repeat(digits)), 1);
    bound(bytes - bound(0).len()).into_bytes()
}

/// The check program and the play program read one byte more of a sheet and of a book than there may be: what is at
/// the limit is judged by its other rules, and what is longer is too long.
#[test]
fn longest_sheets_and_books_are_judged_alike() {
    let folder = folder("longest");
    let (sheet_path, book_path) = (folder.join("sheet"), folder.join("book"));
    let paths = [&sheet_path, &book_path].map(|path| path.to_str().expect("the path is plain text"));
    let draft = extremes::with_longest_book();
    let book = first_book(&draft.bytes());
    let text = String::from_utf8_lossy(&book);
    let books = [
        book.clone(),
        book_of_bytes(&text, paper::BOOK_BYTES),
        book_of_bytes(&text, paper::BOOK_BYTES + 1),
        book_of_bytes(&text, 1 << 20),
    ];
    let filled = |bytes| extremes::filled(&mut Random::from_seed(7), 251, 128, bytes).bytes();
    let sheets = [
        draft.bytes(),
        filled(paper::SHEET_BYTES),
        filled(paper::SHEET_BYTES + 1),
        extremes::of_bytes(1 << 20),
    ];
    for sheet in &sheets {
        let writing = Call::Write(paper::BOOK_BYTES);
        let mut calls = vec![Call::Load(sheet.clone()), writing.clone(), Call::Reduce, writing];
        for book in &books {
            std::fs::write(&sheet_path, sheet).expect("the sheet can be written");
            std::fs::write(&book_path, book).expect("the book can be written");
            assert_eq!(printed("rolecheck", &paths, b"").as_bytes(), check_output(sheet, book));
            calls.push(Call::Check { sheet: sheet.clone(), book: book.clone() });
        }
        assert_played(&calls, &folder);
    }
    assert_eq!(check_output(&sheets[0], &books[0]), b"128,128\n");
    assert_eq!(check_output(&sheets[0], &books[1]), b"13\n");
    assert_eq!(check_output(&sheets[0], &books[2]), b"12\n");
    assert_eq!(check_output(&sheets[2], &books[0]), b"1\n");
}

/// The lines that the second implementation gives.
fn expected_lines(calls: &[Call]) -> String {
    let mut session = Session::fresh();
    calls.iter().map(|call| answer_line(&mut session, call) + "\n").collect()
}

/// The play program gives the lines that the second implementation gives.
fn assert_played(calls: &[Call], folder: &Path) {
    let script = script(calls, folder).expect("the files can be written");
    assert_eq!(printed("play", &[], script.as_bytes()), expected_lines(calls));
}

#[test]
fn play_program_answers_whole_sequences() {
    let folder = folder("played");
    cases(40, |random| assert_played(&sequence(random, 40, 8), &folder));
}

/// Loads, refused ones among them, with none, one or more reductions behind each, and searches and writings before and
/// after them.
#[test]
fn play_program_reduces_when_it_is_told_to() {
    let folder = folder("reduced");
    let (four, stairs) = (families::crown(4).bytes(), families::staircase(3).bytes());
    let refused = b"user,p\nu,2\n".to_vec();
    let book = first_book(&four).len();
    let tried = || {
        let lengths = [0, book - 1, book, book + 1];
        [0, 60, u32::MAX].map(Call::Search).into_iter().chain(lengths.map(Call::Write))
    };
    let mut calls = vec![Call::Reduce];
    for sheet in [&refused, &four, &refused, &four, &stairs, &stairs, &refused] {
        for reductions in [0, 1, 2] {
            calls.extend(tried());
            calls.push(Call::Load(sheet.clone()));
            calls.extend(tried().take(2));
            calls.extend(vec![Call::Reduce; reductions]);
            calls.extend(tried().take(2));
            calls.extend(vec![Call::Reduce; reductions]);
        }
    }
    let expected = expected_lines(&calls);
    for number in ["search 10 ", "search 16 ", "write 10 ", "write 11 ", "write 16 ", "reduce 10 "] {
        assert!(expected.contains(number), "{number}");
    }
    assert_played(&calls, &folder);
}

/// Lines that are no call, most of them nearly a reduction.
const NO_CALLS: [&str; 12] = [
    "reduce now",
    "reduce ",
    " reduce",
    "reduce 0",
    "reduce\t",
    "reduce\r",
    "Reduce",
    "REDUCE",
    "reduc",
    "reduced",
    "reducereduce",
    "",
];

/// A line that is no call is answered by a question mark and changes nothing.
#[test]
fn play_program_passes_over_lines_that_are_no_call() {
    let folder = folder("no-calls");
    cases(20, |random| {
        let calls = sequence(random, 40, 8);
        let plain = script(&calls, &folder).expect("the files can be written");
        let (mut mixed, mut expected) = (String::new(), String::new());
        for (line, answer) in plain.lines().zip(expected_lines(&calls).lines()) {
            if random.percent(40) {
                mixed += &format!("{}\n", random.pick(&NO_CALLS));
                expected += "?\n";
            }
            mixed += &format!("{line}\n");
            expected += &format!("{answer}\n");
        }
        assert_eq!(printed("play", &[], mixed.as_bytes()), expected, "{mixed}");
    });
}

/// Newcomers with buffers as long as the book, one byte shorter, of no byte and as long as there can be, and lines of
/// more bytes than there can be.
#[test]
fn play_program_puts_newcomers_in_books() {
    let folder = folder("newcomers");
    let call = |admission: &Admission, length: usize| {
        let Admission { sheet, book, line } = admission.clone();
        Call::Newcomer { sheet, book, line, length }
    };
    cases(20, |random| {
        let draft = families::any(random, 8);
        let admission = newcomers::any(random, &draft);
        let count = admission.result().map_or(0, |book| book.len());
        let lengths = [0, count.saturating_sub(1), count, count + 1, LONGEST_BUFFER];
        let mut calls: Vec<Call> = lengths.map(|length| call(&admission, length)).into();
        calls.push(call(&newcomers::damaged(random, &draft), count + 100));
        assert_played(&calls, &folder);
    });
    let refused = (0..=ORDER.len()).map(newcomers::refused_from);
    let mut calls: Vec<Call> = refused.map(|Lent { admission, length }| call(&admission, length)).collect();
    let admission = newcomers::refused_from(ORDER.len()).admission;
    for bytes in [paper::SHEET_BYTES, (1 << 20) - 1, 1 << 20, (1 << 20) + 1] {
        let line = [vec![b'n'; bytes - 1], b"\n".to_vec()].concat();
        calls.push(call(&Admission { line, ..admission.clone() }, 100));
    }
    assert_played(&calls, &folder);
}

/// Bytes of the longest buffer that the play program lends.
const LONGEST_BUFFER: usize = 262_144;

/// Lines with files that can be read, but too few or too many words, or a length that is none.
#[test]
fn play_program_passes_over_lines_that_are_nearly_a_newcomer() {
    let admission = newcomers::refused_from(ORDER.len()).admission;
    let [sheet, book, line] = files_of(&folder("nearly"), &admission);
    let files = format!("{sheet} {book} {line}");
    let no_calls = [
        "newcomer".to_string(),
        "newcomer ".to_string(),
        format!("newcomer {sheet}"),
        format!("newcomer {sheet} {book}"),
        format!("newcomer {files}"),
        format!("newcomer {files} "),
        format!("newcomer {files} -1"),
        format!("newcomer {files} +1"),
        format!("newcomer {files} x"),
        format!("newcomer {files} 262145"),
        format!("newcomer {files} 4294967296"),
        format!("newcomer {files} 10 "),
        format!("newcomer {files} 10 10"),
        format!("newcomer {files} {line} 10"),
        format!("newcomer  {files} 10"),
        format!("newcomer {sheet}  {book} {line} 10"),
        format!("newcomer {sheet} {book} no-such-file 10"),
        format!("newcomer {sheet} no-such-file {line} 10"),
        format!("newcomer no-such-file {book} {line} 10"),
        format!("Newcomer {files} 10"),
        format!("newcomers {files} 10"),
        format!(" newcomer {files} 10"),
    ];
    let Admission { sheet, book, line } = admission;
    let answer = answer_line(&mut Session::fresh(), &Call::Newcomer { sheet, book, line, length: 10 });
    assert!(answer.starts_with("newcomer 11 0 "), "{answer}");
    for no_call in no_calls {
        let script = format!("{no_call}\nnewcomer {files} 10\n");
        assert_eq!(printed("play", &[], script.as_bytes()), format!("?\n{answer}\n"), "{no_call}");
    }
}

/// What the search program says of its rounds, without their rates, and what it prints.
fn searched(arguments: &[&str], sheet: &[u8]) -> (Vec<String>, String) {
    let (said, printed) = both("rolesearch", arguments, sheet);
    (lines_without_rates(&said), printed)
}

/// What the second search program says and prints, with the sessions of this implementation.
fn expected_search<Kind: Implementation>(sheet: &[u8], rounds: u32) -> (Vec<String>, String) {
    let mut said = String::new();
    let output = search_output::<Kind>(sheet, rounds, |line| said += &(line + "\n"));
    (lines_without_rates(&said), String::from_utf8(output).expect("a book is plain text"))
}

/// The search program says and prints what the second one does, and says so many lines.
fn assert_searched(sheet: &[u8], rounds: u32, lines: usize) {
    let found = searched(&[&rounds.to_string()], sheet);
    assert_eq!(found, expected_search::<Session>(sheet, rounds));
    assert_eq!(found.0.len(), lines, "{}", String::from_utf8_lossy(sheet));
}

/// The search of every sheet here is known, and ends in the first round.
#[test]
fn search_program_searches_known_sheets_to_the_end() {
    let mut drafts = vec![Draft::plain(1, 1, |_, _| false), extremes::full(2, 3), families::staircase(4)];
    let closed = |(draft, answer): (Draft, SearchAnswer)| (answer.state != State::Open).then_some(draft);
    drafts.extend(searches::worked_out().into_iter().filter_map(closed));
    for sheet in drafts.iter().map(Draft::bytes) {
        let expected = expected_search::<Session>(&sheet, 1);
        for arguments in [&[][..], &["1"], &["2"], &["4294967295"], &["x"]] {
            assert_eq!(searched(arguments, &sheet), expected, "{arguments:?}");
        }
    }
    let (lines, _) = searched(&[], &families::crown(4).bytes());
    assert_eq!(lines, ["125 steps so far, depth gained 0, 4 roles, bound 4, searched"]);
    let (lines, _) = searched(&[], &searches::improved().bytes());
    assert_eq!(lines, ["45 steps so far, depth gained 0, 5 roles, bound 5, searched"]);
}

/// Small sheets, of which the search ends in the first round, with names of any kind, and damaged ones.
#[test]
fn search_program_says_and_prints_the_same() {
    cases(40, |random| {
        for draft in [searches::unfinished(random), families::any(random, 6), families::any_wide(random, 6)] {
            let sheet = draft.renamed(random).bytes();
            assert_searched(&sheet, 2, 1);
            let damaged = damage::bytes(random, &sheet);
            assert_eq!(searched(&["2"], &damaged), expected_search::<Session>(&damaged, 2));
        }
    });
}

#[test]
fn search_program_prints_the_same_refusals_and_says_nothing() {
    let mut random = Random::from_seed(7);
    for sheet in [
        Vec::new(),
        b"user,p\nu,2\n".to_vec(),
        b"user,p,P\nu,1,0\n".to_vec(),
        extremes::full(1, paper::PERMISSIONS + 1).bytes(),
        extremes::full(paper::USERS + 1, 1).bytes(),
        extremes::with_grants(&mut random, paper::USERS, 64, paper::GRANTS + 1).bytes(),
        extremes::filled(&mut random, 251, 128, paper::SHEET_BYTES + 1).bytes(),
        extremes::of_bytes(paper::SHEET_BYTES),
        extremes::of_bytes(paper::SHEET_BYTES + 1),
        extremes::of_bytes(10 * paper::SHEET_BYTES),
    ] {
        assert_searched(&sheet, 3, 0);
        assert_eq!(searched(&[], &sheet), expected_search::<Session>(&sheet, 1));
    }
}

/// No search makes a step there, so every round is made and says so.
#[test]
fn search_program_makes_every_round_with_a_kernel_above_128() {
    let mut random = Random::from_seed(1);
    let open = |draft: Draft| searches::is_open(&draft).then_some(draft);
    let draft = random.until_found(|random| open(with_kernel(random, 129)));
    for draft in [&draft, &families::behind(55, &draft), &families::crown(12), &families::crown(45)] {
        assert_searched(&draft.bytes(), 3, 3);
    }
}

/// 3,600 rounds where the argument is no number of the range. The kernel has 132 grants, so every round is made.
#[test]
fn search_program_reads_its_rounds() {
    let sheet = families::crown(12).bytes();
    for (rounds, arguments) in
        [(1, &["1", "01"][..]), (3, &["3", "003", "000000000000000000003"]), (3_601, &["3601"])]
    {
        let expected = expected_search::<Session>(&sheet, rounds);
        for argument in arguments {
            assert!(searched(&[argument], &sheet) == expected, "{argument}");
        }
    }
    let expected = expected_search::<Session>(&sheet, 3_600);
    assert_eq!(expected.0.len(), 3_600);
    assert!(searched(&[], &sheet) == expected);
    for argument in ["", "0", "000", "x", "+3", "-3", " 3", "3 ", "3.0", "0x3", "4294967296"] {
        assert!(searched(&[argument], &sheet) == expected, "{argument}");
    }
    assert!(searched(&["99999999999999999999"], &sheet) == expected);
}

/// Its buffer has room for books that are longer than the book program's.
#[test]
fn search_program_prints_long_books() {
    for (draft, bytes) in [
        (extremes::with_book_bytes(paper::PROGRAM_BUFFER_BYTES), 65_536),
        (extremes::with_book_bytes(paper::PROGRAM_BUFFER_BYTES + 1), 65_537),
        (extremes::with_longest_book(), 103_780),
    ] {
        let found = searched(&["2"], &draft.bytes());
        assert_eq!((found.0.len(), found.1.len()), (1, bytes));
        assert!(found == expected_search::<Session>(&draft.bytes(), 2));
    }
    let sheet = extremes::with_long_book(&mut Random::from_seed(1)).bytes();
    assert!(searched(&["2"], &sheet) == expected_search::<Session>(&sheet, 2));
}

/// Two rounds of a search in which the baseline is fast enough, the second of which falls below its start.
fn assert_two_rounds(draft: &Draft, rounds: u32, second: &str) {
    let found = searched(&[&rounds.to_string()], &draft.bytes());
    assert_eq!(found, expected_search::<FastSession>(&draft.bytes(), rounds));
    assert_eq!((found.0.len(), found.0[1].as_str()), (2, second));
}

#[test]
fn search_program_goes_on_where_the_round_before_ended() {
    let second = "200000000 steps so far, depth gained -8, 6 roles, bound 3, open";
    assert_two_rounds(&families::crown(8), 2, second);
}

#[test]
fn search_program_stops_with_the_round_that_closes() {
    let second = "102899783 steps so far, depth gained -22, 5 roles, bound 5, searched";
    assert_two_rounds(&searches::long(), 3_600, second);
}

/// What the book program and the search program print of this sheet, searched to the end, which must be the same.
fn closed(draft: &Draft) -> Printed {
    let sheet = draft.bytes();
    let book = printed("rolebook", &[&u32::MAX.to_string()], &sheet);
    assert_eq!(book, expected_book(&sheet, u32::MAX));
    assert_eq!(searched(&["1"], &sheet).1, book);
    Printed::of(book.as_bytes())
}

/// What the play program prints of these sheets, loaded and searched to the end one behind the other.
fn played(sheets: [&Draft; 2], folder: &Path) -> [Printed; 2] {
    let calls = sheets.map(|draft| {
        let sheet = draft.bytes();
        let length = expected_book(&sheet, u32::MAX).len();
        [Call::Load(sheet), Call::Reduce, Call::Search(u32::MAX), Call::Write(length)]
    });
    let script = script(calls.as_flattened(), folder).expect("the files can be written");
    let lines = printed("play", &[], script.as_bytes());
    assert_eq!(lines, expected_lines(calls.as_flattened()));
    let lines: Vec<&str> = lines.lines().filter(|line| line.starts_with("search 0 ")).collect();
    // Behind the call's name, the number and the four counts of steps.
    [lines[0], lines[1]].map(|line| Printed::in_fields(line.split(' ').skip(6)))
}

/// What all three programs print of these two sheets.
fn printed_of_both(change: &OneChange, folder: &Path) -> [Printed; 2] {
    let found = change.sheets().map(closed);
    assert_eq!(played(change.sheets(), folder), found, "{change:?}");
    found
}

/// Small sheets with one line or one column changed: the programs print the smallest numbers, at most 1 apart.
#[test]
fn programs_print_counts_at_most_1_apart() {
    let folder = folder("one-change");
    let (mut moves, mut words) = (Tally::default(), Tally::default());
    cases(100, |random| {
        let change = one_change::any_small(random);
        let printed = printed_of_both(&change, &folder);
        moves.note((change.changed.is_line(), judged_move(&change, printed)));
        for printed in printed {
            words.note(printed.state.word());
        }
    });
    for is_line in [true, false] {
        moves.expect([-1, 0, 1].map(|by| (is_line, by)), 1);
    }
    words.expect([State::Witnessed, State::Searched].map(State::word), 5);
}

#[test]
fn programs_print_the_counts_that_are_known() {
    let folder = folder("known-changes");
    for (change, expected) in one_change::worked_out() {
        assert_eq!(printed_of_both(&change, &folder), expected, "{change:?}");
    }
}
