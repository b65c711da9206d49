//! The book program, the check program, the newcomer program and the play program as they are called.

use std::path::{Path, PathBuf};
use std::process::Output;

use second::script::answer_line;
use second::session::Session;
use trials::calls::{script, sequence};
use trials::cases::cases;
use trials::draft::Draft;
use trials::extremes;
use trials::paper::EXAMPLE;
use trials::process;
use trials::random::Random;

const EXAMPLE_BOOK: &str = "roles,bound,state\n2,2,witnessed\n\nrole,rec,id,map\nR1,1,1,0\nR2,0,1,1\n\n\
    user,R1,R2\nann,1,0\nbo,0,1\ncy,1,1\n\nuser,permission\nann,rec\nbo,map\n";

/// Four users each lacking only their own permission; closed with step 125.
const FOUR_USERS: &str = "user,a,b,c,d\ns,0,1,1,1\nt,1,0,1,1\nu,1,1,0,1\nv,1,1,1,0\n";

fn run(program: &str, arguments: &[&str], input: &[u8]) -> Output {
    process::run(Path::new(program), arguments, input)
}

fn printed(output: Output) -> String {
    assert!(output.status.success(), "{output:?}");
    String::from_utf8(output.stdout).expect("the output is plain text")
}

fn book(arguments: &[&str], sheet: &str) -> String {
    printed(run(env!("CARGO_BIN_EXE_second-book"), arguments, sheet.as_bytes()))
}

/// A file with these bytes; each test takes names of its own.
fn file(name: &str, bytes: &str) -> String {
    let path = PathBuf::from(env!("CARGO_TARGET_TMPDIR")).join(name);
    std::fs::write(&path, bytes).expect("the file can be written");
    path.to_str().expect("the path is plain text").to_string()
}

#[test]
fn book_program_prints_the_worked_example() {
    assert_eq!(book(&[], EXAMPLE), EXAMPLE_BOOK);
    assert_eq!(book(&["0"], EXAMPLE), EXAMPLE_BOOK);
}

#[test]
fn budget_is_the_first_argument() {
    let counts = |arguments: &[&str]| book(arguments, FOUR_USERS).lines().nth(1).map(str::to_string);
    for argument in ["125", "00125", "000000000000000000125", "126", "4294967295"] {
        assert_eq!(counts(&[argument]).as_deref(), Some("4,4,searched"), "{argument}");
    }
    for argument in [
        "",
        "0",
        "124",
        "+125",
        "-125",
        " 125",
        "125 ",
        "125.0",
        "0x125",
        "1e3",
        "4294967296",
        "99999999999999999999",
    ] {
        assert_eq!(counts(&[argument]).as_deref(), Some("4,3,open"), "{argument}");
    }
    assert_eq!(counts(&[]).as_deref(), Some("4,3,open"));
    assert_eq!(counts(&["0", "125"]).as_deref(), Some("4,3,open"));
    assert_eq!(counts(&["125", "0"]).as_deref(), Some("4,4,searched"));
}

#[test]
fn book_program_prints_the_number_of_a_refusal() {
    let long = |bytes: usize| format!("user,p\n{},1\n", "n".repeat(bytes - "user,p\n,1\n".len()));
    assert_eq!(book(&[], ""), "2\n");
    assert_eq!(book(&["7"], "user,p\nu,2\n"), "7\n");
    assert_eq!(book(&[], &long(65_536)), "5\n");
    assert_eq!(book(&[], &long(65_537)), "1\n");
    assert_eq!(book(&[], &long(400_000)), "1\n");
    assert_eq!(book(&[], &text(&extremes::full(1, 128))).lines().nth(1), Some("1,1,witnessed"));
    assert_eq!(book(&[], &text(&extremes::full(1, 129))), "3\n");
}

fn text(draft: &Draft) -> String {
    String::from_utf8(draft.bytes()).expect("a sheet is plain text")
}

/// The buffer that the program lends has 65,536 bytes.
#[test]
fn book_program_prints_11_for_a_book_longer_than_its_buffer() {
    let fitting = book(&[], &text(&extremes::with_book_bytes(65_536)));
    assert_eq!((fitting.len(), fitting.lines().nth(1)), (65_536, Some("100,100,witnessed")));
    assert_eq!(book(&[], &text(&extremes::with_book_bytes(65_537))), "11\n");
    assert_eq!(book(&["9"], &text(&extremes::with_long_book(&mut Random::from_seed(1)))), "11\n");
    assert_eq!(book(&[], &text(&extremes::with_longest_book())), "11\n");
    let too_long = extremes::filled(&mut Random::from_seed(1), 251, 128, 65_537);
    assert_eq!(book(&[], &text(&too_long)), "1\n");
}

#[test]
fn check_program_prints_counts_or_a_number() {
    let sheet = file("check-sheet", EXAMPLE);
    let good = file("check-good", EXAMPLE_BOOK);
    let bad = file("check-bad", &EXAMPLE_BOOK.replace("2,2", "2,3"));
    let check = |book: &str| printed(run(env!("CARGO_BIN_EXE_second-check"), &[&sheet, book], b""));
    assert_eq!(check(&good), "2,2\n");
    assert_eq!(check(&bad), "13\n");
    assert_eq!(check(&sheet), "12\n");
}

#[test]
fn book_program_spells_names_as_the_sheet_does() {
    let sheet = EXAMPLE.replace("ann", "Ann").replace("rec", "REC");
    let expected = EXAMPLE_BOOK.replace("ann", "Ann").replace("rec", "REC");
    assert_eq!(book(&[], &sheet), expected);
    assert_eq!(book(&[], &sheet.replace("bo", "aNN")), "8\n");
    assert_eq!(book(&[], &sheet.replace("map", "rec")), "8\n");
    assert_eq!(book(&[], &sheet.replace("user", "User")), "3\n");
}

#[test]
fn check_program_takes_names_in_any_case() {
    let sheet = file("case-sheet", EXAMPLE);
    let check = |name: &str, text: &str| {
        printed(run(env!("CARGO_BIN_EXE_second-check"), &[&sheet, &file(name, text)], b""))
    };
    assert_eq!(check("case-names", &EXAMPLE_BOOK.replace("ann", "ANN").replace("map\n", "Map\n")), "2,2\n");
    assert_eq!(check("case-role", &EXAMPLE_BOOK.replacen("R1", "r1", 1)), "12\n");
    assert_eq!(check("case-twice", &EXAMPLE_BOOK.replace("\nbo,map\n", "\nAnn,REC\n")), "15\n");
}

#[test]
fn check_program_says_what_is_wrong_with_its_arguments() {
    let program = env!("CARGO_BIN_EXE_second-check");
    for arguments in [&[][..], &["one"][..], &["no such sheet", "no such book"][..]] {
        let output = run(program, arguments, b"");
        assert_eq!(output.status.code(), Some(2), "{output:?}");
        assert!(output.stdout.is_empty() && !output.stderr.is_empty(), "{output:?}");
    }
}

/// The example's book with a newcomer who has the first role.
const JOINED_BOOK: &str = "roles,bound,state\n2,2,witnessed\n\nrole,rec,id,map\nR1,1,1,0\nR2,0,1,1\n\n\
    user,R1,R2\nann,1,0\nbo,0,1\ncy,1,1\ndee,1,0\n\nuser,permission\nann,rec\nbo,map\n";

#[test]
fn join_program_prints_the_book_of_the_newcomer_or_a_number() {
    let (sheet, book) = (file("join-sheet", EXAMPLE), file("join-book", EXAMPLE_BOOK));
    let join = |line: &str| {
        let line = file("join-line", line);
        printed(run(env!("CARGO_BIN_EXE_second-newcomer"), &[&sheet, &book, &line], b""))
    };
    assert_eq!(join("dee,1,1,0\n"), JOINED_BOOK);
    let longer = join("dee,1,0,0\n");
    assert!(longer.starts_with("roles,bound,state\n3,2,open\n\n"), "{longer}");
    assert!(longer.contains("\nR3,1,0,0\n\n") && longer.contains("\ndee,0,0,1\n\n"), "{longer}");
    assert_eq!(join("Ann,1,1,0\n"), "17\n");
    assert_eq!(join("dee,1,1,0\r\n"), "2\n");
    assert_eq!(join("dee,1,1,0\ned,1,1,0\n"), "2\n");
    assert_eq!(join(""), "2\n");
    assert_eq!(join(&"n".repeat(1_100_000)), "1\n");
}

#[test]
fn join_program_says_what_is_wrong_with_its_arguments() {
    let program = env!("CARGO_BIN_EXE_second-newcomer");
    let there = file("join-there", EXAMPLE);
    let (there, missing) = (there.as_str(), "no such file");
    for arguments in [
        &[][..],
        &[there, there],
        &[there, there, there, there],
        &[missing, there, there],
        &[there, missing, there],
        &[there, there, missing],
    ] {
        let output = run(program, arguments, b"");
        assert_eq!(output.status.code(), Some(2), "{output:?}");
        assert!(output.stdout.is_empty() && !output.stderr.is_empty(), "{output:?}");
    }
}

/// The digests were worked out apart from the program.
#[test]
fn play_program_puts_newcomers_in_books() {
    let (sheet, book) = (file("joined-sheet", EXAMPLE), file("joined-book", EXAMPLE_BOOK));
    let lines = ["dee,1,0,0\n", "dee,1,1,0\n", "BO,1,1,0\n", "dee,1,1,0"];
    let [more, kept, taken, open_end] = [0, 1, 2, 3].map(|line| file(&format!("joined-{line}"), lines[line]));
    let script = format!(
        "newcomer {sheet} {book} {more} 0\nnewcomer {sheet} {book} {more} 155\nnewcomer {sheet} {book} {more} 156\n\
         newcomer {sheet} {book} {more} 200\nnewcomer {sheet} {book} {kept} 140\nnewcomer {sheet} {book} {kept} 141\n\
         newcomer {sheet} {book} {kept} 200\nnewcomer {sheet} {book} {taken} 5\nnewcomer {sheet} {book} {open_end} 5\n\
         newcomer {book} {book} {open_end} 5\nnewcomer {sheet} {sheet} {taken} 5\nreduce\n"
    );
    let expected = "newcomer 11 0 00000001\nnewcomer 11 0 8fbe4d7f\nnewcomer 0 156 762e2b66\n\
        newcomer 0 156 c3594058\nnewcomer 11 0 38ed4613\nnewcomer 0 141 d8a429c4\nnewcomer 0 141 c32b45f3\n\
        newcomer 17 0 02da015a\nnewcomer 2 0 02da015a\nnewcomer 3 0 02da015a\nnewcomer 12 0 02da015a\n\
        reduce 10 0 0\n";
    assert_eq!(printed(run(env!("CARGO_BIN_EXE_second-play"), &[], script.as_bytes())), expected);
}

/// The digests were worked out apart from the program.
#[test]
fn play_program_answers_each_call_with_a_line() {
    let four = file("play-four", FOUR_USERS);
    let example = file("play-example", EXAMPLE);
    let book = file("play-book", EXAMPLE_BOOK);
    let script = format!(
        "reduce\nsearch 1\nwrite 5\nload {book}\nreduce\nload {four}\nsearch 4294967295\nwrite 5\nload {book}\nreduce\n\
         search 100\nload {book}\nreduce\nsearch 4294967295\nload {example}\nwrite 0\nwrite 133\nreduce\nreduce\n\
         search 0\nwrite 0\nwrite 132\nwrite 133\nwrite 200\ncheck {example} {book}\ncheck {four} {book}\n"
    );
    let expected = "reduce 10 0 0\nsearch 10 0 0 0 0 0 0 -\nwrite 10 0 02da015a\nload 3 0 0 0\nreduce 10 0 0\n\
        load 0 4 4 12\nsearch 16 0 0 0 0 0 0 -\nwrite 16 0 02da015a\nload 3 0 0 0\nreduce 0 12 3\n\
        search 0 100 53 47 0 4 3 open\nload 3 0 0 0\nreduce 0 12 3\nsearch 0 25 9 15 1 4 4 searched\nload 0 3 3 7\n\
        write 16 0 00000001\nwrite 16 0 5c19429a\nreduce 0 0 2\nreduce 0 0 2\n\
        search 0 0 0 0 0 2 2 witnessed\nwrite 11 0 00000001\nwrite 11 0 197f4297\nwrite 0 133 aade27d3\n\
        write 0 133 77404876\ncheck 0 2 2\ncheck 12 0 0\n";
    assert_eq!(printed(run(env!("CARGO_BIN_EXE_second-play"), &[], script.as_bytes())), expected);
}

#[test]
fn play_program_stops_at_a_line_that_is_no_call() {
    let program = env!("CARGO_BIN_EXE_second-play");
    for script in [
        "jump 3\n",
        "search -1\n",
        "search +1\n",
        "search \n",
        "search 4294967296\n",
        "write 262145\n",
        "load\n",
        "load no-such-file\n",
        "reduce \n",
        " reduce\n",
        "reduce now\n",
        "reduce 0\n",
        "Reduce\n",
        "reduced\n",
        "\n",
    ] {
        let output = run(program, &[], script.as_bytes());
        assert_eq!(output.status.code(), Some(2), "{output:?}");
        assert!(output.stdout.is_empty() && !output.stderr.is_empty(), "{output:?}");
    }
    let there = file("no-call-there", EXAMPLE);
    for script in [
        "newcomer\n".to_string(),
        format!("newcomer {there} {there} 5\n"),
        format!("newcomer {there} {there} {there}\n"),
        format!("newcomer {there} {there} {there} \n"),
        format!("newcomer {there} {there} {there} x\n"),
        format!("newcomer {there} {there} {there} 262145\n"),
        format!("newcomer {there} {there} {there} 5 5\n"),
        format!("newcomer {there} {there} no-such-file 5\n"),
        format!("Newcomer {there} {there} {there} 5\n"),
    ] {
        let output = run(program, &[], script.as_bytes());
        assert_eq!(output.status.code(), Some(2), "{output:?}");
        assert!(output.stdout.is_empty() && !output.stderr.is_empty(), "{output:?}");
    }
    let longest = format!("newcomer {there} {there} {there} 262144\n");
    assert!(printed(run(program, &[], longest.as_bytes())).starts_with("newcomer 2 0 "));
    assert!(printed(run(program, &[], b"write 262144\n")).starts_with("write 10 0 "));
    assert_eq!(printed(run(program, &[], b"reduce")), "reduce 10 0 0\n");
}

/// The program gives the lines that the library gives.
#[test]
fn play_program_answers_whole_sequences() {
    let directory = PathBuf::from(env!("CARGO_TARGET_TMPDIR")).join("sequences");
    std::fs::create_dir_all(&directory).expect("the directory can be made");
    cases(20, |random| {
        let calls = sequence(random, 40, 8);
        let mut session = Session::fresh();
        let expected: String = calls.iter().map(|call| answer_line(&mut session, call) + "\n").collect();
        let script = script(&calls, &directory).expect("the files can be written");
        assert_eq!(printed(run(env!("CARGO_BIN_EXE_second-play"), &[], script.as_bytes())), expected);
    });
}
