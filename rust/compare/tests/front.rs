//! The shell front held to the programs of the second implementation: a newcomer in a book, and what its refusals mean.

use std::path::PathBuf;

use compare::front::{Said, porvuund};
use programs::{book_output, newcomer_output};
use trials::newcomers::{Admission, ORDER, refused_from};

const ROOSTS: &str = include_str!("../../../examples/roosts.csv");

/// A line that gets a role and has permissions left over.
const GUS: &str = "gus,0,0,0,1,1,1\n";

/// A folder of this test's own, whose name has a blank.
fn folder(name: &str) -> PathBuf {
    let folder = PathBuf::from(env!("CARGO_TARGET_TMPDIR")).join(format!("front {name}"));
    std::fs::create_dir_all(&folder).expect("the folder can be made");
    folder
}

/// Files with the sheet, the book and the line, in a folder of this name.
fn files(name: &str, admission: &Admission) -> [String; 3] {
    let folder = folder(name);
    let parts = [("sheet", &admission.sheet), ("book", &admission.book), ("line", &admission.line)];
    parts.map(|(part, bytes)| {
        let path = folder.join(part);
        std::fs::write(&path, bytes).expect("the file can be written");
        path.to_str().expect("the path is plain text").to_string()
    })
}

fn roosts(line: &str) -> Admission {
    let sheet = ROOSTS.as_bytes().to_vec();
    Admission { book: book_output(&sheet, 0), sheet, line: line.as_bytes().to_vec() }
}

fn expected(admission: &Admission) -> String {
    let output = newcomer_output(&admission.sheet, &admission.book, &admission.line);
    String::from_utf8(output).expect("a book is plain text")
}

/// The front's answer to this newcomer, from files and with the line on standard input, which must be the same.
fn newcomer(name: &str, admission: &Admission) -> Said {
    let [sheet, book, line] = files(name, admission);
    let said = porvuund(&["newcomer", &sheet, &book, &line], b"");
    assert_eq!(porvuund(&["newcomer", &sheet, &book, "-"], &admission.line), said, "{name}");
    said
}

/// What a refusal number means.
fn meaning(number: u32) -> String {
    let said = porvuund(&["explain", &number.to_string()], b"");
    assert_eq!((said.status, said.said.as_str()), (Some(0), ""), "{number}");
    said.printed.trim_end().to_string()
}

/// The front prints the number of the refusal, says what it means, and ends with status 1.
fn assert_refused(name: &str, admission: &Admission, number: u32) {
    assert_eq!(expected(admission), format!("{number}\n"), "{name}");
    let said = newcomer(name, admission);
    assert_eq!((said.status, said.printed), (Some(1), format!("{number}\n")), "{name}");
    assert!(said.said.contains(&meaning(number)), "{name}: {}", said.said);
}

#[test]
fn book_of_a_newcomer_is_printed() {
    for (name, line) in [("friend", "gus,0,0,0,0,1,0\n"), ("leftover", GUS), ("nothing", "gus,0,0,0,0,0,0\n")]
    {
        let admission = roosts(line);
        let book = expected(&admission);
        assert!(book.starts_with("roles,bound,state\n") && book.contains("\ngus,"), "{book}");
        let said = newcomer(name, &admission);
        assert_eq!(said, Said { status: Some(0), printed: book, said: String::new() }, "{name}");
    }
}

#[test]
fn lines_that_are_no_line_of_a_sheet_are_refused() {
    for (name, line, number) in [
        ("crlf", "gus,0,0,0,0,1,0\r\n", 2),
        ("several", "gus,0,0,0,0,1,0\nhal,0,0,0,0,1,0\n", 2),
        ("empty line behind", "gus,0,0,0,0,1,0\n\n", 2),
        ("no line feed", "gus,0,0,0,0,1,0", 2),
        ("no bytes", "", 2),
        ("blank", "gus,0,0,0,0,1, 0\n", 2),
        ("empty line", "\n", 5),
        ("long name", "gus-of-seventeen.,0,0,0,0,1,0\n", 5),
        ("few cells", "gus,0,0,0,0,1\n", 6),
        ("many cells", "gus,0,0,0,0,1,0,0\n", 6),
        ("no cell", "gus,0,0,0,0,1,2\n", 7),
        ("taken", "Finn,0,0,0,0,1,0\n", 17),
    ] {
        assert_refused(name, &roosts(line), number);
    }
}

/// Every number that a newcomer can be refused by but for 11: the front's buffer has room for every book.
#[test]
fn each_refusal_is_said() {
    for (place, number) in ORDER.into_iter().enumerate().filter(|(_, number)| *number != 11) {
        assert_refused(&format!("refused {place}"), &refused_from(place).admission, number);
    }
    let last = ORDER.len() - 1;
    assert!(expected(&refused_from(last).admission).starts_with("roles,bound,state\n"));
}

#[test]
fn new_numbers_are_explained() {
    let meanings = [17, 18, 19].map(meaning);
    for (index, meaning) in meanings.iter().enumerate() {
        assert!(!meaning.is_empty() && !meaning.contains('\n'), "{meaning}");
        assert!(!meanings[..index].contains(meaning), "{meaning}");
    }
    assert!(meanings[0].contains("name"), "{}", meanings[0]);
    assert!(meanings[1].contains("256"), "{}", meanings[1]);
    assert!(meanings[2].contains("129"), "{}", meanings[2]);
}

/// Nothing is printed, standard error says what is wrong, and the status is 2.
fn assert_misused(arguments: &[&str]) {
    let said = porvuund(arguments, GUS.as_bytes());
    assert_eq!((said.status, said.printed.as_str()), (Some(2), ""), "{arguments:?}");
    assert!(said.said.starts_with("porvuund: "), "{arguments:?}: {}", said.said);
}

#[test]
fn wrong_use_and_files_that_cannot_be_read_end_with_status_2() {
    let [sheet, book, line] = files("misused", &roosts(GUS));
    let (sheet, book, line) = (sheet.as_str(), book.as_str(), line.as_str());
    assert_misused(&["newcomer"]);
    assert_misused(&["newcomer", sheet]);
    assert_misused(&["newcomer", sheet, book]);
    assert_misused(&["newcomer", sheet, book, line, "100"]);
    assert_misused(&["newcomers", sheet, book, line]);
    let folder = folder("misused");
    let (folder, missing) = (folder.to_str().expect("the path is plain text"), "no such file");
    for other in [folder, missing, ""] {
        assert_misused(&["newcomer", other, book, line]);
        assert_misused(&["newcomer", sheet, other, line]);
        assert_misused(&["newcomer", sheet, book, other]);
        assert_misused(&["newcomer", other, book, "-"]);
    }
}

/// The printed book is a book for the sheet with the line added, and a newcomer can join it in turn.
#[test]
fn printed_book_is_checked_and_joined_in_turn() {
    let first = roosts(GUS);
    let book = newcomer("first", &first).printed.into_bytes();
    let second = Admission { sheet: first.longer_sheet(), book, line: b"hal,0,0,0,1,0,1\n".to_vec() };
    let [sheet, book, _] = files("checked", &second);
    let said = porvuund(&["check", &sheet, &book], b"");
    assert_eq!((said.status, said.printed.as_str()), (Some(0), "6,5\n"));
    assert_eq!(newcomer("second", &second).printed, expected(&second));
}
