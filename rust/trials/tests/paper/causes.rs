//! Sheets that are refused: each cause alone, the lowest of several at once, and damaged sheets against a
//! second judgement.

use trials::cases::cases;
use trials::damage;
use trials::families;
use trials::random::Random;
use trials::restated::causes::lowest_cause;
use trials::spelling;
use trials::tally::Tally;

use crate::support::load_number;

/// A sheet as fields of lines, so that anything can be put into it.
type Fields = Vec<Vec<String>>;

const USERS: usize = 40;

/// With so many permissions a sheet of too many users is not yet too long.
const PERMISSIONS: usize = 120;

/// A sheet without a cause; all ones are on the diagonal.
fn faultless() -> Fields {
    let mut lines = vec![vec!["user".to_string()]];
    lines[0].extend((0..PERMISSIONS).map(|permission| format!("p{permission}")));
    for user in 0..USERS {
        let mut line = vec![format!("u{user}")];
        line.extend((0..PERMISSIONS).map(|permission| u8::from(user == permission).to_string()));
        lines.push(line);
    }
    lines
}

fn text(lines: &Fields) -> Vec<u8> {
    lines.iter().map(|line| line.join(",") + "\n").collect::<String>().into_bytes()
}

/// Puts a cause into a sheet, in one of several ways, without a lower one.
fn put(random: &mut Random, lines: &mut Fields, cause: u32) {
    match cause {
        3 => put_first_line(random, lines),
        4 if random.percent(30) => lines.truncate(1),
        4 => add_users(random, lines),
        5 => put_name(random, lines),
        6 => put_field_count(random, lines),
        7 => put_value(random, lines),
        8 => put_repeated_name(random, lines),
        _ => lines.iter_mut().skip(1).for_each(|line| line[1..].fill("1".to_string())),
    }
}

fn put_first_line(random: &mut Random, lines: &mut Fields) {
    match random.below(4) {
        0 => lines[0][0] = random.pick(&["", "User", "USER", "users", "use", "role"]).to_string(),
        1 => lines[0].truncate(1),
        2 => lines[0].extend((PERMISSIONS..129).map(|permission| format!("p{permission}"))),
        _ => drop(lines[0].remove(0)),
    }
}

fn add_users(random: &mut Random, lines: &mut Fields) {
    let more = random.between(257, 260) - USERS;
    let last = lines.last().cloned().unwrap_or_default();
    for user in 0..more {
        let mut line = last.clone();
        line[0] = format!("v{user}");
        lines.push(line);
    }
}

fn put_name(random: &mut Random, lines: &mut Fields) {
    let name = random.pick(&["", "abcdefghijklmnopq", "a.name.much-longer_than.sixteen"]).to_string();
    if random.percent(30) {
        lines[0][random.between(1, PERMISSIONS)] = name;
    } else {
        lines[random.between(1, USERS)][0] = name;
    }
}

fn put_field_count(random: &mut Random, lines: &mut Fields) {
    let line = &mut lines[random.between(1, USERS)];
    match random.below(3) {
        0 => line.push("0".to_string()),
        1 => line.truncate(1),
        _ => drop(line.pop()),
    }
}

fn put_value(random: &mut Random, lines: &mut Fields) {
    let line = &mut lines[random.between(1, USERS)];
    line.truncate(PERMISSIONS);
    line.push(random.pick(&["", "2", "00", "01", "11", "x", "-", "user"]).to_string());
}

/// The name is spelled in any case when it stands for the second time.
fn put_repeated_name(random: &mut Random, lines: &mut Fields) {
    if random.percent(50) {
        let name = lines[0][random.between(1, PERMISSIONS - 1)].clone();
        lines[0][PERMISSIONS] = spelling::name(random, &name);
    } else {
        let name = lines[random.between(1, USERS - 1)][0].clone();
        lines[USERS][0] = spelling::name(random, &name);
    }
}

/// The causes that are about the bytes come last, since they stand above the fields.
fn with_causes(random: &mut Random, causes: &[u32]) -> Vec<u8> {
    let mut lines = faultless();
    for cause in causes.iter().rev().filter(|cause| **cause > 2) {
        put(random, &mut lines, *cause);
    }
    let mut sheet = text(&lines);
    if causes.contains(&2) {
        put_bytes(random, &mut sheet);
    }
    if causes.contains(&1) {
        let missing = 65_537_usize.saturating_sub(sheet.len());
        sheet.splice(0..0, std::iter::repeat_n(b'x', missing));
    }
    sheet
}

fn put_bytes(random: &mut Random, sheet: &mut Vec<u8>) {
    match random.below(3) {
        0 => drop(sheet.pop()),
        1 => sheet.insert(random.below(sheet.len()), *random.pick(b" \r\0\t;/:@[`{^\"\x7f\x80\xff")),
        _ => sheet.clear(),
    }
}

#[test]
fn faultless_sheet_is_accepted() {
    assert_eq!(load_number(&text(&faultless())), 0);
}

#[test]
fn each_cause_alone_gives_its_number() {
    cases(20, |random| {
        for cause in 1..=9 {
            let sheet = with_causes(random, &[cause]);
            assert_eq!(load_number(&sheet), cause, "{}", String::from_utf8_lossy(&sheet));
        }
    });
}

#[test]
fn lowest_of_several_causes_is_given() {
    cases(3, |random| {
        for chosen in 1..1_u32 << 9 {
            let causes: Vec<u32> = (1..=9).filter(|cause| chosen >> (cause - 1) & 1 == 1).collect();
            let sheet = with_causes(random, &causes);
            assert_eq!(load_number(&sheet), causes[0], "{causes:?} {}", String::from_utf8_lossy(&sheet));
        }
    });
}

#[test]
fn exactly_the_allowed_bytes_are_allowed() {
    let allowed = b"ABCDEFGHIJKLMNOPQRSTUVWXYZabcdefghijklmnopqrstuvwxyz0123456789-._";
    for byte in 0..=u8::MAX {
        let sheet = [b"user,p\na", &[byte][..], b"b,1\n"].concat();
        let expected = match byte {
            b',' => 6,
            b'\n' => 6,
            _ if allowed.contains(&byte) => 0,
            _ => 2,
        };
        assert_eq!(load_number(&sheet), expected, "byte {byte}");
    }
}

#[test]
fn missing_last_line_feed_gives_2() {
    assert_eq!(load_number(b"user,p\nu,1"), 2);
    assert_eq!(load_number(b"user"), 2);
}

#[test]
fn user_and_permission_may_share_a_name() {
    assert_eq!(load_number(b"user,ann,bo\nann,1,0\nbo,0,1\n"), 0);
}

/// Damaged sheets are judged a second time, in one pass over the bytes; each number comes up.
#[test]
fn damaged_sheets_get_the_same_number_from_the_second_judgement() {
    let mut seen = Tally::default();
    cases(20_000, |random| {
        let sheet = families::any(random, 6).bytes();
        let damaged = damage::bytes(random, &sheet);
        let expected = lowest_cause(&damaged);
        assert_eq!(load_number(&damaged), expected.unwrap_or(0), "{}", String::from_utf8_lossy(&damaged));
        seen.note(expected);
    });
    seen.expect([None].into_iter().chain((2..=8).map(Some)), 20);
}

#[test]
fn sheets_with_several_causes_get_the_same_number_from_the_second_judgement() {
    cases(300, |random| {
        let causes: Vec<u32> = (1..=9).filter(|_| random.percent(20)).collect();
        let sheet = with_causes(random, &causes);
        let damaged = if random.percent(50) { damage::bytes(random, &sheet) } else { sheet };
        assert_eq!(
            load_number(&damaged),
            lowest_cause(&damaged).unwrap_or(0),
            "{}",
            String::from_utf8_lossy(&damaged)
        );
    });
}
