//! Damaged books, judged by the checker and in the second way.

use second::checker::check;
use trials::cases::cases;
use trials::damage;
use trials::draft::Draft;
use trials::extremes;
use trials::families::{self, crown};
use trials::restated::form::verdict;
use trials::sessions::first_book;
use trials::tally::Tally;

use crate::support::{book, session_with};

/// The judgement of a damaged book, and of the second way to judge it.
fn judge(draft: &Draft, damaged: impl AsRef<[u8]>) -> Result<(usize, usize), u32> {
    let damaged = damaged.as_ref();
    let found = check(&draft.bytes(), damaged)
        .map(|answer| (answer.roles, answer.witness_lines))
        .map_err(|refusal| refusal.number());
    assert_eq!(found, verdict(draft, damaged), "{draft:?} {}", String::from_utf8_lossy(damaged));
    found
}

#[test]
fn damaged_books_get_the_same_judgement_in_the_second_way() {
    let mut seen = Tally::default();
    cases(20_000, |random| {
        let is_wide = random.percent(10);
        let draft = if is_wide { families::any_wide(random, 6) } else { families::any(random, 6) };
        let text = first_book(&draft.bytes());
        let damaged = if random.percent(70) {
            damage::book(random, &draft, &text)
        } else {
            damage::bytes(random, &text)
        };
        seen.note(judge(&draft, &damaged).err());
    });
    seen.expect([None, Some(12), Some(13), Some(14), Some(15)], 300);
}

/// Whether the byte at this place of a book belongs to a word of the form or to the name of a role. The names of users
/// and permissions must be no such words, and must not begin with `R`.
fn is_word(book: &str, place: usize) -> bool {
    let start = book[..place].rfind([',', '\n']).map_or(0, |separator| separator + 1);
    let field = book[start..].split([',', '\n']).next().expect("a field stands at each place");
    let words = "roles|bound|state|witnessed|searched|open|role|user|permission";
    field.starts_with('R') || words.split('|').any(|word| word == field)
}

/// Every book that differs from a good one in one byte, or has one more or one less. Only by a name of a user or a
/// permission in other case can it be the same book, and only a witness line can become another good one.
#[test]
fn every_single_byte_of_a_book_is_judged_alike_in_both_ways() {
    for draft in [crown(3), extremes::full(2, 3), Draft::plain(2, 1, |_, _| false)] {
        let text = book(&session_with(&draft.bytes()));
        let witness_lines = text.find("user,permission").expect("a book has witness lines");
        for place in 0..text.len() {
            let with = |piece: &str, rest: usize| [&text[..place], piece, &text[rest..]].concat();
            judge(&draft, with("", place + 1)).expect_err("a byte less is never of a good book");
            for piece in ",|\n|0|1|2|6|9|R|r|U|u|P|p|w|O| |\r|-".split('|') {
                judge(&draft, with(piece, place)).expect_err("a byte more is never of a good book");
                let changed = with(piece, place + 1);
                let found = judge(&draft, &changed);
                let is_same =
                    changed.eq_ignore_ascii_case(&text) && (changed == text || !is_word(&text, place));
                assert!(found.is_err() || is_same || place > witness_lines, "{changed}");
            }
        }
    }
}
