//! The sheets that are measured.

use baseline::session::Session;
use second::implementation::Implementation;
use second::refusal::Refusal;
use trials::draft::{Draft, user_line};
use trials::extremes;
use trials::families;
use trials::newcomers::{Admission, row_with_rest};
use trials::paper::{BOOK_BYTES, EXAMPLE, GRANTS};
use trials::random::Random;
use trials::sessions;
use trials::spelling;

pub struct Sheet {
    pub name: String,
    pub bytes: Vec<u8>,
    /// The sheet that its book is checked against: the same one, or the same in other case.
    pub checked: Vec<u8>,
}

impl Sheet {
    fn new(name: &str, bytes: Vec<u8>) -> Sheet {
        Sheet { name: name.to_string(), checked: bytes.clone(), bytes }
    }

    /// A newcomer who holds what two users hold and one permission more, where there is one. The sheet lacks as many of
    /// its last users as it takes to make room for that; its book is spelled as the one that is checked.
    pub fn admission(&self) -> Admission {
        let [mut draft, mut spelled] = [&self.checked, &self.bytes].map(|bytes| Draft::made_out(bytes));
        loop {
            let line = user_line("newcomer", &row_with_rest(&draft)).into_bytes();
            let admission = Admission { sheet: draft.bytes(), book: first_book(&spelled), line };
            if result(&admission).is_ok() {
                return admission;
            }
            for draft in [&mut draft, &mut spelled] {
                draft.users.pop();
                draft.held.pop();
            }
        }
    }
}

/// The book of the sheet before any search.
fn first_book(draft: &Draft) -> Vec<u8> {
    written(|buffer| sessions::reduced::<Session>(&draft.bytes()).write(buffer)).expect("every book has room")
}

/// The newcomer's book.
fn result(admission: &Admission) -> Result<Vec<u8>, Refusal> {
    written(|buffer| Session::newcomer(&admission.sheet, &admission.book, &admission.line, buffer))
}

/// What a call writes into a buffer that is long enough.
fn written(call: impl FnOnce(&mut [u8]) -> Result<usize, Refusal>) -> Result<Vec<u8>, Refusal> {
    let mut buffer = vec![0; BOOK_BYTES];
    let count = call(&mut buffer)?;
    buffer.truncate(count);
    Ok(buffer)
}

/// Whether the newcomer gets a role of their own.
pub fn has_own_role(admission: &Admission) -> bool {
    let roles = |sheet: &[u8], book: &[u8]| Session::check(sheet, book).expect("the book is right").roles;
    let result = result(admission).expect("the newcomer is accepted");
    roles(&admission.sheet, &admission.book) < roles(&admission.longer_sheet(), &result)
}

fn sheet(name: &str, draft: &Draft) -> Sheet {
    Sheet::new(name, draft.bytes())
}

/// Long names, all of them alike but for case and their last three bytes. A book is checked whose names are spelled in
/// other case than the sheet's, each at random.
fn in_mixed_case(random: &mut Random) -> Sheet {
    let draft = extremes::with_names_in_mixed_case(random);
    let checked = spelling::sheet(random, &draft).bytes();
    Sheet { checked, ..sheet("250 users, names in mixed case", &draft) }
}

/// Sheets to load, reduce, write and check: a small one, and large ones with as many grants as there can be or nearly
/// as many, but for the one with two grants a user.
pub fn sheets() -> Vec<Sheet> {
    let mut random = Random::from_seed(1);
    vec![
        Sheet::new("worked example", EXAMPLE.into()),
        sheet("random, half full", &extremes::with_grants(&mut random, 64, 64, GRANTS)),
        sheet("random, an eighth full", &extremes::with_grants(&mut random, 256, 64, GRANTS)),
        sheet("band of 32", &families::band(64, 32)),
        sheet("crown of 45", &families::crown(45)),
        sheet("eight blocks", &families::blocks(&[(32, 8); 8])),
        sheet("names of 16 bytes", &extremes::with_longest_names(&mut random)),
        sheet("128 wide, full", &extremes::full(16, 128)),
        sheet("128 wide, 250 users", &extremes::with_long_book(&mut random)),
        sheet("128 wide, two grants a user", &families::paired(&mut random, 128)),
        sheet("128 wide, two blocks", &families::blocks(&[(16, 64), (16, 64)])),
        sheet("128 wide, second half full", &behind_64(&mut random)),
        in_mixed_case(&mut random),
    ]
}

/// All grants stand in the last 64 of 128 permissions, half of whose cells they are.
fn behind_64(random: &mut Random) -> Draft {
    families::behind(64, &extremes::with_grants(random, 64, 64, GRANTS))
}

/// Sheets to search, on which so many steps do not come to an end.
pub fn searched_sheets(steps: u32) -> Vec<Sheet> {
    let mut random = Random::from_seed(2);
    let mut sheets: Vec<Sheet> =
        [8, 9, 10].map(|size| sheet(&format!("crown of {size}"), &families::crown(size))).into();
    for (size, side) in [(60, 13), (128, 20)] {
        sheets.push(sheet(&format!("kernel of {size}"), &open_kernel(&mut random, size, side, steps)));
    }
    sheets
}

/// A random sheet with a kernel of this size that is still open after so many steps, with about so many users and
/// permissions.
fn open_kernel(random: &mut Random, size: usize, side: usize, steps: u32) -> Draft {
    random.until_found(|random| {
        let users = random.between(side - 3, side + 3);
        let permissions = random.between(side - 3, side + 3);
        let grants = size + random.between(0, 20);
        let draft = extremes::with_grants(random, users, permissions, grants);
        let mut session: Session = sessions::loaded(&draft.bytes());
        let kernel = session.reduce().expect("a sheet is loaded").kernel;
        (kernel == size && session.search(steps).is_ok_and(|answer| answer.steps == steps)).then_some(draft)
    })
}

#[cfg(test)]
mod tests {
    use trials::paper::PERMISSIONS;

    use super::*;

    /// What is measured is what the tables say.
    #[test]
    fn large_sheets_are_near_the_limit_of_grants() {
        for sheet in &sheets()[1..] {
            let answer = Session::fresh().load(&sheet.bytes).expect("the sheet is acceptable");
            let is_near = answer.grants > GRANTS * 9 / 10;
            assert!(is_near || sheet.name.ends_with("two grants a user"), "{}: {answer:?}", sheet.name);
        }
    }

    #[test]
    fn wide_sheets_have_as_many_permissions_as_there_can_be() {
        for sheet in sheets() {
            let answer = Session::fresh().load(&sheet.bytes).expect("the sheet is acceptable");
            assert_eq!(
                sheet.name.starts_with("128 wide"),
                answer.permissions == PERMISSIONS,
                "{}",
                sheet.name
            );
        }
    }

    /// A newcomer leaves most of the sheet as it is, and on half of the large sheets needs a role of their own.
    #[test]
    fn newcomers_join_large_sheets() {
        let sheets = sheets();
        let own_roles = sheets[1..].iter().filter(|sheet| {
            let admission = sheet.admission();
            let length = admission.longer_sheet().len();
            assert!(length > sheet.bytes.len() * 8 / 10, "{}: {length}", sheet.name);
            has_own_role(&admission)
        });
        assert_eq!(own_roles.count(), 6);
    }

    /// Only the sheet with names in mixed case is checked in another spelling.
    #[test]
    fn sheets_are_checked_as_they_are_or_in_other_case() {
        for sheet in sheets() {
            assert!(sheet.checked.eq_ignore_ascii_case(&sheet.bytes), "{}", sheet.name);
            let is_respelt = sheet.checked != sheet.bytes;
            assert_eq!(is_respelt, sheet.name.ends_with("names in mixed case"), "{}", sheet.name);
        }
    }

    #[test]
    fn searched_sheets_stay_open_and_have_their_kernels() {
        let steps = 100_000;
        let kernels: Vec<usize> = searched_sheets(steps)
            .iter()
            .map(|sheet| {
                let mut session: Session = sessions::loaded(&sheet.bytes);
                let kernel = session.reduce().expect("a sheet is loaded").kernel;
                assert_eq!(session.search(steps).map(|answer| answer.steps), Ok(steps), "{}", sheet.name);
                kernel
            })
            .collect();
        assert_eq!(kernels, [56, 72, 90, 60, 128]);
    }
}
