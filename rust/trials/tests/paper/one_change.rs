//! One person moves one role: two sheets that differ only in one user's line, or only in one permission's column, have
//! smallest role counts at most 1 apart.

use second::session::Session;
use trials::agreement::one_change as agreement;
use trials::book_draft::BookDraft;
use trials::brute::{self, subsets};
use trials::cases::cases;
use trials::draft::Draft;
use trials::families;
use trials::newcomers;
use trials::one_change::{self, Changed, OneChange};
use trials::restated::form::spelled_as_in_the_sheet;
use trials::tally::Tally;

use crate::support::{EXAMPLE, EXAMPLE_BOOK, book, session_with};

/// All lines and columns of a sheet of this size.
fn lines_and_columns(users: usize, permissions: usize) -> impl Iterator<Item = Changed> {
    (0..users).map(Changed::Line).chain((0..permissions).map(Changed::Column))
}

/// Every sheet of this size, and every other line or column in it: the smallest counts are found from the matrices
/// alone, and no two are more than 1 apart. Every pair is tried with either sheet first, so as many moves go up as
/// down.
fn judge_every_change(users: usize, permissions: usize) {
    let smallest = brute::smallest_of_all(users, permissions);
    let size = Draft::plain(users, permissions, |_, _| false);
    for changed in lines_and_columns(users, permissions) {
        let places =
            changed.cells(&size).into_iter().map(|(user, permission)| user * permissions + permission);
        let cells: usize = places.map(|place| 1 << place).sum();
        let (mut down, mut same, mut up) = (0, 0, 0);
        for (sheet, before) in smallest.iter().enumerate() {
            for new in subsets(cells as u64) {
                let after = smallest[sheet & !cells | new as usize];
                match after as isize - *before as isize {
                    -1 => down += 1,
                    0 => same += 1,
                    1 => up += 1,
                    _ => panic!("{before} and {after} roles: {changed:?} in {sheet:b} to {new:b}"),
                }
            }
        }
        assert_eq!(down + same + up, smallest.len() << cells.count_ones());
        assert!(down == up && up > 0 && same > 0, "{changed:?}: {down} {same} {up}");
    }
}

#[test]
fn every_change_of_every_sheet_of_three_users_and_three_permissions() {
    judge_every_change(3, 3);
}

#[test]
fn every_change_of_every_sheet_of_four_users_and_four_permissions() {
    judge_every_change(4, 4);
}

#[test]
fn every_change_of_every_sheet_with_few_users_or_few_permissions() {
    for (users, permissions) in [(1, 1), (1, 5), (5, 1), (2, 4), (4, 2), (2, 6), (6, 2), (3, 4), (4, 3)] {
        judge_every_change(users, permissions);
    }
}

/// Three users with a permission of their own each need three roles. With one line or column after another emptied,
/// they need two and then one: what is promised of one change is not promised of two.
#[test]
fn two_changes_can_move_it_by_two() {
    let own = families::blocks(&[(1, 1); 3]);
    for (first, second) in [
        (Changed::Line(1), Changed::Line(2)),
        (Changed::Column(0), Changed::Column(2)),
        (Changed::Line(0), Changed::Column(1)),
    ] {
        let between = OneChange::to(&own, first, "000").after;
        let last = OneChange::to(&between, second, "000").after;
        assert_eq!([&own, &between, &last].map(|draft| brute::smallest(&draft.held)), [3, 2, 1]);
    }
}

/// The book of this sheet when its search is closed.
fn closed_book(sheet: &str) -> String {
    let mut session = session_with(sheet.as_bytes());
    session.search(u32::MAX).expect("the sheet is reduced");
    book(&session)
}

/// Without `id` cy can have neither ann's role nor bo's, which both hold it: from two roles it goes to three, and
/// with `id` back to two. If cy holds nothing it stays at two, and only cy's line of the book is another.
#[test]
fn worked_example_with_another_line_for_cy() {
    assert_eq!(closed_book(EXAMPLE), EXAMPLE_BOOK);
    let without_id = "user,rec,id,map\nann,1,1,0\nbo,0,1,1\ncy,1,0,1\n";
    let expected = "roles,bound,state\n3,3,witnessed\n\nrole,rec,id,map\nR1,1,1,0\nR2,0,1,1\nR3,1,0,1\n\n\
        user,R1,R2,R3\nann,1,0,0\nbo,0,1,0\ncy,0,0,1\n\nuser,permission\nann,rec\nbo,id\ncy,map\n";
    assert_eq!(closed_book(without_id), expected);
    let without_any = "user,rec,id,map\nann,1,1,0\nbo,0,1,1\ncy,0,0,0\n";
    assert_eq!(closed_book(without_any), EXAMPLE_BOOK.replacen("\ncy,1,1\n", "\ncy,0,0\n", 1));
}

/// With `id` for bo alone, ann's role holds `rec`, and bo's holds `id`, which cy lacks: `map` takes a third role for
/// cy. With `map` for nobody, ann and cy have one role and bo another: two, as before.
#[test]
fn worked_example_with_another_column() {
    let id_for_bo = "user,rec,id,map\nann,1,0,0\nbo,0,1,1\ncy,1,0,1\n";
    assert!(closed_book(id_for_bo).starts_with("roles,bound,state\n3,3,witnessed\n\n"));
    let no_map = "user,rec,id,map\nann,1,1,0\nbo,0,1,0\ncy,1,1,0\n";
    assert!(closed_book(no_map).starts_with("roles,bound,state\n2,2,witnessed\n\n"));
}

/// The sheet of four users each lacking their own permission, with this line for the last of them.
fn four_users(last: &str) -> String {
    format!("user,p1,p2,p3,p4\nu1,0,1,1,1\nu2,1,0,1,1\nu3,1,1,0,1\nu4,{last}\n")
}

/// If all roles of one user were another's too, the one would not hold what the other lacks. So nobody's roles are all
/// another's, and three roles cannot be given to four users like that: it takes four.
///
/// A last user who holds everything has the first two users' roles. Those first three each lack their own of the
/// first three permissions, and hold the fourth: it takes three, one fewer.
#[test]
fn four_users_with_all_permissions_for_the_last() {
    assert!(closed_book(&four_users("1,1,1,0")).starts_with("roles,bound,state\n4,4,searched\n\n"));
    let expected = "roles,bound,state\n3,3,witnessed\n\nrole,p1,p2,p3,p4\nR1,0,1,1,1\nR2,1,0,1,1\nR3,1,1,0,1\n\n\
        user,R1,R2,R3\nu1,1,0,0\nu2,0,1,0\nu3,0,0,1\nu4,1,1,0\n\nuser,permission\nu1,p2\nu2,p3\nu3,p1\n";
    assert_eq!(closed_book(&four_users("1,1,1,1")), expected);
}

/// If the last user lacks the third permission too, their roles may all be the third user's, who has more; else
/// nobody's roles are all another's, as before. Were there three roles, the first three users would have one each or
/// two each. With one each the last would have none, and yet holds something. With two each the last would have one,
/// and that one would be the first or the second user's too, which cannot be. So it still takes four.
#[test]
fn four_users_with_two_permissions_for_the_last() {
    assert!(closed_book(&four_users("1,1,0,0")).starts_with("roles,bound,state\n4,4,searched\n\n"));
}

#[test]
fn known_changes() {
    agreement::worked_out_changes_agree::<Session>();
}

#[test]
fn small_sheets() {
    agreement::small_sheets_agree::<Session>(1_500);
}

#[test]
fn sheets_of_any_size() {
    agreement::changed_sheets_agree::<Session>(300, |random| families::any(random, 14));
}

/// A cell of the product: whether the user has some role that holds the permission.
fn opens(book: &BookDraft, user: usize, permission: usize) -> bool {
    (0..book.roles.len())
        .any(|role| book.users[user].contains(&role) && book.roles[role].contains(&permission))
}

fn assert_product_is(book: &BookDraft, draft: &Draft) {
    for user in 0..draft.users.len() {
        for permission in 0..draft.permissions.len() {
            let expected = draft.held[user][permission];
            assert_eq!(opens(book, user, permission), expected, "{user} {permission} {draft:?} {book:?}");
        }
    }
}

/// Why it is so: a role set of the one sheet becomes one of the other by one role more. The role sets are those of
/// sessions, and others with roles that hold nothing, that nobody has, or that are there twice.
#[test]
fn role_sets_become_those_of_the_changed_sheet_by_one_role_more() {
    let mut seen = Tally::default();
    cases(2_000, |random| {
        let draft = families::any(random, 8);
        let (change, new) = one_change::any(random, draft);
        for change in [change.clone(), change.taken_back()] {
            let given = spelled_as_in_the_sheet(&change.before, &newcomers::any_book(random, &change.before));
            let given = BookDraft::made_out(&change.before, &String::from_utf8_lossy(&given));
            assert_product_is(&given, &change.before);
            let longer = change.with_one_role_more(&given);
            assert_product_is(&longer, &change.after);
            assert_eq!(longer.roles.len(), given.roles.len() + 1);
        }
        seen.note((change.changed.is_line(), new));
    });
    for is_line in [true, false] {
        seen.expect(one_change::NewCells::ALL.map(|new| (is_line, new)), 50);
    }
}
