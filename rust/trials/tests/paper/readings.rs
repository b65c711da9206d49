//! The settled readings of document 01 that are easy to miss; those on the machine, the checker and the
//! programs are with their subject.

use second::book::role_name;
use second::cover;
use second::grants::{self, fits};
use second::roles::State;
use second::session::Session;
use second::sheet::Sheet;
use trials::draft::Draft;
use trials::extremes;
use trials::families::crown;
use trials::paper;
use trials::random::Random;
use trials::sessions::first_book;
use trials::steps::{NO_STEPS, search_answer};

use crate::support::{
    EXAMPLE, book, load_answer, load_number, numbers, reduce_answer, reduced, session_with,
};

#[test]
fn blank_lines_are_user_lines() {
    assert_eq!(load_number(b"user,a\n\n"), 5);
    assert_eq!(load_number(b"user,a\nu,1\n\n"), 5);
    assert_eq!(load_number(b"user,a\n\nu,1\n"), 5);
}

#[test]
fn empty_permission_name_alone_gives_4_for_want_of_users() {
    assert_eq!(load_number(b"user,\n"), 4);
    assert_eq!(load_number(b"user,\nu,1\n"), 5);
}

#[test]
fn lone_line_feed_gives_3() {
    assert_eq!(load_number(b"\n"), 3);
    assert_eq!(load_number(b"\nu,1\n"), 3);
}

#[test]
fn first_field_is_no_name() {
    assert_eq!(load_number(b"user,user\nuser,1\n"), 0);
    assert_eq!(load_number(b"users,p\nu,1\n"), 3);
    assert_eq!(load_number(b"User,p\nu,1\n"), 3);
}

#[test]
fn name_lengths_are_judged_on_lines_with_a_wrong_field_count_too() {
    assert_eq!(load_number(b"user,a,b\nabcdefghijklmnopq,1\n"), 5);
    assert_eq!(load_number(b"user,a,b\n,1\n"), 5);
    assert_eq!(load_number(b"user,a,b\nabcdefghijklmnop,1\n"), 6);
}

#[test]
fn sheet_of_65536_bytes_is_judged_by_its_other_rules() {
    assert_eq!(load_number(&extremes::of_bytes(65_536)), 5);
    assert_eq!(load_number(&extremes::of_bytes(65_537)), 1);
}

#[test]
fn longest_acceptable_sheet_has_65536_bytes() {
    let sheet = extremes::longest(&mut Random::from_seed(1)).bytes();
    assert_eq!(sheet.len(), paper::SHEET_BYTES);
    assert_eq!(load_number(&sheet), 0);
}

#[test]
fn every_grant_fits_itself() {
    let sheet = Sheet::read(&crown(4).bytes()).expect("the sheet is acceptable");
    assert_eq!(grants::all(&sheet).len(), 12);
    assert!(grants::all(&sheet).into_iter().all(|grant| fits(&sheet, grant, grant)));
}

/// Three grants in a row, where the outer two fit the middle one only. The first grant cannot go: the middle
/// one has a partner more. The middle one goes at once, so that the third one is single in the same sweep,
/// and the first one in the next.
#[test]
fn removal_takes_effect_in_the_same_sweep() {
    let draft = Draft::plain(2, 2, |user, permission| permission <= user);
    let session = session_with(&draft.bytes());
    let removals = &reduced(&session).reduction().removals;
    let removed: Vec<_> = removals.iter().map(|removal| removal.grant).collect();
    assert_eq!(numbers(&draft, &removed), [1, 2, 0]);
}

/// In that sheet both users hold the first permission, but the second role holds only the second one and has
/// only the second user: it is not widened.
#[test]
fn role_has_only_what_its_grants_have() {
    let session = session_with(b"user,p,q\nu,1,0\nv,1,1\n");
    assert_eq!(
        book(&session),
        "roles,bound,state\n2,2,witnessed\n\nrole,p,q\nR1,1,0\nR2,0,1\n\nuser,R1,R2\nu,1,0\nv,1,1\n\n\
         user,permission\nu,p\nv,q\n"
    );
}

/// The first and the third user hold `p`, the second one `q`. The first grant is tied to the third, so their
/// role comes before the role of the second grant, though the second is the lower one of the two singles.
#[test]
fn roles_are_numbered_by_the_lowest_grant_tied_ones_included() {
    let session = session_with(b"user,p,q\nu,1,0\nv,0,1\nw,1,0\n");
    assert_eq!(
        book(&session),
        "roles,bound,state\n2,2,witnessed\n\nrole,p,q\nR1,1,0\nR2,0,1\n\nuser,R1,R2\nu,1,0\nv,0,1\nw,1,0\n\n\
         user,permission\nv,q\nw,p\n"
    );
}

#[test]
fn without_roles_the_users_stand_without_commas() {
    let session = session_with(b"user,p,q\nann,0,0\nbo,0,0\n");
    assert!(book(&session).ends_with("\n\nrole,p,q\n\nuser\nann\nbo\n\nuser,permission\n"));
}

#[test]
fn first_grouping_can_have_more_than_255_classes() {
    let draft = extremes::with_grants(&mut Random::from_seed(1), 256, 64, 2_048);
    let session = session_with(&draft.bytes());
    let state = reduced(&session);
    let [by_fit, by_permission, by_user] = cover::groupings(state.sheet(), &state.reduction().kernel);
    assert!(by_fit.count > 255 && by_user.count > 255 && by_permission.count <= 64);
    assert_eq!(state.machine().best(), &by_permission);
}

#[test]
fn kernel_of_2048_grants_is_covered_and_written_but_not_searched() {
    for (users, permissions) in [(100, 64), (100, 96), (100, 128)] {
        let draft = extremes::with_grants(&mut Random::from_seed(1), users, permissions, 2_048);
        let mut session = Session::fresh();
        assert_eq!(session.load(&draft.bytes()), Ok(load_answer(users, permissions, 2_048)));
        let answer = session.reduce().expect("a sheet is loaded");
        assert_eq!(answer.kernel, 2_048);
        let before = session.clone();
        let roles = users.min(permissions);
        assert_eq!(session.search(u32::MAX), Ok(search_answer(NO_STEPS, roles, answer.witness, State::Open)));
        assert_eq!(session, before);
        let checked = second::checker::check(&draft.bytes(), &reduced(&session).book_bytes());
        assert_eq!(checked.map(|counts| counts.roles), Ok(roles));
    }
}

#[test]
fn refused_load_keeps_the_sheet_and_the_position() {
    let mut session = session_with(&crown(4).bytes());
    session.search(60).expect("the sheet is reduced");
    let before = session.clone();
    assert_eq!(session.load(b"user,p\nu,2\n").map_err(|refusal| refusal.number()), Err(7));
    assert_eq!(session, before);
    assert_eq!(session.search(100), Ok(search_answer([65, 27, 37, 1], 4, 4, State::Searched)));
}

#[test]
fn accepted_load_of_the_same_bytes_starts_anew() {
    let mut session = session_with(&crown(4).bytes());
    session.search(60).expect("the sheet is reduced");
    assert_eq!(session.load(&crown(4).bytes()), Ok(load_answer(4, 4, 12)));
    assert_eq!(session.reduce(), Ok(reduce_answer(12, 3)));
    assert_eq!(session.search(200), Ok(search_answer([125, 62, 62, 1], 4, 4, State::Searched)));
}

#[test]
fn writing_without_a_sheet_into_a_short_buffer_gives_10() {
    let mut buffer = [b'#'; 3];
    assert_eq!(Session::fresh().write(&mut buffer).map_err(|refusal| refusal.number()), Err(10));
    assert_eq!(buffer, [b'#'; 3]);
}

#[test]
fn search_without_a_sheet_gives_10() {
    let mut session = Session::fresh();
    assert_eq!(session.search(5).map_err(|refusal| refusal.number()), Err(10));
    assert_eq!(session, Session::fresh());
}

#[test]
fn buffer_one_byte_short_gives_11_and_stays() {
    let session = session_with(EXAMPLE.as_bytes());
    let needed = reduced(&session).book_bytes().len();
    let mut buffer = vec![b'#'; needed - 1];
    assert_eq!(session.write(&mut buffer).map_err(|refusal| refusal.number()), Err(11));
    assert!(buffer.iter().all(|byte| *byte == b'#'));
    let mut buffer = vec![b'#'; needed];
    assert_eq!(session.write(&mut buffer), Ok(needed));
}

/// The longest book for so many users and permissions, if there can be such a sheet: there are no more roles than
/// permissions, and no two witness lines have one user or one permission. Names of permissions stand in it twice, so
/// they take what names may have of the sheet's bytes before those of the users do.
fn longest_book(users: usize, permissions: usize) -> Option<usize> {
    let lines = users * (2 * permissions + 1);
    let name_bytes = paper::SHEET_BYTES.checked_sub("user\n".len() + permissions + lines)?;
    let permission_bytes = name_bytes.checked_sub(users)?.min(permissions * paper::NAME_BYTES);
    let user_bytes = (name_bytes - permission_bytes).min(users * paper::NAME_BYTES);
    let role_bytes: usize = (0..permissions).map(|role| role_name(role).len()).sum();
    let count = permissions.to_string();
    let counts = format!("roles,bound,state\n{count},{count},witnessed\n\n").len();
    let roles =
        "role\n\n".len() + permissions + permission_bytes + role_bytes + permissions * (2 * permissions + 1);
    let users_block = "user\n\n".len() + permissions + role_bytes + user_bytes + lines;
    let witness_users = user_bytes.min(users.min(permissions) * paper::NAME_BYTES);
    let witness = "user,permission\n".len() + 2 * permissions + witness_users + permission_bytes;
    (permission_bytes >= permissions).then_some(counts + roles + users_block + witness)
}

#[test]
fn every_book_is_within_the_length_that_the_checker_reads() {
    let sizes = (1..=paper::USERS).flat_map(|users| (1..=paper::PERMISSIONS).map(move |own| (users, own)));
    let longest = sizes.filter_map(|(users, permissions)| longest_book(users, permissions)).max();
    assert_eq!(longest, Some(103_780));
    let draft = extremes::with_longest_book();
    let book = first_book(&draft.bytes());
    assert_eq!((draft.bytes().len(), book.len()), (paper::SHEET_BYTES, 103_780));
    let checked = second::checker::check(&draft.bytes(), &book);
    assert_eq!(checked.map(|counts| (counts.roles, counts.witness_lines)), Ok((128, 128)));
}

/// The book program's buffer has 65,536 bytes, and there are longer books.
#[test]
fn book_longer_than_the_lent_buffer_gives_11() {
    for (bytes, expected) in [(65_536, Ok(65_536)), (65_537, Err(11))] {
        let session = session_with(&extremes::with_book_bytes(bytes).bytes());
        let mut buffer = vec![b'#'; paper::PROGRAM_BUFFER_BYTES];
        assert_eq!(session.write(&mut buffer).map_err(|refusal| refusal.number()), expected);
        assert_eq!(buffer.iter().all(|byte| *byte == b'#'), expected.is_err());
    }
}
