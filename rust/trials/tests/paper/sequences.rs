//! Sequences of calls: the claim about all of them, checked call by call with what is known from the calls
//! alone.

use second::checker::check;
use second::newcomer::newcomer;
use second::refusal::Refusal;
use second::roles::State;
use second::script::{Call, answer_line, digest, lent_buffer};
use second::session::{SearchAnswer, Session};
use second::sheet::Sheet;
use trials::brute;
use trials::calls::sequence;
use trials::cases::cases;
use trials::draft::Draft;
use trials::restated::history::{Known, known, last_steps, number};
use trials::restated::whole::Prepared;
use trials::steps::{Counts, NO_STEPS, counts, judged_search, sum};
use trials::tally::Tally;

use crate::support::{loaded, reduced, session_with};

/// How often each call ended with each number.
type Seen = Tally<(&'static str, u32)>;

/// The numbers that have to come up for the trial to mean something.
const OUTCOMES: &[(&str, &[u32])] = &[
    ("load", &[0, 1, 2, 3, 5, 6, 7, 8]),
    ("reduce", &[0, 10]),
    ("search", &[0, 10, 16]),
    ("write", &[0, 10, 11, 16]),
    ("check", &[0, 12, 13, 14, 15]),
    ("newcomer", &[0, 2, 6, 11, 12, 17]),
];

/// A session and the calls made on it. What it has to answer is found from the calls, never from the session.
#[derive(Default)]
struct Trial {
    session: Session,
    calls: Vec<Call>,
    /// The counts answered since the last accepted load, together.
    made: Counts,
    /// The answer of the last call, if it was an accepted search.
    searched: Option<SearchAnswer>,
    /// The last accepted sheet and its smallest number of roles, where that can be found.
    small: Option<(Draft, usize)>,
}

impl Trial {
    fn make(&mut self, call: &Call, seen: &mut Seen) {
        let before = self.session.clone();
        let may_change = self.may_change(call);
        let expected = number(&self.calls, call);
        self.calls.push(call.clone());
        let (name, refusal) = self.answer(call);
        if refusal.is_some() || !may_change {
            assert_eq!(self.session, before, "{call:?}");
        }
        let refusal = refusal.map(Refusal::number);
        let is_judged_elsewhere = match call {
            Call::Check { .. } => true,
            Call::Write(_) => expected.is_none() && refusal == Some(11),
            Call::Load(_) | Call::Reduce | Call::Search(_) | Call::Newcomer { .. } => false,
        };
        assert!(is_judged_elsewhere || refusal == expected, "{call:?} {refusal:?} {expected:?}");
        seen.note((name, refusal.unwrap_or(0)));
    }

    /// Whether the call, if it is accepted, may leave another session.
    fn may_change(&self, call: &Call) -> bool {
        match call {
            Call::Load(_) | Call::Search(_) => true,
            Call::Reduce => !is_reduced(&self.calls),
            Call::Write(_) | Call::Check { .. } | Call::Newcomer { .. } => false,
        }
    }

    /// The call's name and its refusal, if it is refused.
    fn answer(&mut self, call: &Call) -> (&'static str, Option<Refusal>) {
        match call {
            Call::Load(sheet) => ("load", self.load(sheet)),
            Call::Reduce => ("reduce", self.reduce()),
            Call::Search(budget) => ("search", self.search(*budget)),
            Call::Write(length) => ("write", self.write(*length)),
            Call::Check { sheet, book } => ("check", check(sheet, book).err()),
            Call::Newcomer { sheet, book, line, length } => {
                ("newcomer", newcomer(sheet, book, line, &mut lent_buffer(*length)).err())
            }
        }
    }

    fn load(&mut self, sheet: &[u8]) -> Option<Refusal> {
        let refusal = self.session.load(sheet).err();
        if refusal.is_none() {
            self.made = NO_STEPS;
            self.small = small(sheet);
            assert_eq!(self.session, loaded(sheet));
        }
        refusal
    }

    fn reduce(&mut self) -> Option<Refusal> {
        let answer = self.session.reduce();
        if let Some(known) = known(&self.calls) {
            assert_eq!(answer, loaded(known.sheet).reduce());
            self.judge_session(&known);
        }
        answer.err()
    }

    fn search(&mut self, budget: u32) -> Option<Refusal> {
        let answer = judged_search(&mut self.session, budget);
        self.searched = answer.ok();
        if let Ok(answer) = answer {
            self.made = sum([self.made, counts(&answer)]);
            self.judge_steps(&answer);
            let known = known(&self.calls).expect("a sheet was accepted");
            let whole = self.judge_session(&known);
            assert_eq!((whole.roles, whole.bound, whole.state), (answer.roles, answer.bound, answer.state));
            let unfinished = known.budgets == Some(u64::from(self.made[0]));
            assert!(unfinished || answer.state != State::Open);
            self.judge_counts(answer.roles, answer.bound, answer.state.word());
        }
        answer.err()
    }

    fn write(&mut self, length: usize) -> Option<Refusal> {
        let before = lent_buffer(length);
        let mut buffer = before.clone();
        let written = self.session.write(&mut buffer);
        let count = written.unwrap_or(0);
        assert_eq!(buffer[count..], before[count..]);
        if written.is_ok() {
            self.judge_book(&buffer[..count]);
        } else if written == Err(Refusal::BufferLength) {
            assert!(length < reduced(&self.session).book_bytes().len());
        }
        written.err()
    }

    /// The counts are those of the restated search over the steps that are this search's by the calls alone.
    fn judge_steps(&self, answer: &SearchAnswer) {
        if let Some((draft, _)) = &self.small {
            let numbers = last_steps(&self.calls).expect("the search is accepted");
            let expected = Prepared::of(draft).search(numbers.end).counts(numbers);
            assert_eq!(counts(answer), expected, "{draft:?}");
        }
    }

    /// One search from the first reduction after the load with the sum of the budgets leaves the same session, and the
    /// counts add up to its counts.
    fn judge_session(&self, known: &Known<'_>) -> SearchAnswer {
        let mut in_one = session_with(known.sheet);
        let budgets = known.budgets.expect("the sheet is reduced");
        let whole = in_one.search(u32::try_from(budgets).unwrap_or(u32::MAX)).expect("the sheet is reduced");
        assert_eq!(in_one, self.session);
        assert_eq!(counts(&whole), self.made);
        whole
    }

    /// Against every role set: the bound is never above the smallest, and the roles are the smallest unless the state
    /// is open.
    fn judge_counts(&self, roles: usize, bound: usize, state: &str) {
        if let Some((_, smallest)) = self.small {
            assert!(bound <= smallest && smallest <= roles, "{bound} {smallest} {roles}");
            assert!(state == "open" || (bound, roles) == (smallest, smallest), "{bound} {smallest} {roles}");
        }
    }

    /// A book brought out is accepted for the sheet of the last accepted load, which says that its product is that
    /// sheet.
    fn judge_book(&self, book: &[u8]) {
        let known = known(&self.calls).expect("a sheet was accepted");
        let answer = check(known.sheet, book).expect("a written book is accepted");
        let text = String::from_utf8_lossy(book);
        let counts: Vec<&str> = text.lines().nth(1).unwrap_or("").split(',').collect();
        let bound = counts[1].parse().expect("the bound is a number");
        assert_eq!(counts[0], answer.roles.to_string());
        self.judge_counts(answer.roles, bound, counts[2]);
    }
}

/// Whether these calls leave a reduced sheet.
fn is_reduced(calls: &[Call]) -> bool {
    known(calls).is_some_and(|known| known.budgets.is_some())
}

/// An acceptable sheet under plain names, and the smallest number of roles for it, where that can be found from the
/// matrices.
fn small(sheet: &[u8]) -> Option<(Draft, usize)> {
    let sheet = Sheet::read(sheet).expect("the sheet is acceptable");
    let row = |user| sheet.permissions().map(|permission| sheet.holds(user, permission)).collect();
    let held: Vec<Vec<bool>> = sheet.users().map(row).collect();
    let draft = Draft::plain(held.len(), held[0].len(), |user, permission| held[user][permission]);
    (held.len() <= 6 && held[0].len() <= 6).then(|| (draft, brute::smallest(&held)))
}

#[test]
fn the_claim_about_sequences_stands() {
    let mut seen = Seen::default();
    let mut gained = Tally::default();
    cases(1_500, |random| {
        let mut trial = Trial::default();
        for call in sequence(random, 30, 6) {
            trial.make(&call, &mut seen);
            if let Some(answer) = trial.searched.take() {
                gained.note((answer.closed, answer.depth_gained().signum()));
            }
        }
    });
    gained.expect([(0, -1), (0, 0), (0, 1), (1, -1), (1, 0)], 5);
    for (call, numbers) in OUTCOMES {
        seen.expect(numbers.iter().map(|number| (*call, *number)), 5);
    }
}

/// The answers to the calls on one session, without those calls that are left out.
fn lines(calls: &[Call], is_left_out: impl Fn(usize) -> bool) -> Vec<String> {
    let mut session = Session::fresh();
    let kept = calls.iter().enumerate().filter(|(index, _)| !is_left_out(*index));
    kept.map(|(_, call)| answer_line(&mut session, call)).collect()
}

/// Leaving these calls out gives the same answers to the rest. Gives how many were left out.
fn assert_left_out(calls: &[Call], is_left_out: impl Fn(usize) -> bool) -> usize {
    let all = lines(calls, |_| false).into_iter().enumerate();
    let rest: Vec<String> = all.filter(|(index, _)| !is_left_out(*index)).map(|(_, line)| line).collect();
    assert_eq!(lines(calls, &is_left_out), rest);
    calls.len() - rest.len()
}

/// A check between two calls changes nothing.
#[test]
fn checks_can_be_left_out() {
    let mut left_out = 0;
    cases(100, |random| {
        let calls = sequence(random, 25, 6);
        left_out += assert_left_out(&calls, |index| matches!(calls[index], Call::Check { .. }));
    });
    assert!(left_out > 50, "only {left_out} checks");
}

/// A newcomer between two calls changes nothing: it has no session.
#[test]
fn newcomers_can_be_left_out() {
    let mut left_out = 0;
    cases(100, |random| {
        let calls = sequence(random, 25, 6);
        left_out += assert_left_out(&calls, |index| matches!(calls[index], Call::Newcomer { .. }));
    });
    assert!(left_out > 50, "only {left_out} newcomers");
}

/// A reduction changes nothing if there was one since the last accepted load.
#[test]
fn reductions_after_the_first_can_be_left_out() {
    let mut left_out = 0;
    cases(200, |random| {
        let calls = sequence(random, 25, 6);
        left_out +=
            assert_left_out(&calls, |index| calls[index] == Call::Reduce && is_reduced(&calls[..index]));
    });
    assert!(left_out > 50, "only {left_out} reductions");
}

/// A search that is refused counts for no budget.
#[test]
fn refused_searches_can_be_left_out() {
    let mut left_out = 0;
    cases(200, |random| {
        let calls = sequence(random, 25, 6);
        let is_refused = |index: usize| number(&calls[..index], &calls[index]).is_some();
        left_out +=
            assert_left_out(&calls, |index| matches!(calls[index], Call::Search(_)) && is_refused(index));
    });
    assert!(left_out > 50, "only {left_out} refused searches");
}

#[test]
fn answer_lines_are_as_agreed() {
    let mut session = Session::fresh();
    let sheet = Draft::plain(4, 4, |user, permission| user != permission).bytes();
    let mut line = |call| answer_line(&mut session, &call);
    let untouched = format!("{:08x}", digest(&lent_buffer(10)));
    assert_eq!(line(Call::Search(3)), "search 10 0 0 0 0 0 0 -");
    assert_eq!(line(Call::Write(10)), format!("write 10 0 {untouched}"));
    assert_eq!(line(Call::Load(b"user\n".to_vec())), "load 3 0 0 0");
    assert_eq!(line(Call::Reduce), "reduce 10 0 0");
    assert_eq!(line(Call::Load(sheet.clone())), "load 0 4 4 12");
    assert_eq!(line(Call::Search(3)), "search 16 0 0 0 0 0 0 -");
    assert_eq!(line(Call::Write(10)), format!("write 16 0 {untouched}"));
    assert_eq!(line(Call::Reduce), "reduce 0 12 3");
    assert_eq!(line(Call::Search(60)), "search 0 60 35 25 0 4 3 open");
    assert_eq!(line(Call::Reduce), "reduce 0 12 3");
    assert_eq!(line(Call::Search(60)), "search 0 60 26 34 0 4 3 open");
    assert_eq!(line(Call::Search(60)), "search 0 5 1 3 1 4 4 searched");
    assert_eq!(line(Call::Search(60)), "search 0 0 0 0 0 4 4 searched");
    assert_eq!(line(Call::Write(10)), format!("write 11 0 {untouched}"));
    let book = b"roles,bound,state\n".to_vec();
    assert_eq!(line(Call::Check { sheet, book }), "check 12 0 0");
    let sheet = b"user,p\nu,0\n".to_vec();
    let book = b"roles,bound,state\n0,0,witnessed\n\nrole,p\n\nuser\nu\n\nuser,permission\n".to_vec();
    assert_eq!(line(Call::Check { sheet: sheet.clone(), book: book.clone() }), "check 0 0 0");
    let admission = |name: &str| Call::Newcomer {
        sheet: sheet.clone(),
        book: book.clone(),
        line: format!("{name},0\n").into_bytes(),
        length: 10,
    };
    assert_eq!(line(admission("v")), format!("newcomer 11 0 {untouched}"));
    assert_eq!(line(admission("U")), format!("newcomer 17 0 {untouched}"));
}

#[test]
fn digest_is_adler_32() {
    assert_eq!(digest(b""), 1);
    assert_eq!(digest(b"Wikipedia"), 0x11e6_0398);
    assert_eq!(lent_buffer(10), [7, 38, 69, 100, 131, 162, 193, 224, 255, 30]);
}
