//! The static library of the proved implementation. The functions have the names that its source, the crate
//! `porvuund`, gives them, and the structs have the fields of its structs in their order. Of all that only the sizes
//! can be checked here, and they are, before the first session is made.

use std::mem::{MaybeUninit, swap};
use std::sync::OnceLock;

use second::checker::CheckAnswer;
use second::implementation::Implementation;
use second::refusal::Refusal;
use second::roles::State;
use second::session::{LoadAnswer, ReduceAnswer, SearchAnswer};

mod session;

use session::Session;
pub use session::{SESSION_BYTES, wrong_size};

#[repr(C)]
#[derive(Clone, Copy)]
struct LoadNumbers {
    number: usize,
    users: usize,
    permissions: usize,
    grants: usize,
}

#[repr(C)]
#[derive(Clone, Copy)]
struct Loaded {
    session: Session,
    answer: LoadNumbers,
}

#[repr(C)]
#[derive(Clone, Copy)]
struct ReduceNumbers {
    number: usize,
    kernel: usize,
    witness: usize,
}

#[repr(C)]
#[derive(Clone, Copy)]
struct Reduced {
    session: Session,
    answer: ReduceNumbers,
}

#[repr(C)]
#[derive(Clone, Copy)]
struct SearchNumbers {
    number: usize,
    steps: u32,
    placed: u32,
    taken_back: u32,
    closed: u32,
    /// 1 witnessed, 2 searched, 3 open; 0 with a refusal.
    state: u32,
    roles: usize,
    bound: usize,
}

#[repr(C)]
#[derive(Clone, Copy)]
struct Searched {
    session: Session,
    answer: SearchNumbers,
}

#[repr(C)]
struct WriteNumbers {
    number: usize,
    count: usize,
}

#[repr(C)]
struct CheckNumbers {
    number: usize,
    roles: usize,
    witness_lines: usize,
}

// The first four are declared as they are called on x86-64, with the place for what they hand back as their first
// argument: a session then stays where it was written. They are declared once more where the sizes are asked for.
#[allow(clashing_extern_declarations)]
unsafe extern "C" {
    fn porvuund_fresh(place: *mut Handed) -> *mut Handed;
    fn porvuund_load(
        place: *mut Handed,
        session: Session,
        sheet: *const u8,
        sheet_length: usize,
    ) -> *mut Handed;
    fn porvuund_reduce(place: *mut Handed, session: Session) -> *mut Handed;
    fn porvuund_search(place: *mut Handed, session: Session, budget: u32) -> *mut Handed;
    fn porvuund_write(session: Session, out: *mut u8, out_length: usize) -> WriteNumbers;
    fn porvuund_check(
        sheet: *const u8,
        sheet_length: usize,
        book: *const u8,
        book_length: usize,
    ) -> CheckNumbers;
    fn porvuund_book(
        sheet: *const u8,
        sheet_length: usize,
        budget: u32,
        out: *mut u8,
        out_length: usize,
    ) -> WriteNumbers;
    fn porvuund_newcomer(
        sheet: *const u8,
        sheet_length: usize,
        book: *const u8,
        book_length: usize,
        line: *const u8,
        line_length: usize,
        out: *mut u8,
        out_length: usize,
    ) -> WriteNumbers;
}

/// What a call hands back: a session, alone or with an answer behind it. It stands on a boundary of 128 bytes: how fast
/// one place is copied to another would else depend on the few bytes by which an answer is longer or shorter.
#[repr(C, align(128))]
#[derive(Clone, Copy)]
union Handed {
    session: Session,
    loaded: Loaded,
    reduced: Reduced,
    searched: Searched,
}

/// A session of the proved implementation. It is a value that goes into each call, and comes back from a load, a
/// reduction and a search; only the calls make one. A call writes to the other place than the one that its session is
/// at, and then the two change places.
#[derive(Clone)]
pub struct Library {
    at: Box<MaybeUninit<Handed>>,
    other: Box<MaybeUninit<Handed>>,
}

impl Implementation for Library {
    fn fresh() -> Library {
        static WRONG_SIZE: OnceLock<Option<String>> = OnceLock::new();
        if let Some(change) = WRONG_SIZE.get_or_init(wrong_size) {
            panic!("{change}");
        }
        let mut at = Box::new(MaybeUninit::uninit());
        // SAFETY: a session has the size declared, and the function asks nothing of its caller but a place for one.
        unsafe { porvuund_fresh(at.as_mut_ptr()) };
        Library { at, other: Box::new(MaybeUninit::uninit()) }
    }

    fn load(&mut self, sheet: &[u8]) -> Result<LoadAnswer, Refusal> {
        // SAFETY: the session comes from a call, the pointer is that of a slice of that length, and the place is
        // another than the session's.
        let answer = unsafe {
            porvuund_load(
                self.other.as_mut_ptr(),
                self.at.assume_init_ref().session,
                sheet.as_ptr(),
                sheet.len(),
            );
            swap(&mut self.at, &mut self.other);
            self.at.assume_init_ref().loaded.answer
        };
        let LoadNumbers { number, users, permissions, grants } = answer;
        result(number, &[users, permissions, grants], LoadAnswer { users, permissions, grants })
    }

    fn reduce(&mut self) -> Result<ReduceAnswer, Refusal> {
        // SAFETY: the session comes from a call, and the place is another than the session's.
        let answer = unsafe {
            porvuund_reduce(self.other.as_mut_ptr(), self.at.assume_init_ref().session);
            swap(&mut self.at, &mut self.other);
            self.at.assume_init_ref().reduced.answer
        };
        let ReduceNumbers { number, kernel, witness } = answer;
        result(number, &[kernel, witness], ReduceAnswer { kernel, witness })
    }

    fn search(&mut self, budget: u32) -> Result<SearchAnswer, Refusal> {
        // SAFETY: the session comes from a call, and the place is another than the session's.
        let answer = unsafe {
            porvuund_search(self.other.as_mut_ptr(), self.at.assume_init_ref().session, budget);
            swap(&mut self.at, &mut self.other);
            self.at.assume_init_ref().searched.answer
        };
        let SearchNumbers { number, steps, placed, taken_back, closed, state, roles, bound } = answer;
        let found = |state| SearchAnswer { steps, placed, taken_back, closed, roles, bound, state };
        match state.checked_sub(1).map(|index| State::ALL[index as usize]) {
            Some(state) => {
                assert_eq!(number, 0, "a refused search names a state");
                Ok(found(state))
            }
            None => {
                assert_ne!(number, 0, "an accepted search names no state");
                let steps = [steps, placed, taken_back, closed].map(|count| count as usize);
                result(number, &[&steps[..], &[roles, bound]].concat(), found(State::Open))
            }
        }
    }

    fn write(&mut self, buffer: &mut [u8]) -> Result<usize, Refusal> {
        // SAFETY: the session comes from a call, and the pointer is that of a lent slice of that length.
        let written =
            unsafe { porvuund_write(self.at.assume_init_ref().session, buffer.as_mut_ptr(), buffer.len()) };
        let WriteNumbers { number, count } = written;
        result(number, &[count], count)
    }

    fn check(sheet: &[u8], book: &[u8]) -> Result<CheckAnswer, Refusal> {
        // SAFETY: the pointers are those of slices of those lengths.
        let checked = unsafe { porvuund_check(sheet.as_ptr(), sheet.len(), book.as_ptr(), book.len()) };
        let CheckNumbers { number, roles, witness_lines } = checked;
        result(number, &[roles, witness_lines], CheckAnswer { roles, witness_lines })
    }

    fn newcomer(sheet: &[u8], book: &[u8], line: &[u8], buffer: &mut [u8]) -> Result<usize, Refusal> {
        // SAFETY: the pointers are those of slices and of a lent slice of those lengths.
        let written = unsafe {
            porvuund_newcomer(
                sheet.as_ptr(),
                sheet.len(),
                book.as_ptr(),
                book.len(),
                line.as_ptr(),
                line.len(),
                buffer.as_mut_ptr(),
                buffer.len(),
            )
        };
        result(written.number, &[written.count], written.count)
    }
}

/// The book of a sheet, reduced and then searched once, written into a buffer by one call.
pub fn book(sheet: &[u8], budget: u32, buffer: &mut [u8]) -> Result<usize, Refusal> {
    // SAFETY: the pointers are those of a slice and of a lent slice of those lengths.
    let written =
        unsafe { porvuund_book(sheet.as_ptr(), sheet.len(), budget, buffer.as_mut_ptr(), buffer.len()) };
    result(written.number, &[written.count], written.count)
}

/// A result has the number 0. A refusal has a number of the papers', and counts 0.
fn result<Answer>(number: usize, counts: &[usize], answer: Answer) -> Result<Answer, Refusal> {
    if number == 0 {
        return Ok(answer);
    }
    assert!(counts.iter().all(|count| *count == 0), "the refusal {number} has counts {counts:?}");
    Err(Refusal::with_number(number).unwrap_or_else(|| panic!("no refusal has the number {number}")))
}

/// Bytes of stack for a call: sessions go by value, and a test's own thread has little room.
const STACK_BYTES: usize = 64 << 20;

/// Runs a trial of the library with enough room.
pub fn with_room(trial: impl FnOnce() + Send + 'static) {
    let thread = std::thread::Builder::new().stack_size(STACK_BYTES).spawn(trial);
    if let Err(panic) = thread.expect("a thread can be started").join() {
        std::panic::resume_unwind(panic);
    }
}
