//! The session as it is passed: so many bytes, at which Rust does not look. How many they are the library is asked
//! before the first session is made, and a number that is not its own stops everything with what to write instead.

use std::mem::MaybeUninit;

use super::{Loaded, Reduced, Searched};

/// The bytes of a session. No other place says how many they are.
pub const SESSION_BYTES: usize = 98_696;

const WORD_BYTES: usize = size_of::<u64>();

#[repr(C)]
#[derive(Clone, Copy)]
pub struct Session([MaybeUninit<u64>; SESSION_BYTES / WORD_BYTES]);

/// Words of a place in which any session has room.
const ROOM_WORDS: usize = 1 << 15;

/// A session in more room than it needs: the library reads as many bytes of it as its own session has.
#[repr(C)]
#[derive(Clone, Copy)]
struct Roomy([u64; ROOM_WORDS]);

/// The calls as they are made on x86-64, with the place for what they hand back as their first argument: so the
/// caller sees which bytes of that place the library writes.
mod into_place {
    use super::Roomy;

    unsafe extern "C" {
        #[link_name = "porvuund_fresh"]
        pub fn fresh(place: *mut Roomy) -> *mut Roomy;
        #[link_name = "porvuund_load"]
        pub fn load(place: *mut Roomy, session: Roomy, sheet: *const u8, sheet_length: usize) -> *mut Roomy;
        #[link_name = "porvuund_reduce"]
        pub fn reduce(place: *mut Roomy, session: Roomy) -> *mut Roomy;
        #[link_name = "porvuund_search"]
        pub fn search(place: *mut Roomy, session: Roomy, budget: u32) -> *mut Roomy;
    }
}

/// The bytes that a call writes at its place, whatever stood there before, in whole words.
fn written(call: impl Fn(&mut Roomy)) -> usize {
    let last_after = |fill: u8| {
        let mut place = Box::new(Roomy([u64::from_ne_bytes([fill; WORD_BYTES]); ROOM_WORDS]));
        call(&mut place);
        let bytes = place.0.iter().flat_map(|word| word.to_ne_bytes()).collect::<Vec<u8>>();
        bytes.iter().rposition(|byte| *byte != fill).map_or(0, |last| last + 1)
    };
    last_after(0x5a).max(last_after(0xa5)).next_multiple_of(WORD_BYTES)
}

fn fresh() -> Box<Roomy> {
    let mut session = Box::new(Roomy([0; ROOM_WORDS]));
    // SAFETY: the place is aligned for a session and has room for one.
    unsafe { into_place::fresh(&mut *session) };
    session
}

/// What has to be changed where a struct that Rust declares has another size than the library gives it.
pub fn wrong_size() -> Option<String> {
    // SAFETY: the places are aligned for what the calls hand back and have room for it, the session comes from a
    // call, and no byte of the sheet is read beyond its length 0.
    let (session, loaded, reduced, searched) = unsafe {
        (
            written(|place| _ = into_place::fresh(place)),
            written(|place| _ = into_place::load(place, *fresh(), [].as_ptr(), 0)),
            written(|place| _ = into_place::reduce(place, *fresh())),
            written(|place| _ = into_place::search(place, *fresh(), 0)),
        )
    };
    if session != SESSION_BYTES {
        return Some(format!(
            "a session of the library has {session} bytes and here it has {SESSION_BYTES}: \
             set SESSION_BYTES to {session} in rust/compare/src/library/session.rs"
        ));
    }
    let answers = [
        ("Loaded", size_of::<Loaded>(), loaded),
        ("Reduced", size_of::<Reduced>(), reduced),
        ("Searched", size_of::<Searched>(), searched),
    ];
    answers.into_iter().find(|(_, declared, given)| declared != given).map(|(name, declared, given)| {
        format!(
            "the library hands back {given} bytes as {name} and here it has {declared}: \
             give the answer in it the library's fields in rust/compare/src/library.rs"
        )
    })
}
