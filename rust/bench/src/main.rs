//! Measures the proved library against the baseline in one run and prints the tables of docs/BENCHMARK.md.
//!
//! Both are given the same calls in turn, a round of the one and a round of the other, and the medians of the
//! rounds are compared. An argument says how many rounds there are.

mod clock;
mod sheets;
mod table;

use std::hint::black_box;

use baseline::session::Session;
use compare::library::{Library, SESSION_BYTES, with_room};
use second::implementation::Implementation;
use second::limits::BOOK_BYTES;
use second::session::{LoadAnswer, ReduceAnswer};
use trials::newcomers::Admission;
use trials::sessions::reduced;

use crate::clock::{Pair, measure};
use crate::sheets::{Sheet, has_own_role, searched_sheets, sheets};
use crate::table::{print_heading, print_row};

/// Rounds of each implementation unless an argument says otherwise.
const ROUNDS: usize = 15;

/// Steps of a search that is measured.
const STEPS: u32 = 1_000_000;

/// The unit of all calls but searches.
const MICROSECONDS: &str = "microseconds a call";

fn main() {
    let rounds =
        std::env::args().nth(1).map_or(ROUNDS, |text| text.parse().expect("the rounds are a number"));
    with_room(move || {
        println!("A session of the proved library has {SESSION_BYTES} bytes.\n");
        print_sizes();
        print_loads_and_reductions(rounds);
        print_calls("Write", rounds, |sheet| Pair {
            baseline: write::<Session>(sheet),
            library: write::<Library>(sheet),
        });
        print_calls("Check", rounds, |sheet| Pair {
            baseline: check::<Session>(sheet),
            library: check::<Library>(sheet),
        });
        print_newcomers(rounds);
        print_refused_calls(rounds);
        print_searches(rounds);
    });
}

/// What is measured: a call that can be made again and again.
type Call<'a> = Box<dyn FnMut() + 'a>;

fn load<Kind: Implementation + 'static>(sheet: &Sheet) -> Call<'_> {
    let mut session = Kind::fresh();
    Box::new(move || {
        black_box(session.load(black_box(&sheet.bytes)).expect("the sheet is acceptable"));
    })
}

/// A reduction needs a sheet that is not reduced, so it is made after a load.
fn load_and_reduce<Kind: Implementation + 'static>(sheet: &Sheet) -> Call<'_> {
    let mut session = Kind::fresh();
    Box::new(move || {
        black_box(session.load(black_box(&sheet.bytes)).expect("the sheet is acceptable"));
        black_box(session.reduce().expect("a sheet is loaded"));
    })
}

/// The buffer is as long as the longest book that is checked, and not cleared between the calls.
fn write<Kind: Implementation + 'static>(sheet: &Sheet) -> Call<'_> {
    let mut session: Kind = reduced(&sheet.bytes);
    let mut buffer = vec![0; BOOK_BYTES];
    Box::new(move || {
        black_box(session.write(black_box(&mut buffer)).expect("the buffer is long enough"));
    })
}

fn check<Kind: Implementation + 'static>(sheet: &Sheet) -> Call<'_> {
    let mut buffer = vec![0; BOOK_BYTES];
    let length = reduced::<Kind>(&sheet.bytes).write(&mut buffer).expect("the buffer is long enough");
    buffer.truncate(length);
    Box::new(move || {
        black_box(Kind::check(black_box(&sheet.checked), black_box(&buffer)).expect("the book is right"));
    })
}

/// The buffer is that of a writing.
fn newcomer<Kind: Implementation + 'static>(admission: &Admission) -> Call<'_> {
    let mut buffer = vec![0; BOOK_BYTES];
    Box::new(move || {
        let Admission { sheet, book, line } = black_box(admission);
        let written = Kind::newcomer(sheet, book, line, black_box(&mut buffer));
        black_box(written.expect("the newcomer is accepted"));
    })
}

/// Steps of a search from the reduction on, which is not measured.
fn search<Kind: Implementation + Clone + 'static>(sheet: &Sheet) -> Call<'_> {
    let session: Kind = reduced(&sheet.bytes);
    Box::new(move || {
        black_box(session.clone().search(STEPS).expect("the sheet is reduced"));
    })
}

fn print_sizes() {
    println!("| Sheet | Users | Permissions | Grants | k | w | Bytes |");
    println!("|---|---:|---:|---:|---:|---:|---:|");
    for sheet in sheets().iter().chain(&searched_sheets(STEPS)) {
        let mut session = Session::fresh();
        let LoadAnswer { users, permissions, grants } =
            session.load(&sheet.bytes).expect("the sheet is acceptable");
        let ReduceAnswer { kernel, witness } = session.reduce().expect("a sheet is loaded");
        let bytes = sheet.bytes.len();
        println!("| {} | {users} | {permissions} | {grants} | {kernel} | {witness} | {bytes} |", sheet.name);
    }
}

/// What a reduction takes is what a load and a reduction in a row take, less the load.
fn print_loads_and_reductions(rounds: usize) {
    let sheets = sheets();
    let measured = |calls: fn(&Sheet) -> Pair<Call<'_>>| {
        sheets.iter().map(|sheet| measure(rounds, calls(sheet))).collect::<Vec<_>>()
    };
    let loads = measured(|sheet| Pair { baseline: load::<Session>(sheet), library: load::<Library>(sheet) });
    let both = measured(|sheet| Pair {
        baseline: load_and_reduce::<Session>(sheet),
        library: load_and_reduce::<Library>(sheet),
    });
    let reductions = both.iter().zip(&loads).map(|(both, load)| both.less(*load)).collect::<Vec<_>>();
    for (title, times) in [("Load", loads), ("Reduction", reductions)] {
        print_heading(title, MICROSECONDS);
        for (sheet, nanoseconds) in sheets.iter().zip(times) {
            print_row(&sheet.name, nanoseconds.map(|time| time / 1_000.0));
        }
    }
}

fn print_calls<'a>(title: &str, rounds: usize, calls: impl Fn(&Sheet) -> Pair<Call<'_>> + 'a) {
    print_heading(title, MICROSECONDS);
    for sheet in sheets() {
        let nanoseconds = measure(rounds, calls(&sheet));
        print_row(&sheet.name, nanoseconds.map(|time| time / 1_000.0));
    }
}

/// Newcomers in the books of the sheets, each less as many users as it takes to make room.
fn print_newcomers(rounds: usize) {
    print_heading("Newcomer", MICROSECONDS);
    for sheet in sheets() {
        let admission = sheet.admission();
        let calls =
            Pair { baseline: newcomer::<Session>(&admission), library: newcomer::<Library>(&admission) };
        let nanoseconds = measure(rounds, calls);
        let name = sheet.name + if has_own_role(&admission) { ", a role more" } else { "" };
        print_row(&name, nanoseconds.map(|time| time / 1_000.0));
    }
}

/// Calls without a sheet, which are refused: all that a search does is to take the session and hand it back,
/// and all that a writing does is to take it.
fn print_refused_calls(rounds: usize) {
    fn search<Kind: Implementation + 'static>() -> Call<'static> {
        let mut session = Kind::fresh();
        Box::new(move || {
            black_box(session.search(black_box(0)).expect_err("there is no sheet"));
        })
    }
    fn write<Kind: Implementation + 'static>() -> Call<'static> {
        let mut session = Kind::fresh();
        let mut buffer = vec![0; BOOK_BYTES];
        Box::new(move || {
            black_box(session.write(black_box(&mut buffer)).expect_err("there is no sheet"));
        })
    }
    print_heading("Refused calls", MICROSECONDS);
    let searches = Pair { baseline: search::<Session>(), library: search::<Library>() };
    print_row("search", measure(rounds, searches).map(|time| time / 1_000.0));
    let writings = Pair { baseline: write::<Session>(), library: write::<Library>() };
    print_row("write", measure(rounds, writings).map(|time| time / 1_000.0));
}

fn print_searches(rounds: usize) {
    print_heading("Search", "nanoseconds a step");
    for sheet in searched_sheets(STEPS) {
        let found = reduced::<Session>(&sheet.bytes).search(STEPS);
        assert_eq!(reduced::<Library>(&sheet.bytes).search(STEPS), found, "{}", sheet.name);
        let steps = found.expect("the sheet is reduced").steps;
        let calls = Pair { baseline: search::<Session>(&sheet), library: search::<Library>(&sheet) };
        let name = format!("{}, {steps} steps", sheet.name);
        print_row(&name, measure(rounds, calls).map(|time| time / f64::from(steps)));
    }
}
