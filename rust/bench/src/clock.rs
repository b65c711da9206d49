//! Times of calls, made in rounds that take turns.

/// One of each implementation.
#[derive(Clone, Copy)]
pub struct Pair<Item> {
    pub baseline: Item,
    pub library: Item,
}

impl<Item> Pair<Item> {
    pub fn map<Other>(self, change: impl Fn(Item) -> Other) -> Pair<Other> {
        Pair { baseline: change(self.baseline), library: change(self.library) }
    }
}

impl Pair<f64> {
    /// What is left of these times without those.
    pub fn less(self, other: Pair<f64>) -> Pair<f64> {
        Pair { baseline: self.baseline - other.baseline, library: self.library - other.library }
    }
}

/// A round goes on for at least this many nanoseconds.
const ROUND: f64 = 10_000_000.0;

/// The median of nanoseconds a call over the rounds, which take turns.
pub fn measure(rounds: usize, calls: Pair<impl FnMut()>) -> Pair<f64> {
    let Pair { mut baseline, mut library } = calls;
    let repeats = Pair { baseline: repeats_of(&mut baseline), library: repeats_of(&mut library) };
    let mut times = Pair { baseline: Vec::new(), library: Vec::new() };
    for _ in 0..rounds {
        times.baseline.push(round(&mut baseline, repeats.baseline));
        times.library.push(round(&mut library, repeats.library));
    }
    times.map(median)
}

/// How many calls fill a round.
fn repeats_of(call: &mut impl FnMut()) -> u32 {
    let mut repeats = 1;
    while round(call, repeats) * f64::from(repeats) < ROUND {
        repeats *= 2;
    }
    repeats
}

/// Nanoseconds a call of a round.
fn round(call: &mut impl FnMut(), repeats: u32) -> f64 {
    let start = thread_nanoseconds();
    for _ in 0..repeats {
        call();
    }
    (thread_nanoseconds() - start) / f64::from(repeats)
}

fn median(mut times: Vec<f64>) -> f64 {
    times.sort_by(f64::total_cmp);
    times[times.len() / 2]
}

#[repr(C)]
struct TimeSpec {
    seconds: i64,
    nanoseconds: i64,
}

unsafe extern "C" {
    fn clock_gettime(clock: i32, time: *mut TimeSpec) -> i32;
}

/// Linux's clock of the time that this thread was given a processor: others that run at the same time do not
/// count.
const THREAD_CLOCK: i32 = 3;

fn thread_nanoseconds() -> f64 {
    let mut time = TimeSpec { seconds: 0, nanoseconds: 0 };
    // SAFETY: the function of the C library writes the one struct that it is given.
    let status = unsafe { clock_gettime(THREAD_CLOCK, &mut time) };
    assert_eq!(status, 0, "there is a clock for the thread");
    time.seconds as f64 * 1e9 + time.nanoseconds as f64
}

#[cfg(test)]
mod tests {
    use super::*;

    #[test]
    fn median_is_the_middle_time() {
        assert_eq!(median(vec![9.0, 1.0, 4.0]), 4.0);
        assert_eq!(median(vec![2.0]), 2.0);
    }

    #[test]
    fn times_are_taken_off_each_for_itself() {
        let left = Pair { baseline: 5.0, library: 9.0 }.less(Pair { baseline: 1.0, library: 6.0 });
        assert_eq!((left.baseline, left.library), (4.0, 3.0));
    }

    #[test]
    fn each_round_makes_every_call_and_the_rounds_take_turns() {
        let mut order = Vec::new();
        let shared = std::cell::RefCell::new(&mut order);
        let slow = |name: char| {
            let shared = &shared;
            move || {
                shared.borrow_mut().push(name);
                let start = thread_nanoseconds();
                while thread_nanoseconds() - start < ROUND {}
            }
        };
        let calls = Pair { baseline: Box::new(slow('b')) as Box<dyn FnMut()>, library: Box::new(slow('l')) };
        let times = measure(2, calls);
        assert!(times.baseline >= ROUND && times.library >= ROUND);
        assert_eq!(order, ['b', 'l', 'b', 'l', 'b', 'l']);
    }
}
