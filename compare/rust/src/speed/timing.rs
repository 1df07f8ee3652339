//! The time of the port's function beside that of the Rust's.

/// How often both are timed.
const RUNS: usize = 1001;

/// What one timed run is to take of the Rust's time, in nanoseconds: well above the clock's own.
const RUN: f64 = 50_000.0;

/// Nanoseconds a call, the median of the runs; the quartiles of the runs' ratios, and the ratio of the fastest runs.
pub struct Times {
    pub port: f64,
    pub rust: f64,
    pub ratio: [f64; 3],
    pub fastest: f64,
}

/// Both in turn on the items of the same numbers. What each takes is made before its run and not counted; what the Rust returns is dropped in it.
pub fn in_turn<P, T>(
    lend: impl Fn(usize) -> P,
    mut port: impl FnMut(P),
    make: impl Fn(usize) -> T,
    mut rust: impl FnMut(T),
) -> Times {
    let calls = calls(&make, &mut rust);
    let mut times = vec![];
    for run in 0..RUNS {
        let items = || run * calls..(run + 1) * calls;
        let lent: Vec<P> = items().map(&lend).collect();
        let made: Vec<T> = items().map(&make).collect();
        // each is first every other time
        let pair = if run % 2 == 0 {
            let first = nanoseconds(calls, || lent.into_iter().for_each(&mut port));
            [first, nanoseconds(calls, || made.into_iter().for_each(&mut rust))]
        } else {
            let first = nanoseconds(calls, || made.into_iter().for_each(&mut rust));
            [nanoseconds(calls, || lent.into_iter().for_each(&mut port)), first]
        };
        times.push(pair);
    }
    let sorted = |of: fn(&[f64; 2]) -> f64| {
        let mut all: Vec<f64> = times.iter().map(of).collect();
        all.sort_by(f64::total_cmp);
        all
    };
    let port = sorted(|[port, _]| *port);
    let rust = sorted(|[_, rust]| *rust);
    let ratios = sorted(|[port, rust]| port / rust);
    Times {
        port: port[RUNS / 2],
        rust: rust[RUNS / 2],
        ratio: [ratios[RUNS / 4], ratios[RUNS / 2], ratios[3 * RUNS / 4]],
        fastest: port[0] / rust[0],
    }
}

/// How many calls of the Rust fill a run, by the last of some tries.
fn calls<T>(make: &impl Fn(usize) -> T, mut rust: impl FnMut(T)) -> usize {
    let (tries, calls) = (5, 64);
    let mut one = RUN;
    for _ in 0..tries {
        let made: Vec<T> = (0..calls).map(make).collect();
        one = nanoseconds(calls, || made.into_iter().for_each(&mut rust));
    }
    ((RUN / one) as usize).clamp(1, 1024)
}

/// The thread's own time, which stands still while other work has the processor.
fn nanoseconds(calls: usize, work: impl FnOnce()) -> f64 {
    let start = clock();
    work();
    (clock() - start) as f64 / calls as f64
}

/// C's `struct timespec` on 64-bit Linux.
#[repr(C)]
struct Timespec {
    seconds: i64,
    nanoseconds: i64,
}

unsafe extern "C" {
    fn clock_gettime(clock: i32, time: &mut Timespec) -> i32;
}

fn clock() -> i64 {
    const THREAD_CPUTIME: i32 = 3;
    let mut now = Timespec { seconds: 0, nanoseconds: 0 };
    assert_eq!(unsafe { clock_gettime(THREAD_CPUTIME, &mut now) }, 0);
    now.seconds * 1_000_000_000 + now.nanoseconds
}
