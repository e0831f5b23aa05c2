//! Two ways of doing the same work, timed in turns, so that what else the machine does meets both.

/// How often both are timed.
pub const RUNS: usize = 15;
/// How many microseconds one side of a run takes at least, so that the clock's steps do not show.
const LEAST: f64 = 2000.0;

/// Counts while this thread runs and stands still while another has its core.
const CLOCK_THREAD_CPUTIME_ID: i32 = 3;

#[repr(C)]
struct Time {
    seconds: i64,
    nanoseconds: i64,
}

extern "C" {
    fn clock_gettime(clock: i32, time: *mut Time) -> i32;
}

/// Microseconds that this thread has run for.
fn now() -> f64 {
    let mut time = Time {
        seconds: 0,
        nanoseconds: 0,
    };
    // SAFETY: `time` has the layout that this platform's header declares.
    let status = unsafe { clock_gettime(CLOCK_THREAD_CPUTIME_ID, &mut time) };
    assert_eq!(status, 0, "this system has no clock for threads");
    time.seconds as f64 * 1e6 + time.nanoseconds as f64 / 1e3
}

/// Microseconds for one call on each side, and the first side's time as a multiple of the second's.
#[derive(Clone, Copy, Debug)]
pub struct Figure {
    pub first: f64,
    pub second: f64,
    pub ratio: f64,
    pub least_ratio: f64,
    pub most_ratio: f64,
}

/// Times both passes, each of which makes `calls` calls. All but the spread are medians over the runs.
pub fn in_turns(calls: usize, first: &mut dyn FnMut(), second: &mut dyn FnMut()) -> Figure {
    let first_repeats = repeats(first);
    let second_repeats = repeats(second);
    let mut times = [Vec::new(), Vec::new(), Vec::new()];
    for run in 0..RUNS {
        let mut pair = [0.0; 2];
        // Which side goes first alternates, so that neither always finds the caches as the other left them.
        for side in [run % 2, 1 - run % 2] {
            pair[side] = if side == 0 {
                time(first, first_repeats)
            } else {
                time(second, second_repeats)
            };
        }
        times[0].push(pair[0] / calls as f64);
        times[1].push(pair[1] / calls as f64);
        times[2].push(pair[0] / pair[1]);
    }
    for list in &mut times {
        list.sort_by(f64::total_cmp);
    }
    let median = |list: &Vec<f64>| list[RUNS / 2];
    Figure {
        first: median(&times[0]),
        second: median(&times[1]),
        ratio: median(&times[2]),
        least_ratio: times[2][0],
        most_ratio: times[2][RUNS - 1],
    }
}

/// How many passes fill the least time; finding that out also warms the caches.
fn repeats(pass: &mut dyn FnMut()) -> u32 {
    let mut repeats = 1;
    loop {
        if time(pass, repeats) * f64::from(repeats) >= LEAST {
            return repeats;
        }
        repeats *= 2;
    }
}

/// Microseconds for one pass.
fn time(pass: &mut dyn FnMut(), repeats: u32) -> f64 {
    let start = now();
    (0..repeats).for_each(|_| pass());
    (now() - start) / f64::from(repeats)
}
