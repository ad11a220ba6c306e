//! Times of calls, as medians of several runs. The time is that of this thread on the processor, so that other work on the
//! machine disturbs it less than it would a wall clock.

use std::ffi::{c_int, c_long};
use std::time::Duration;

#[repr(C)]
struct Timespec {
    seconds: c_long,
    nanoseconds: c_long,
}

const THREAD_CPUTIME: c_int = 3;

unsafe extern "C" {
    fn clock_gettime(clock: c_int, time: *mut Timespec) -> c_int;
}

fn now() -> Duration {
    let mut time = Timespec {
        seconds: 0,
        nanoseconds: 0,
    };
    // SAFETY: the pointer is to a `timespec` of this system's layout.
    unsafe { clock_gettime(THREAD_CPUTIME, &mut time) };
    Duration::new(time.seconds as u64, time.nanoseconds as u32)
}

/// The shortest run that is timed, and how many there are.
const RUN: Duration = Duration::from_millis(4);
const RUNS: usize = 15;

/// How often a call must be made to fill a run.
fn repeats(call: &mut dyn FnMut()) -> u32 {
    let mut repeats = 1;
    loop {
        let spent = timed(call, repeats);
        if spent >= RUN {
            return repeats;
        }
        let wanted = RUN.as_nanos() * u128::from(repeats) / spent.as_nanos().max(1000) + 1;
        repeats = (wanted as u32).max(repeats + 1);
    }
}

fn timed(call: &mut dyn FnMut(), repeats: u32) -> Duration {
    let start = now();
    for _ in 0..repeats {
        call();
    }
    now() - start
}

/// The median times of the calls in microseconds. Their runs take turns, so that what disturbs one disturbs all.
pub fn medians<const N: usize>(mut calls: [&mut dyn FnMut(); N]) -> [f64; N] {
    let mut counts = [0; N];
    for (count, call) in counts.iter_mut().zip(&mut calls) {
        *count = repeats(call);
    }
    let mut times = [[0.0; RUNS]; N];
    for run in 0..RUNS {
        for i in 0..N {
            times[i][run] = timed(calls[i], counts[i]).as_secs_f64() * 1e6 / f64::from(counts[i]);
        }
    }
    times.map(|mut of_call| {
        of_call.sort_by(f64::total_cmp);
        of_call[RUNS / 2]
    })
}
