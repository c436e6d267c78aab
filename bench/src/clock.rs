//! The time that a call takes.
use std::hint::black_box;
use std::time::Instant;

/// A side that takes long is run no more once all sides together have taken so many seconds.
const ENOUGH: u64 = 3;

unsafe extern "C" {
    fn clock_gettime(clock: i32, time: *mut [i64; 2]) -> i32;
}

/// The time that this thread has had on a processor, in milliseconds: a loaded machine does not lengthen it much.
fn thread_time() -> f64 {
    const CLOCK_THREAD_CPUTIME_ID: i32 = 3;
    let mut time = [0; 2];
    // SAFETY: two numbers are written, to `time`, which is ours.
    let status = unsafe { clock_gettime(CLOCK_THREAD_CPUTIME_ID, &mut time) };
    assert_eq!(status, 0);
    time[0] as f64 * 1e3 + time[1] as f64 / 1e6
}

/// Rounds in which each side has its turn; after some seconds no further one is begun.
pub fn rounds(most: usize) -> impl Iterator<Item = usize> {
    let start = Instant::now();
    (0..most).take_while(move |round| *round == 0 || start.elapsed().as_secs() < ENOUGH)
}

/// Runs a side once, and lowers its least time, in milliseconds, where it took less.
pub fn lower<T>(least: &mut f64, run: impl FnOnce() -> T) {
    let from = thread_time();
    black_box(run());
    *least = least.min(thread_time() - from);
}

/// The least times of two sides that run in turn, in milliseconds.
pub fn least_of_two<S, T>(
    most: usize,
    mut ours: impl FnMut() -> S,
    mut theirs: impl FnMut() -> T,
) -> [f64; 2] {
    let mut least = [f64::INFINITY; 2];
    for _ in rounds(most) {
        lower(&mut least[0], &mut ours);
        lower(&mut least[1], &mut theirs);
    }
    least
}
