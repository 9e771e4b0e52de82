//! Times of several sides that do the same, in one process.
use std::hint::black_box;

/// One side: it does all of the work once, and returns a sum of its results.
pub type Work<'a> = Box<dyn FnMut() -> u64 + 'a>;

pub const ROUNDS: usize = 9;

/// The best time of each side in seconds. The sides take turns, so that what slows the machine down for a while falls on all of
/// them; in each round their sums must be equal.
pub fn best_times(sides: &mut [Work]) -> Vec<f64> {
    let mut best = vec![f64::INFINITY; sides.len()];
    for _ in 0..ROUNDS {
        let mut sums = Vec::new();
        for (side, best) in sides.iter_mut().zip(&mut best) {
            let start = seconds_used();
            sums.push(side());
            *best = best.min(seconds_used() - start);
        }
        assert!(
            sums.iter().all(|sum| *sum == sums[0]),
            "the sides' results differ: {sums:?}"
        );
    }
    best
}

/// The processor time that this thread has used: what other programs use meanwhile does not count. The standard library has no
/// such clock, but it is in the C library that a Rust program on Linux is linked with.
fn seconds_used() -> f64 {
    #[repr(C)]
    struct Time {
        seconds: i64,
        nanoseconds: i64,
    }
    unsafe extern "C" {
        fn clock_gettime(clock: i32, time: *mut Time) -> i32;
    }
    const CLOCK_THREAD_CPUTIME_ID: i32 = 3;
    let mut time = Time {
        seconds: 0,
        nanoseconds: 0,
    };
    // SAFETY: on x86-64 Linux, for which alone there is an archive, this is the function's type and the clock's number.
    let answer = unsafe { clock_gettime(CLOCK_THREAD_CPUTIME_ID, &mut time) };
    assert_eq!(answer, 0, "no clock for the time of a thread");
    time.seconds as f64 + time.nanoseconds as f64 / 1e9
}

/// The call's results summed up, over all inputs, `times` times. The compiler knows nothing of an input.
#[inline]
pub fn sum_over<T: AsRef<[u8]>>(
    inputs: &[T],
    times: usize,
    mut call: impl FnMut(&[u8]) -> u64,
) -> u64 {
    let mut sum = 0_u64;
    for _ in 0..times {
        for input in inputs {
            sum = sum.wrapping_add(call(black_box(input.as_ref())));
        }
    }
    sum
}

/// A number that depends on the bytes' length and ends, for sums. All of the bytes must have been made: the compiler does not
/// know which are looked at.
#[inline]
pub fn weight(bytes: &[u8]) -> u64 {
    match black_box(bytes) {
        [first, .., last] => {
            bytes.len() as u64 * 65_537 + u64::from(*first) * 257 + u64::from(*last)
        }
        few => few.len() as u64,
    }
}
