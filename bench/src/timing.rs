//! Nanoseconds of processor time.

use std::hint::black_box;
use std::time::Duration;

const WARM_UP: Duration = Duration::from_millis(2);

/// How thoroughly to measure.
#[derive(Clone, Copy)]
pub struct Effort {
    pub rounds: usize,
    pub sample: Duration,
}

/// The median time of one run of each work, in nanoseconds. The works take turns
/// in each round, so that what disturbs the machine meets all of them.
pub fn medians<const N: usize>(effort: Effort, mut works: [&mut dyn FnMut(); N]) -> [f64; N] {
    let runs: [u32; N] = std::array::from_fn(|i| runs_in_sample(effort, works[i]));
    let mut times: [Vec<f64>; N] = std::array::from_fn(|_| Vec::new());
    for _ in 0..effort.rounds {
        for i in 0..N {
            let time = time(runs[i], works[i]);
            times[i].push(time.as_nanos() as f64 / f64::from(runs[i]));
        }
    }
    times.map(median)
}

fn time(runs: u32, work: &mut dyn FnMut()) -> Duration {
    let start = processor_time();
    for _ in 0..runs {
        black_box(&mut *work)();
    }
    processor_time() - start
}

/// Warms up, and finds how many runs take as long as a sample.
fn runs_in_sample(effort: Effort, work: &mut dyn FnMut()) -> u32 {
    let mut runs = 1;
    loop {
        let time = time(runs, work);
        if time >= WARM_UP {
            let sample = effort.sample.as_nanos() * u128::from(runs) / time.as_nanos();
            return sample.max(1) as u32;
        }
        runs *= 2;
    }
}

fn median(mut times: Vec<f64>) -> f64 {
    times.sort_by(f64::total_cmp);
    times[times.len() / 2]
}

#[repr(C)]
struct Timespec {
    seconds: i64,
    nanoseconds: i64,
}

extern "C" {
    fn clock_gettime(clock: i32, time: *mut Timespec) -> i32;
}

const CLOCK_THREAD_CPUTIME_ID: i32 = 3;

/// The processor time of this thread: other programs on the machine do not count.
fn processor_time() -> Duration {
    let mut time = Timespec {
        seconds: 0,
        nanoseconds: 0,
    };
    // SAFETY: the pointer is to a timespec of Linux on x86-64, as the library is.
    let status = unsafe { clock_gettime(CLOCK_THREAD_CPUTIME_ID, &mut time) };
    assert_eq!(status, 0);
    Duration::new(time.seconds as u64, time.nanoseconds as u32)
}
