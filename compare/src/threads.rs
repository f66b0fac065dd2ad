//! Threads with little stack: a call must do with less.

use std::thread;

const STACK: usize = 512 * 1_024;

/// Does the work of each job on a thread of its own.
pub fn each_job<T: Send>(jobs: usize, work: impl Fn(usize) -> T + Sync) -> Vec<T> {
    let work = &work;
    thread::scope(|scope| {
        let start = |job| {
            let thread = thread::Builder::new().stack_size(STACK);
            thread.spawn_scoped(scope, move || work(job))
        };
        let threads: Result<Vec<_>, _> = (0..jobs).map(start).collect();
        let threads = threads.expect("threads").into_iter();
        let done = threads.map(|thread| thread.join().expect("a thread of the comparison"));
        done.collect()
    })
}
