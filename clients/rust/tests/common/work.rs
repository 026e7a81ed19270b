//! Work that all cores share.

use std::sync::atomic::{AtomicUsize, Ordering};
use std::thread;

/// What each job gives, in any order. Which core does a job makes no difference to it.
pub fn shared<T: Send>(jobs: usize, job: impl Fn(usize) -> T + Sync) -> Vec<T> {
    let next = AtomicUsize::new(0);
    let cores = thread::available_parallelism().map_or(1, |cores| cores.get());
    thread::scope(|scope| {
        let start = |_| scope.spawn(|| some(&next, jobs, &job));
        let workers: Vec<_> = (0..cores).map(start).collect();
        let done = workers.into_iter().map(|worker| worker.join());
        done.flat_map(|given| given.expect("each job is well"))
            .collect()
    })
}

/// What the jobs give that one core takes, one after the other.
fn some<T>(next: &AtomicUsize, jobs: usize, job: &impl Fn(usize) -> T) -> Vec<T> {
    let mut given = Vec::new();
    loop {
        let taken = next.fetch_add(1, Ordering::Relaxed);
        if taken >= jobs {
            return given;
        }
        given.push(job(taken));
    }
}
