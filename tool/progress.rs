//! Long work says on standard error how far it is.

use std::sync::atomic::{AtomicUsize, Ordering};
use std::sync::mpsc::{channel, Receiver, RecvTimeoutError};
use std::thread;
use std::time::{Duration, Instant};

/// Work that takes less says nothing.
const BETWEEN_LINES: Duration = Duration::from_secs(2);

/// Does the work, with a line for every two seconds. The work counts what is done; `all` is 0 if it cannot.
pub fn shown<T>(what: &str, all: usize, work: impl FnOnce(&AtomicUsize) -> T) -> T {
    let done = AtomicUsize::new(0);
    let (ended, waiting) = channel::<()>();
    thread::scope(|scope| {
        scope.spawn(|| tell(what, all, &done, waiting));
        let result = work(&done);
        drop(ended);
        result
    })
}

fn tell(what: &str, all: usize, done: &AtomicUsize, waiting: Receiver<()>) {
    let start = Instant::now();
    while waiting.recv_timeout(BETWEEN_LINES) == Err(RecvTimeoutError::Timeout) {
        eprintln!("{}", line(what, done.load(Ordering::Relaxed), all, start.elapsed().as_secs()));
    }
}

fn line(what: &str, done: usize, all: usize, seconds: u64) -> String {
    match all {
        0 => format!("mirokefa-job: {what}, {seconds} s"),
        _ => format!("mirokefa-job: {what}: {done} of {all}, {seconds} s"),
    }
}

#[cfg(test)]
mod tests {
    use super::*;

    #[test]
    fn lines_with_and_without_a_count() {
        assert_eq!(line("exploring", 0, 0, 4), "mirokefa-job: exploring, 4 s");
        assert_eq!(line("plain runs", 7, 90, 2), "mirokefa-job: plain runs: 7 of 90, 2 s");
    }

    #[test]
    fn the_works_result_comes_back() {
        let work = |done: &AtomicUsize| done.fetch_add(3, Ordering::Relaxed) + 4;
        assert_eq!(shown("work", 3, work), 4);
    }
}
