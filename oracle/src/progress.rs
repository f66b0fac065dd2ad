//! Where a long run is: on a terminal one line of standard error, written anew in place and
//! cleared at the end. Where standard error is no terminal nothing is written.

use std::env;
use std::io::{self, IsTerminal, Write};
use std::sync::atomic::{AtomicUsize, Ordering};
use std::sync::mpsc::{self, Receiver, RecvTimeoutError, Sender};
use std::sync::Arc;
use std::thread::{self, JoinHandle};
use std::time::{Duration, Instant};

/// From one writing of the line to the next, and before the first.
const PAUSE: Duration = Duration::from_millis(100);

/// How much of a run is done. The line is there as long as this is.
pub struct Progress {
    done: Arc<AtomicUsize>,
    writer: Option<Writer>,
}

struct Writer {
    end: Sender<()>,
    thread: JoinHandle<()>,
}

impl Progress {
    /// Of a set of so many cases.
    pub fn of(set: String, all: usize) -> Progress {
        let all = grouped(all);
        Progress::told(move |done, time| {
            format!("{set}: {} of {all}, {}", grouped(done), rate(done, time))
        })
    }

    /// Told by a text of what is done and the time that it took.
    pub fn told(text: impl Fn(usize, Duration) -> String + Send + 'static) -> Progress {
        let done = Arc::new(AtomicUsize::new(0));
        let writer = is_shown().then(|| {
            let (end, ended) = mpsc::channel();
            let done = Arc::clone(&done);
            let start = Instant::now();
            let text = move || text(done.load(Ordering::Relaxed), start.elapsed());
            let thread = thread::spawn(move || write_until(ended, text));
            Writer { end, thread }
        });
        Progress { done, writer }
    }

    /// Never told.
    pub fn none() -> Progress {
        let done = Arc::default();
        Progress { done, writer: None }
    }

    pub fn advance(&self, count: usize) {
        if self.writer.is_some() {
            self.done.fetch_add(count, Ordering::Relaxed);
        }
    }

    /// The same items, each counted when it is taken.
    pub fn counted<'p, I: Iterator + 'p>(&'p self, items: I) -> impl Iterator<Item = I::Item> + 'p {
        items.inspect(|_| self.advance(1))
    }
}

impl Drop for Progress {
    fn drop(&mut self) {
        if let Some(Writer { end, thread }) = self.writer.take() {
            drop(end);
            let _ = thread.join();
        }
    }
}

fn is_shown() -> bool {
    let dumb = env::var_os("TERM").is_some_and(|terminal| terminal == "dumb");
    io::stderr().is_terminal() && !dumb
}

/// Writes the line after each pause until the end, and then clears it.
fn write_until(ended: Receiver<()>, text: impl Fn() -> String) {
    let mut written = false;
    while ended.recv_timeout(PAUSE) == Err(RecvTimeoutError::Timeout) {
        write(&text());
        written = true;
    }
    if written {
        write("");
    }
}

/// Writes the line at once; the terminal cuts what is too long for a row.
fn write(text: &str) {
    let line = format!("\r\x1B[?7l{text}\x1B[K\x1B[?7h\r");
    let _ = io::stderr().write_all(line.as_bytes());
}

/// Does the work with each of some items.
pub fn each<T, R>(set: String, items: Vec<T>, mut work: impl FnMut(T) -> R) -> Vec<R> {
    let progress = Progress::of(set, items.len());
    let work = items.into_iter().map(|item| {
        let result = work(item);
        progress.advance(1);
        result
    });
    work.collect()
}

/// So many in a time.
pub fn rate(count: usize, time: Duration) -> String {
    let rate = count as f64 / time.as_secs_f64();
    match rate {
        10.0.. => format!("{} a second", grouped(rate as usize)),
        1.0.. => format!("{rate:.1} a second"),
        _ if count > 0 => format!("{:.1} s each", 1.0 / rate),
        _ => "none done".to_string(),
    }
}

/// A number with a comma before each three digits.
pub fn grouped(number: usize) -> String {
    let digits = number.to_string();
    let mut text = String::new();
    for (index, digit) in digits.chars().enumerate() {
        if index > 0 && (digits.len() - index).is_multiple_of(3) {
            text.push(',');
        }
        text.push(digit);
    }
    text
}
