//! Queues of several kinds, as they are, and how the recorder calls each. The status is 0 if none shows a violation.

#![deny(warnings)]

mod recorder;

use recorder::{Answer, Options, Pattern, Queue};
use std::process::ExitCode;
use std::sync::atomic::{AtomicU64, Ordering};
use std::sync::mpsc::{self, Receiver, SyncSender};
use std::sync::Mutex;

const PLACES: usize = 16;

/// A channel of the library. Its receiver is that of one thread, so the threads share it under a lock.
struct Channel(SyncSender<u64>, Mutex<Receiver<u64>>);

impl Channel {
    fn new() -> Channel {
        let (sender, receiver) = mpsc::sync_channel(PLACES);
        Channel(sender, Mutex::new(receiver))
    }
}

/// Errors mean full and empty.
struct Bounded(Channel);

impl Queue for Bounded {
    fn enqueue(&self, value: u64) -> bool {
        self.0 .0.try_send(value).is_ok()
    }

    fn dequeue(&self) -> Option<u64> {
        self.0 .1.lock().unwrap().try_recv().ok()
    }
}

/// A call that waits has no answer "full" or "empty".
struct Blocking(Channel);

impl Queue for Blocking {
    fn enqueue(&self, value: u64) -> bool {
        self.0 .0.send(value).is_ok()
    }

    fn dequeue(&self) -> Option<u64> {
        self.0 .1.lock().unwrap().recv().ok()
    }
}

/// Boxes, of which the content stands for the value.
struct Boxes(Mutex<std::collections::VecDeque<Box<u64>>>);

impl Queue for Boxes {
    fn enqueue(&self, value: u64) -> bool {
        self.0.lock().unwrap().push_back(Box::new(value));
        true
    }

    fn dequeue(&self) -> Option<u64> {
        self.0.lock().unwrap().pop_front().map(|value| *value)
    }
}

/// One thread enqueues and another dequeues: a ring that takes 0 for an empty place.
struct Ring {
    places: [AtomicU64; PLACES],
    head: AtomicU64,
    tail: AtomicU64,
}

impl Ring {
    fn new() -> Ring {
        let [head, tail] = [0, 0].map(AtomicU64::new);
        Ring { places: [0; PLACES].map(AtomicU64::new), head, tail }
    }

    fn place(&self, count: u64) -> &AtomicU64 {
        &self.places[count as usize % PLACES]
    }
}

impl Queue for Ring {
    fn enqueue(&self, value: u64) -> bool {
        let tail = self.tail.load(Ordering::Relaxed);
        if self.place(tail).load(Ordering::Acquire) != 0 {
            return false;
        }
        self.place(tail).store(value, Ordering::Release);
        self.tail.store(tail + 1, Ordering::Relaxed);
        true
    }

    fn dequeue(&self) -> Option<u64> {
        let head = self.head.load(Ordering::Relaxed);
        let value = self.place(head).load(Ordering::Acquire);
        if value == 0 {
            return None;
        }
        self.place(head).store(0, Ordering::Release);
        self.head.store(head + 1, Ordering::Relaxed);
        Some(value)
    }
}

fn main() -> ExitCode {
    let options = Options { runs: 20, ..Options::default() };
    // As many producers as consumers, so that each dequeue finds a value, and no drain, which would wait.
    let roles = Options { pattern: Some(Pattern::Roles), drain: false, ..options.clone() };
    // Thread 0 produces, and drains when thread 1, the consumer, has ended. Values begin at 1.
    let one_each = Options { threads: 2, producers: 1, first: 1, ..options.clone() };
    let answers = [
        recorder::search(&Options { initial: 10, ..options.clone() }, || Bounded(Channel::new())),
        recorder::search(&options, || Boxes(Mutex::default())),
        recorder::search(&roles, || Blocking(Channel::new())),
        recorder::search(&one_each, Ring::new),
    ];
    ExitCode::from(answers.into_iter().any(|answer| answer != Answer::NoViolation) as u8)
}
