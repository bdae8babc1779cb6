//! A plain recorder in Rust, nothing proved, that the program's recorder is measured beside: threads of the standard library
//! that start at a barrier, one ticket word, one list of events for each thread, no rings and no collector.
//!
//! plain_recorder QUEUE THREADS OPERATIONS SEED, where QUEUE is `locked` or `two-lock`, writes the history.

use std::collections::VecDeque;
use std::io::{BufWriter, Write};
use std::sync::atomic::{AtomicU64, Ordering};
use std::sync::{Barrier, Mutex};
use std::thread;

trait Queue: Sync {
    fn enqueue(&self, value: u64);
    fn dequeue(&self) -> Option<u64>;
}

#[derive(Default)]
struct Locked(Mutex<VecDeque<u64>>);

impl Queue for Locked {
    fn enqueue(&self, value: u64) {
        self.0.lock().unwrap().push_back(value);
    }

    fn dequeue(&self) -> Option<u64> {
        self.0.lock().unwrap().pop_front()
    }
}

/// A lock for the values that come in and one for those that go out.
#[derive(Default)]
struct TwoLock {
    inbox: Mutex<VecDeque<u64>>,
    outbox: Mutex<VecDeque<u64>>,
}

impl Queue for TwoLock {
    fn enqueue(&self, value: u64) {
        self.inbox.lock().unwrap().push_back(value);
    }

    fn dequeue(&self) -> Option<u64> {
        let mut outbox = self.outbox.lock().unwrap();
        if outbox.is_empty() {
            std::mem::swap(&mut *outbox, &mut *self.inbox.lock().unwrap());
        }
        outbox.pop_front()
    }
}

enum What {
    CallEnq(u64),
    RetEnq,
    CallDeq,
    RetDeq(u64),
    RetEmpty,
}

struct Event {
    ticket: u64,
    what: What,
}

/// The next word of SplitMix64.
fn word(state: &mut u64) -> u64 {
    *state = state.wrapping_add(0x9e37_79b9_7f4a_7c15);
    let mut z = *state;
    z = (z ^ (z >> 30)).wrapping_mul(0xbf58_476d_1ce4_e5b9);
    z = (z ^ (z >> 27)).wrapping_mul(0x94d0_49bb_1331_11eb);
    z ^ (z >> 31)
}

/// One worker's row of the plan, in which true is an enqueue.
fn work(queue: &dyn Queue, tickets: &AtomicU64, thread: usize, row: &[bool]) -> Vec<Event> {
    let mut events = Vec::with_capacity(2 * row.len());
    let draw = || tickets.fetch_add(1, Ordering::SeqCst);
    for (n, &is_enqueue) in row.iter().enumerate() {
        let ticket = draw();
        let what = if is_enqueue {
            let value = (thread as u64) << 32 | n as u64;
            events.push(Event { ticket, what: What::CallEnq(value) });
            queue.enqueue(value);
            What::RetEnq
        } else {
            events.push(Event { ticket, what: What::CallDeq });
            queue.dequeue().map_or(What::RetEmpty, What::RetDeq)
        };
        events.push(Event { ticket: draw(), what });
    }
    events
}

fn record(queue: &dyn Queue, rows: &[Vec<bool>]) -> Vec<Vec<Event>> {
    let tickets = AtomicU64::new(0);
    let start = Barrier::new(rows.len());
    thread::scope(|scope| {
        let (tickets, start) = (&tickets, &start);
        let workers: Vec<_> = rows
            .iter()
            .enumerate()
            .map(|(thread, row)| {
                scope.spawn(move || {
                    start.wait();
                    work(queue, tickets, thread, row)
                })
            })
            .collect();
        workers.into_iter().map(|worker| worker.join().unwrap()).collect()
    })
}

fn write(lists: &[Vec<Event>]) -> std::io::Result<()> {
    let total = lists.iter().map(Vec::len).sum();
    // Tickets are the numbers below the total, each once.
    let mut thread_of = vec![0; total];
    for (thread, list) in lists.iter().enumerate() {
        for event in list {
            thread_of[event.ticket as usize] = thread;
        }
    }
    let mut left: Vec<_> = lists.iter().map(|list| list.iter()).collect();
    let mut to = BufWriter::with_capacity(1 << 17, std::io::stdout().lock());
    writeln!(to, "fifo-history 1")?;
    for thread in thread_of {
        let event = left[thread].next().unwrap();
        write!(to, "{} {thread} ", event.ticket)?;
        match event.what {
            What::CallEnq(value) => writeln!(to, "call-enq {value}")?,
            What::RetEnq => writeln!(to, "ret-enq")?,
            What::CallDeq => writeln!(to, "call-deq")?,
            What::RetDeq(value) => writeln!(to, "ret-deq {value}")?,
            What::RetEmpty => writeln!(to, "ret-empty")?,
        }
    }
    writeln!(to, "end {total}")?;
    to.flush()
}

fn main() -> std::io::Result<()> {
    let words: Vec<String> = std::env::args().collect();
    let number = |at: usize| words[at].parse::<u64>().expect("a number");
    let queue: Box<dyn Queue> = match words[1].as_str() {
        "locked" => Box::new(Locked::default()),
        "two-lock" => Box::new(TwoLock::default()),
        other => panic!("no queue {other}"),
    };
    let (threads, operations, mut state) = (number(2), number(3), number(4));
    let rows: Vec<Vec<bool>> = (0..threads)
        .map(|_| (0..operations).map(|_| word(&mut state) % 100 < 50).collect())
        .collect();
    write(&record(&*queue, &rows))
}
