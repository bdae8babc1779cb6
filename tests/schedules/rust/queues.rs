//! Queues with a fault that shows if threads meet in one way alone, and right ones beside them.
//!
//!     queues NAME [--seed S] [--runs R] [--ops N] [--folder F] [--timeout SECONDS]    a search, status 0, 1 or 2
//!
//! `queues --list` has a line for each: its name, whether it is right, and the fault. With `--cfg fifobench_points`
//! atomics and locks are those of `schedule.rs`; else they are those of `std`, and the compiler sets the points.

#![deny(warnings)]
#![allow(unexpected_cfgs)]

#[path = "../../../examples/recorders/rust/recorder.rs"]
mod recorder;
#[cfg(fifobench_points)]
#[path = "../../../examples/recorders/rust/schedule.rs"]
mod schedule;

#[cfg(fifobench_points)]
use schedule::{
    hint::spin_loop,
    sync::{
        atomic::{AtomicI64, AtomicU64, AtomicUsize, Ordering::SeqCst},
        Condvar, Mutex,
    },
};
#[cfg(not(fifobench_points))]
use std::{
    sync::{
        atomic::{AtomicI64, AtomicU64, AtomicUsize, Ordering::SeqCst},
        Condvar, Mutex,
    },
    thread::yield_now as spin_loop,
};

use recorder::{Answer, Options, Queue};
use std::collections::VecDeque;
use std::env;
use std::path::PathBuf;
use std::process::ExitCode;
use std::time::Duration;

const NODES: usize = 2048;
const NONE: usize = 0;

#[derive(Default)]
struct Node {
    value: AtomicU64,
    next: AtomicUsize,
    free: AtomicUsize,
}

#[derive(Clone, Copy, PartialEq)]
enum ListFault {
    None,
    StoredNext,
    StoredHead,
    Reused,
}

// A list with a first node that is empty, as Michael and Scott's. Nodes are places of an array, from 1 on.
struct Linked {
    nodes: Vec<Node>,
    made: AtomicUsize,
    free: AtomicUsize,
    head: AtomicUsize,
    tail: AtomicUsize,
    fault: ListFault,
}

impl Linked {
    fn new(fault: ListFault) -> Linked {
        let nodes = (0..NODES).map(|_| Node::default()).collect();
        let [made, free] = [2, NONE].map(AtomicUsize::new);
        Linked { nodes, made, free, head: AtomicUsize::new(1), tail: AtomicUsize::new(1), fault }
    }

    // The fault of `Reused`: a place that was freed and made again between the two looks is taken for the same.
    fn take_node(&self) -> usize {
        while self.fault == ListFault::Reused {
            let top = self.free.load(SeqCst);
            if top == NONE {
                break;
            }
            let next = self.nodes[top].free.load(SeqCst);
            if self.free.compare_exchange(top, next, SeqCst, SeqCst).is_ok() {
                return top;
            }
        }
        self.made.fetch_add(1, SeqCst)
    }

    fn free_node(&self, node: usize) {
        while self.fault == ListFault::Reused {
            let top = self.free.load(SeqCst);
            self.nodes[node].free.store(top, SeqCst);
            if self.free.compare_exchange(top, node, SeqCst, SeqCst).is_ok() {
                break;
            }
        }
    }

    fn link(&self, last: usize, node: usize) -> bool {
        let next = &self.nodes[last].next;
        if self.fault != ListFault::StoredNext {
            return next.compare_exchange(NONE, node, SeqCst, SeqCst).is_ok();
        }
        let is_last = next.load(SeqCst) == NONE;
        if is_last {
            next.store(node, SeqCst);
        }
        is_last
    }

    fn move_head(&self, first: usize, next: usize) -> bool {
        if self.fault != ListFault::StoredHead {
            return self.head.compare_exchange(first, next, SeqCst, SeqCst).is_ok();
        }
        let is_first = self.head.load(SeqCst) == first;
        if is_first {
            self.head.store(next, SeqCst);
        }
        is_first
    }
}

impl Queue for Linked {
    fn enqueue(&self, value: u64) -> bool {
        let node = self.take_node();
        self.nodes[node].value.store(value, SeqCst);
        self.nodes[node].next.store(NONE, SeqCst);
        loop {
            let last = self.tail.load(SeqCst);
            let next = self.nodes[last].next.load(SeqCst);
            if next != NONE {
                let _ = self.tail.compare_exchange(last, next, SeqCst, SeqCst);
            } else if self.link(last, node) {
                let _ = self.tail.compare_exchange(last, node, SeqCst, SeqCst);
                return true;
            }
        }
    }

    fn dequeue(&self) -> Option<u64> {
        loop {
            let first = self.head.load(SeqCst);
            let last = self.tail.load(SeqCst);
            let next = self.nodes[first].next.load(SeqCst);
            if first != self.head.load(SeqCst) {
                continue;
            }
            if next == NONE {
                return None;
            }
            if first == last {
                let _ = self.tail.compare_exchange(last, next, SeqCst, SeqCst);
                continue;
            }
            let value = self.nodes[next].value.load(SeqCst);
            if self.move_head(first, next) {
                self.free_node(first);
                return Some(value);
            }
        }
    }
}

#[derive(Clone, Copy, PartialEq)]
enum RingFault {
    None,
    EarlySequence,
    EarlyFree,
    EmptyEarly,
}

const SIZE: usize = 8;

#[derive(Default)]
struct Slot {
    sequence: AtomicUsize,
    value: AtomicU64,
}

// A ring whose slots have sequences, as Vyukov's; it isn't empty while an earlier enqueue is pending.
struct Ring {
    slots: [Slot; SIZE],
    head: AtomicUsize,
    tail: AtomicUsize,
    fault: RingFault,
}

impl Ring {
    fn new(fault: RingFault) -> Ring {
        let slots: [Slot; SIZE] = Default::default();
        for (place, slot) in slots.iter().enumerate() {
            slot.sequence.store(place, SeqCst);
        }
        Ring { slots, head: AtomicUsize::new(0), tail: AtomicUsize::new(0), fault }
    }
}

impl Queue for Ring {
    fn enqueue(&self, value: u64) -> bool {
        loop {
            let at = self.tail.load(SeqCst);
            let slot = &self.slots[at % SIZE];
            let lag = slot.sequence.load(SeqCst).wrapping_sub(at) as isize;
            if lag == 0 && self.tail.compare_exchange(at, at + 1, SeqCst, SeqCst).is_ok() {
                if self.fault == RingFault::EarlySequence {
                    slot.sequence.store(at + 1, SeqCst);
                    slot.value.store(value, SeqCst);
                } else {
                    slot.value.store(value, SeqCst);
                    slot.sequence.store(at + 1, SeqCst);
                }
                return true;
            }
            if lag < 0 && at == self.tail.load(SeqCst) && at - self.head.load(SeqCst) >= SIZE {
                return false;
            }
            if lag < 0 {
                spin_loop();
            }
        }
    }

    fn dequeue(&self) -> Option<u64> {
        loop {
            let at = self.head.load(SeqCst);
            let slot = &self.slots[at % SIZE];
            let lag = slot.sequence.load(SeqCst).wrapping_sub(at + 1) as isize;
            if lag == 0 && self.head.compare_exchange(at, at + 1, SeqCst, SeqCst).is_ok() {
                if self.fault == RingFault::EarlyFree {
                    slot.sequence.store(at + SIZE, SeqCst);
                    return Some(slot.value.load(SeqCst));
                }
                let value = slot.value.load(SeqCst);
                slot.sequence.store(at + SIZE, SeqCst);
                return Some(value);
            }
            if lag < 0 && (self.fault == RingFault::EmptyEarly || self.tail.load(SeqCst) == at) {
                return None;
            }
            if lag < 0 {
                spin_loop();
            }
        }
    }
}

// Fault: slots have no sequences, so a place of an earlier round is taken for one of this.
#[derive(Default)]
struct BareRing {
    slots: [AtomicU64; SIZE], // a value and 1
    head: AtomicUsize,
    tail: AtomicUsize,
}

impl Queue for BareRing {
    fn enqueue(&self, value: u64) -> bool {
        loop {
            let at = self.tail.load(SeqCst);
            if at - self.head.load(SeqCst).min(at) >= SIZE {
                return false;
            }
            let is_mine = self.slots[at % SIZE].compare_exchange(0, value + 1, SeqCst, SeqCst).is_ok();
            let _ = self.tail.compare_exchange(at, at + 1, SeqCst, SeqCst);
            if is_mine {
                return true;
            }
        }
    }

    fn dequeue(&self) -> Option<u64> {
        loop {
            let at = self.head.load(SeqCst);
            if at >= self.tail.load(SeqCst) {
                return None;
            }
            let slot = &self.slots[at % SIZE];
            let value = slot.load(SeqCst);
            let is_mine = value != 0 && slot.compare_exchange(value, 0, SeqCst, SeqCst).is_ok();
            let _ = self.head.compare_exchange(at, at + 1, SeqCst, SeqCst);
            if is_mine {
                return Some(value - 1);
            }
        }
    }
}

// Fault: a ring for one producer and one consumer, used by more. A place is claimed by a load and a store.
#[derive(Default)]
struct SingleRing {
    slots: [AtomicU64; SIZE],
    head: AtomicUsize,
    tail: AtomicUsize,
}

impl Queue for SingleRing {
    fn enqueue(&self, value: u64) -> bool {
        let at = self.tail.load(SeqCst);
        if at >= self.head.load(SeqCst) + SIZE {
            return false;
        }
        self.slots[at % SIZE].store(value, SeqCst);
        self.tail.store(at + 1, SeqCst);
        true
    }

    fn dequeue(&self) -> Option<u64> {
        let at = self.head.load(SeqCst);
        if at >= self.tail.load(SeqCst) {
            return None;
        }
        let value = self.slots[at % SIZE].load(SeqCst);
        self.head.store(at + 1, SeqCst);
        Some(value)
    }
}

const SEGMENT: usize = 4;

#[derive(Default)]
struct Segment {
    slots: [AtomicU64; SEGMENT], // a value and 1
    head: AtomicUsize,
    tail: AtomicUsize,
    next: AtomicUsize,
}

// Fault: a segment is appended by a store after a look, so of two one is lost, with its values.
struct LostSegment {
    segments: Vec<Segment>,
    made: AtomicUsize,
    head: AtomicUsize,
    tail: AtomicUsize,
}

impl LostSegment {
    fn new() -> LostSegment {
        let segments = (0..NODES).map(|_| Segment::default()).collect();
        let [head, tail] = [1, 1].map(AtomicUsize::new);
        LostSegment { segments, made: AtomicUsize::new(2), head, tail }
    }

    fn append(&self, last: usize) {
        let mut next = self.segments[last].next.load(SeqCst);
        if next == NONE {
            next = self.made.fetch_add(1, SeqCst);
            self.segments[last].next.store(next, SeqCst);
        }
        let _ = self.tail.compare_exchange(last, next, SeqCst, SeqCst);
    }
}

impl Queue for LostSegment {
    fn enqueue(&self, value: u64) -> bool {
        loop {
            let last = self.tail.load(SeqCst);
            let segment = &self.segments[last];
            let at = segment.tail.fetch_add(1, SeqCst);
            if at < SEGMENT {
                segment.slots[at].store(value + 1, SeqCst);
                return true;
            }
            self.append(last);
        }
    }

    fn dequeue(&self) -> Option<u64> {
        loop {
            let first = self.head.load(SeqCst);
            let segment = &self.segments[first];
            let at = segment.head.load(SeqCst);
            if at >= SEGMENT {
                let next = segment.next.load(SeqCst);
                if next == NONE {
                    return None;
                }
                let _ = self.head.compare_exchange(first, next, SeqCst, SeqCst);
            } else if at >= segment.tail.load(SeqCst) {
                return None;
            } else {
                let value = segment.slots[at].load(SeqCst);
                if value == 0 {
                    spin_loop();
                } else if segment.head.compare_exchange(at, at + 1, SeqCst, SeqCst).is_ok() {
                    return Some(value - 1);
                }
            }
        }
    }
}

// A list under a lock.
#[derive(Default)]
struct Locked(Mutex<VecDeque<u64>>);

impl Queue for Locked {
    fn enqueue(&self, value: u64) -> bool {
        self.0.lock().unwrap().push_back(value);
        true
    }

    fn dequeue(&self) -> Option<u64> {
        self.0.lock().unwrap().pop_front()
    }
}

// Fault: the length is counted beside the list.
#[derive(Default)]
struct Counted {
    list: Locked,
    count: AtomicI64,
}

impl Queue for Counted {
    fn enqueue(&self, value: u64) -> bool {
        self.list.enqueue(value);
        self.count.fetch_add(1, SeqCst);
        true
    }

    fn dequeue(&self) -> Option<u64> {
        if self.count.load(SeqCst) <= 0 {
            return None;
        }
        let value = self.list.dequeue()?;
        self.count.fetch_sub(1, SeqCst);
        Some(value)
    }
}

// Fault: the first value is looked at under the lock, and taken under it once more.
#[derive(Default)]
struct Peeked(Locked);

impl Queue for Peeked {
    fn enqueue(&self, value: u64) -> bool {
        self.0.enqueue(value)
    }

    fn dequeue(&self) -> Option<u64> {
        let value = self.0 .0.lock().unwrap().front().copied()?;
        self.0.dequeue();
        Some(value)
    }
}

// A bounded list; an enqueue waits for room, and a dequeue for a value, both up to a time.
#[derive(Default)]
struct Waiting {
    list: Locked,
    changed: Condvar,
}

const MOST_WAIT: Duration = Duration::from_millis(1);

impl Queue for Waiting {
    fn enqueue(&self, value: u64) -> bool {
        let mut list = self.list.0.lock().unwrap();
        if list.len() >= SIZE {
            list = self.changed.wait_timeout(list, MOST_WAIT).unwrap().0;
        }
        let has_room = list.len() < SIZE;
        if has_room {
            list.push_back(value);
            self.changed.notify_all();
        }
        has_room
    }

    fn dequeue(&self) -> Option<u64> {
        let mut list = self.list.0.lock().unwrap();
        if list.is_empty() {
            list = self.changed.wait_timeout(list, MOST_WAIT).unwrap().0;
        }
        let value = list.pop_front();
        self.changed.notify_all();
        value
    }
}

// Two locks, taken in two orders.
#[derive(Default)]
struct Deadlock {
    list: Locked,
    second: Mutex<()>,
}

impl Queue for Deadlock {
    fn enqueue(&self, value: u64) -> bool {
        let _guard = self.second.lock().unwrap();
        self.list.enqueue(value)
    }

    fn dequeue(&self) -> Option<u64> {
        let mut list = self.list.0.lock().unwrap();
        let _guard = self.second.lock().unwrap();
        list.pop_front()
    }
}

// A dequeue waits in a loop, under the lock, for a value.
#[derive(Default)]
struct Livelock {
    list: Locked,
    count: AtomicI64,
}

impl Queue for Livelock {
    fn enqueue(&self, value: u64) -> bool {
        let enqueued = self.list.enqueue(value);
        self.count.fetch_add(1, SeqCst);
        enqueued
    }

    fn dequeue(&self) -> Option<u64> {
        let mut list = self.list.0.lock().unwrap();
        while self.count.load(SeqCst) <= 0 || list.is_empty() {
            spin_loop();
        }
        list.pop_front()
    }
}

type Search = fn(&Options) -> Answer;

// A search over queues that are made so.
macro_rules! over {
    ($make:expr) => {
        |options| recorder::search(options, || $make)
    };
}

const QUEUES: [(&str, &str, &str, Search); 17] = [
    ("linked", "right", "", over!(Linked::new(ListFault::None))),
    ("ring", "right", "", over!(Ring::new(RingFault::None))),
    ("locked", "right", "", over!(Locked::default())),
    ("waiting", "right", "", over!(Waiting::default())),
    ("stored-next", "wrong", "the node is stored after a look", over!(Linked::new(ListFault::StoredNext))),
    ("stored-head", "wrong", "the head is stored after a look", over!(Linked::new(ListFault::StoredHead))),
    ("reused", "wrong", "nodes of a free list, without a count of their uses", over!(Linked::new(ListFault::Reused))),
    ("early-sequence", "wrong", "the sequence is set before the value", over!(Ring::new(RingFault::EarlySequence))),
    ("early-free", "wrong", "the slot is freed before its value is read", over!(Ring::new(RingFault::EarlyFree))),
    ("empty-early", "wrong", "empty while the first enqueue is pending", over!(Ring::new(RingFault::EmptyEarly))),
    ("bare-ring", "wrong", "slots without sequences", over!(BareRing::default())),
    ("single-ring", "wrong", "two threads in a single-producer ring", over!(SingleRing::default())),
    ("lost-segment", "wrong", "a segment is stored after a look", over!(LostSegment::new())),
    ("counted", "wrong", "the length is counted beside the list", over!(Counted::default())),
    ("peeked", "wrong", "the first value is looked at, and taken later", over!(Peeked::default())),
    ("deadlock", "hung", "two locks in two orders", over!(Deadlock::default())),
    ("livelock", "hung", "a loop under a lock", over!(Livelock::default())),
];


fn set(options: &mut Options, name: &str, word: &str) -> Result<(), String> {
    let number = || word.parse::<u64>().map_err(|error| format!("{name} {word}: {error}"));
    match name {
        "--seed" => options.seed = number()?,
        "--runs" => options.runs = number()?,
        "--ops" => options.operations = number()? as usize,
        "--initial" => options.initial = number()? as usize,
        "--timeout" => options.timeout = Duration::from_secs(number()?),
        "--folder" => options.folder = PathBuf::from(word),
        _ => return Err(format!("no option {name}")),
    }
    Ok(())
}

fn search(words: &[String]) -> Result<Answer, String> {
    if words == ["--list"] {
        QUEUES.iter().for_each(|(name, kind, fault, _)| println!("{name}\t{kind}\t{fault}"));
        return Ok(Answer::NoViolation);
    }
    let named = words.split_first().and_then(|(name, rest)| Some((QUEUES.iter().find(|one| one.0 == name)?, rest)));
    let (queue, rest) = named.ok_or("a name of --list, and options with their values")?;
    let mut options = Options::default();
    for pair in rest.chunks(2) {
        set(&mut options, &pair[0], pair.get(1).map_or("", String::as_str))?;
    }
    Ok(queue.3(&options))
}

fn main() -> ExitCode {
    let words: Vec<String> = env::args().skip(1).collect();
    let answer = search(&words).unwrap_or_else(|told| {
        eprintln!("queues: {told}");
        Answer::Wrong
    });
    ExitCode::from(answer as u8)
}
