//! A search for a linearization, as checkers make it that take any sequential object: the search of Wing and Gong (1993) with
//! the memo of Lowe (2017), over a FIFO queue. It is written after the papers, and isn't one of the published checkers.
//!
//! usage: search [SECONDS [ENTRIES]] < HISTORY
//!
//! It reads a history of version 1 and prints YES, NO, or UNKNOWN if it takes longer (60 s) or its memo would grow larger
//! (50,000,000 entries). The status is 0, 1 or 3, and 2 if the input is no complete history.
//!
//! The history is a linked list of its events. From the front on, a call that the queue can answer so is linearized: its two
//! events are lifted out of the list, and the search begins at the front again. At a return whose call is still in the list
//! it goes back. The memo has what was reached: the set of linearized operations with the content of the queue. Where
//! published checkers keep both whole, this one keeps 128 bits made of them step by step, so a step takes constant time;
//! `NO` stands up to a clash of these.

use std::collections::HashSet;
use std::env;
use std::hash::{BuildHasherDefault, Hasher};
use std::io::{self, Read};
use std::process::ExitCode;
use std::time::{Duration, Instant};

#[derive(Clone, Copy)]
enum Kind {
    Enq(u64),
    Not,
    Deq(u64),
    Empty,
}

/// An entry of the list: a call with the place of its return, or a return.
#[derive(Clone, Copy)]
enum Entry {
    Head,
    Call { kind: Kind, ret: usize },
    Return,
}

/// The events of a history by ticket, behind a head at place 0.
struct Events {
    entries: Vec<Entry>,
    next: Vec<usize>,
    prev: Vec<usize>,
}

/// The entries of a complete history of version 1, or none. What an operation is stands in its return.
fn entries_of(text: &str) -> Option<Vec<Entry>> {
    let mut lines = text.lines();
    if lines.next()? != "fifo-history 1" {
        return None;
    }
    let mut entries = vec![Entry::Head];
    let mut open = [None; 64];
    for line in lines {
        let words: Vec<&str> = line.split(' ').collect();
        if words[0] == "end" {
            let is_whole = words.get(1)?.parse() == Ok(entries.len() - 1);
            return (is_whole && open.iter().all(Option::is_none)).then_some(entries);
        }
        let seat = open.get_mut(words.get(1)?.parse::<usize>().ok()?)?;
        let value = words.get(3).and_then(|word| word.parse().ok());
        let here = entries.len();
        match (*words.get(2)?, *seat) {
            ("call-enq", None) => *seat = Some((here, Some(value?))),
            ("call-deq", None) => *seat = Some((here, None)),
            (word, Some((call, enqueued))) => {
                let kind = match (word, enqueued) {
                    ("ret-enq", Some(value)) => Kind::Enq(value),
                    ("ret-not", Some(_)) => Kind::Not,
                    ("ret-deq", None) => Kind::Deq(value?),
                    ("ret-empty", None) => Kind::Empty,
                    _ => return None,
                };
                entries[call] = Entry::Call { kind, ret: here };
                *seat = None;
            }
            _ => return None,
        }
        entries.push(Entry::Return);
    }
    None
}

impl Events {
    fn new(entries: Vec<Entry>) -> Events {
        let count = entries.len();
        Events {
            next: (0..count).map(|place| (place + 1) % count).collect(),
            prev: (0..count).map(|place| (place + count - 1) % count).collect(),
            entries,
        }
    }

    fn lift(&mut self, place: usize) {
        let (prev, next) = (self.prev[place], self.next[place]);
        self.next[prev] = next;
        self.prev[next] = prev;
    }

    /// Puts an entry back where it was. The last that was lifted goes first.
    fn put_back(&mut self, place: usize) {
        let (prev, next) = (self.prev[place], self.next[place]);
        self.next[prev] = place;
        self.prev[next] = place;
    }
}

/// Some 128 bits for a number, as splitmix64 mixes it.
fn mixed(number: u64) -> u128 {
    let mix = |seed: u64| {
        let mut z = number.wrapping_mul(0x9E37_79B9_7F4A_7C15).wrapping_add(seed);
        z = (z ^ (z >> 30)).wrapping_mul(0xBF58_476D_1CE4_E5B9);
        z = (z ^ (z >> 27)).wrapping_mul(0x94D0_49BB_1331_11EB);
        z ^ (z >> 31)
    };
    u128::from(mix(0x1234_5678_9ABC_DEF1)) << 64 | u128::from(mix(0x0FED_CBA9_8765_4321))
}

const BASE: u128 = 0x9E37_79B9_7F4A_7C15_F39C_C060_5CED_C835;

/// The inverse of an odd number modulo 2^128, by Newton's steps.
const fn inverse(odd: u128) -> u128 {
    let mut found: u128 = 1;
    let mut step = 0;
    while step < 7 {
        found = found.wrapping_mul(2u128.wrapping_sub(odd.wrapping_mul(found)));
        step += 1;
    }
    found
}

const BACK: u128 = inverse(BASE);

/// A FIFO queue whose operations can be taken back. `sum` is the sum of the mixed values, each times a power of the base by its
/// place from the front.
struct Queue {
    values: Vec<u64>,
    front: usize,
    sum: u128,
    last_power: u128,
}

impl Queue {
    fn push(&mut self, value: u64) {
        self.sum = self.sum.wrapping_add(mixed(value).wrapping_mul(self.last_power));
        self.last_power = self.last_power.wrapping_mul(BASE);
        self.values.push(value);
    }

    fn take_back_push(&mut self) {
        let Some(value) = self.values.pop() else { return };
        self.last_power = self.last_power.wrapping_mul(BACK);
        self.sum = self.sum.wrapping_sub(mixed(value).wrapping_mul(self.last_power));
    }

    fn pop(&mut self) {
        let value = self.values[self.front];
        self.sum = self.sum.wrapping_sub(mixed(value)).wrapping_mul(BACK);
        self.last_power = self.last_power.wrapping_mul(BACK);
        self.front += 1;
    }

    fn take_back_pop(&mut self) {
        self.front -= 1;
        self.sum = self.sum.wrapping_mul(BASE).wrapping_add(mixed(self.values[self.front]));
        self.last_power = self.last_power.wrapping_mul(BASE);
    }

    /// Makes the operation if the queue can answer so.
    fn make(&mut self, kind: Kind) -> bool {
        match kind {
            Kind::Enq(value) => self.push(value),
            Kind::Not => {}
            Kind::Deq(value) if self.values.get(self.front) == Some(&value) => self.pop(),
            Kind::Deq(_) => return false,
            Kind::Empty => return self.front == self.values.len(),
        }
        true
    }

    fn take_back(&mut self, kind: Kind) {
        match kind {
            Kind::Enq(_) => self.take_back_push(),
            Kind::Deq(_) => self.take_back_pop(),
            Kind::Not | Kind::Empty => {}
        }
    }
}

/// What is hashed is mixed already.
#[derive(Default)]
struct AsItIs(u64);

impl Hasher for AsItIs {
    fn finish(&self) -> u64 {
        self.0
    }

    fn write(&mut self, _: &[u8]) {}

    fn write_u128(&mut self, number: u128) {
        self.0 = number as u64 ^ (number >> 64) as u64;
    }
}

/// Whether there is a linearization, or none if the search meets its limits.
fn search(mut events: Events, limit: Duration, most: usize) -> Option<bool> {
    let begun = Instant::now();
    let mut queue = Queue { values: Vec::new(), front: 0, sum: 0, last_power: 1 };
    let mut reached: HashSet<u128, BuildHasherDefault<AsItIs>> = HashSet::default();
    let (mut chosen, mut set, mut steps) = (Vec::new(), 0u128, 0u64);
    let mut place = events.next[0];
    while events.next[0] != 0 {
        steps += 1;
        if steps % 65_536 == 0 && (begun.elapsed() > limit || reached.len() > most) {
            return None;
        }
        match events.entries[place] {
            Entry::Call { kind, ret } => {
                let with = set ^ mixed(!(place as u64));
                if queue.make(kind) {
                    if reached.insert(with ^ queue.sum.rotate_left(64)) {
                        set = with;
                        chosen.push((place, kind, ret));
                        events.lift(place);
                        events.lift(ret);
                        place = events.next[0];
                        continue;
                    }
                    queue.take_back(kind);
                }
                place = events.next[place];
            }
            Entry::Return | Entry::Head => {
                let Some((call, kind, ret)) = chosen.pop() else { return Some(false) };
                queue.take_back(kind);
                set ^= mixed(!(call as u64));
                events.put_back(ret);
                events.put_back(call);
                place = events.next[call];
            }
        }
    }
    Some(true)
}

fn main() -> ExitCode {
    let mut words = env::args().skip(1).map(|word| word.parse::<u64>());
    let seconds = words.next().unwrap_or(Ok(60));
    let most = words.next().unwrap_or(Ok(50_000_000));
    let mut text = String::new();
    let (Ok(seconds), Ok(most), Ok(_)) = (seconds, most, io::stdin().read_to_string(&mut text)) else {
        eprintln!("usage: search [SECONDS [ENTRIES]] < HISTORY");
        return ExitCode::from(2);
    };
    let Some(entries) = entries_of(&text) else {
        eprintln!("search: no complete history of version 1");
        return ExitCode::from(2);
    };
    let (answer, status) = match search(Events::new(entries), Duration::from_secs(seconds), most as usize) {
        Some(true) => ("YES", 0),
        Some(false) => ("NO", 1),
        None => ("UNKNOWN", 3),
    };
    println!("{answer}");
    ExitCode::from(status)
}
