//! Writes a history that is made up: calls of several threads on a plain queue, each of which takes effect at a chosen moment
//! between its call and its return. So the history is linearizable, unless a fault is asked for.
//!
//!     generate KIND EVENTS THREADS SEED
//!
//! KIND is `yes`; or another linearizable history: `names`, with values in no order and gaps between tickets; `wide`, where each of 64
//! threads has an operation under way nearly all the time; `never`, only enqueues; `refused`, failed enqueues;
//! `empty`, dequeues that find nothing; `initial`, a queue that holds one value for each 20 events first; or a fault near the end:
//! `fresh`, `repeat`, `order`, `witness`, and `initial-witness` of such a queue; or `long`, an empty answer over nearly the whole
//! history.

use std::collections::{HashMap, VecDeque};
use std::env;
use std::io::{self, BufWriter, Write};
use std::process::exit;

/// SplitMix64.
struct Random(u64);

fn mixed(mut word: u64) -> u64 {
    word = (word ^ (word >> 30)).wrapping_mul(0xbf58_476d_1ce4_e5b9);
    word = (word ^ (word >> 27)).wrapping_mul(0x94d0_49bb_1331_11eb);
    word ^ (word >> 31)
}

impl Random {
    fn word(&mut self) -> u64 {
        self.0 = self.0.wrapping_add(0x9e37_79b9_7f4a_7c15);
        mixed(self.0)
    }

    fn below(&mut self, limit: usize) -> usize {
        (self.word() % limit as u64) as usize
    }
}

#[derive(Clone, Copy, PartialEq, Eq)]
enum Answer {
    Taken(u64),
    NotTaken,
    Got(u64),
    Empty,
}

#[derive(Clone, Copy)]
struct Operation {
    thread: usize,
    is_enqueue: bool,
    value: u64,
    answer: Option<Answer>,
}

/// An event: the operation's place, and whether it is its return.
type Event = (usize, bool);

struct History {
    initial: Vec<u64>,
    operations: Vec<Operation>,
    events: Vec<Event>,
}

/// What the threads do: how many they are, how many of a hundred operations are enqueues, and whether these are taken; and how
/// many values the queue holds first.
struct Plan {
    threads: usize,
    percent: usize,
    takes: bool,
    initial: usize,
}

/// The first of the values that a queue holds first.
const FIRST: u64 = 1 << 38;

impl Plan {
    fn of(kind: &str, threads: usize, events: usize) -> Plan {
        let percent = match kind {
            "long" => 53,
            "never" | "refused" => 100,
            "empty" => 0,
            _ => 50,
        };
        let initial = if kind.starts_with("initial") { events / 20 } else { 0 };
        Plan { threads: if kind == "wide" { 64 } else { threads }, percent, takes: kind != "refused", initial }
    }
}

/// Calls of threads under way, in turns that chance gives: a call begins, takes effect, or returns.
fn play(events: usize, plan: &Plan, random: &mut Random) -> History {
    let &Plan { threads, percent, takes, initial } = plan;
    let total = events / 2;
    let initial: Vec<u64> = (FIRST..FIRST + initial as u64).collect();
    let mut queue = VecDeque::from(initial.clone());
    let mut history = History { initial, operations: Vec::with_capacity(total), events: Vec::with_capacity(2 * total) };
    let mut asked = vec![0u64; threads];
    let mut idle: Vec<usize> = (0..threads).collect();
    let mut under_way: Vec<usize> = Vec::new();
    loop {
        let may_begin = history.operations.len() < total && !idle.is_empty();
        if under_way.is_empty() && !may_begin {
            return history;
        }
        if may_begin && (under_way.is_empty() || random.below(2) == 0) {
            let thread = idle.swap_remove(random.below(idle.len()));
            let value = (thread as u64) << 32 | asked[thread];
            asked[thread] += 1;
            let place = history.operations.len();
            let is_enqueue = random.below(100) < percent;
            history.operations.push(Operation { thread, is_enqueue, value, answer: None });
            history.events.push((place, false));
            under_way.push(place);
            continue;
        }
        let at = random.below(under_way.len());
        let place = under_way[at];
        let operation = &mut history.operations[place];
        if operation.answer.is_some() {
            under_way.swap_remove(at);
            idle.push(operation.thread);
            history.events.push((place, true));
        } else if operation.is_enqueue && !takes {
            operation.answer = Some(Answer::NotTaken);
        } else if operation.is_enqueue {
            queue.push_back(operation.value);
            operation.answer = Some(Answer::Taken(operation.value));
        } else {
            operation.answer = Some(queue.pop_front().map_or(Answer::Empty, Answer::Got));
        }
    }
}

/// The places of the dequeues that found a value, in the order of their calls.
fn dequeues(history: &History) -> Vec<usize> {
    let found = |place: &usize| matches!(history.operations[*place].answer, Some(Answer::Got(_)));
    (0..history.operations.len()).filter(found).collect()
}

/// Changes the answer of a late dequeue: another value, or that of the dequeue before it. Or two late dequeues exchange their
/// values, neither of whose enqueues nor dequeues overlap.
fn spoil(history: &mut History, kind: &str) {
    let found = dequeues(history);
    let late = found.len() * 98 / 100;
    let answer = |place: usize| history.operations[found[place]].answer;
    let changes: Vec<(usize, Option<Answer>)> = match kind {
        "fresh" => vec![(late, Some(Answer::Got(u64::MAX)))],
        "repeat" => vec![(late, answer(late - 1))],
        "order" => {
            let (first, second) = apart(history, &found[late..]).expect("two dequeues that can be exchanged");
            vec![(late + first, answer(late + second)), (late + second, answer(late + first))]
        }
        _ => vec![],
    };
    for (place, answer) in changes {
        history.operations[found[place]].answer = answer;
    }
}

/// Two of these dequeues of which one precedes the other, and so do the enqueues of their values, both of which are
/// called before either dequeue returns.
fn apart(history: &History, found: &[usize]) -> Option<(usize, usize)> {
    let mut span = vec![(0, 0); history.operations.len()];
    let mut enqueue_of = HashMap::new();
    for (rank, &(place, is_return)) in history.events.iter().enumerate() {
        let operation = &history.operations[place];
        *(if is_return { &mut span[place].1 } else { &mut span[place].0 }) = rank;
        if operation.is_enqueue {
            enqueue_of.insert(operation.value, place);
        }
    }
    let enqueue = |place: usize| match history.operations[place].answer {
        Some(Answer::Got(value)) => span[enqueue_of[&value]],
        _ => (0, 0),
    };
    let is_apart = |first: usize, second: usize| {
        let (a, b) = (enqueue(first), enqueue(second));
        a.1 < b.0 && span[first].1 < span[second].0 && b.0 < span[first].1
    };
    let pairs = (0..found.len()).flat_map(|first| (first + 1..found.len().min(first + 64)).map(move |second| (first, second)));
    pairs.into_iter().find(|&(first, second)| is_apart(found[first], found[second]))
}

/// For each event whether some value is definitely in the queue just after it: its enqueue has returned, and its dequeue isn't
/// called yet.
fn is_covered(history: &History) -> Vec<bool> {
    let mut dequeue_call = HashMap::new();
    let mut enqueue_return = HashMap::new();
    for (rank, &(place, is_return)) in history.events.iter().enumerate() {
        match (history.operations[place].answer, is_return) {
            (Some(Answer::Got(value)), false) => drop(dequeue_call.insert(value, rank)),
            (Some(Answer::Taken(value)), true) => drop(enqueue_return.insert(value, rank)),
            _ => {}
        }
    }
    let mut values_in = history.initial.len();
    let mut covered = Vec::with_capacity(history.events.len());
    for (rank, &(place, is_return)) in history.events.iter().enumerate() {
        match (history.operations[place].answer, is_return) {
            (Some(Answer::Taken(value)), true) if dequeue_call.get(&value).map_or(true, |&call| call > rank) => values_in += 1,
            (Some(Answer::Got(value)), false) if enqueue_return.get(&value).map_or(true, |&ret| ret < rank) => values_in -= 1,
            _ => {}
        }
        covered.push(values_in > 0);
    }
    covered
}

/// Adds an empty answer of a thread of its own where values are in all the time: over the longest such stretch, or in one place
/// near the end.
fn add_empty_answer(history: &mut History, thread: usize, is_long: bool) {
    let covered = is_covered(history);
    let (mut from, mut to, mut start) = (0, 0, 0);
    for (rank, &is_in) in covered.iter().enumerate() {
        start = if is_in { start } else { rank + 1 };
        let is_better = if is_long { rank + 1 - start > to - from } else { rank < covered.len() * 98 / 100 };
        if is_in && is_better {
            (from, to) = (if is_long { start } else { rank }, rank + 1);
        }
    }
    let place = history.operations.len();
    history.operations.push(Operation { thread, is_enqueue: false, value: 0, answer: Some(Answer::Empty) });
    history.events.insert(to, (place, true));
    history.events.insert(from + 1, (place, false));
}

fn write(history: &History, has_gaps: bool, random: &mut Random) -> io::Result<()> {
    let mut to = BufWriter::with_capacity(1 << 17, io::stdout().lock());
    let name = |value: u64| if has_gaps { mixed(value) } else { value };
    let mut ticket = 0;
    if history.initial.is_empty() {
        writeln!(to, "fifo-history 1")?;
    } else {
        writeln!(to, "fifo-history 2\ninitial {}", history.initial.len())?;
        history.initial.iter().try_for_each(|value| writeln!(to, "{value}"))?;
    }
    for &(place, is_return) in &history.events {
        let operation = &history.operations[place];
        write!(to, "{ticket} {} ", operation.thread)?;
        match (operation.answer, is_return) {
            (_, false) if operation.is_enqueue => writeln!(to, "call-enq {}", name(operation.value))?,
            (Some(Answer::Taken(_)), true) => writeln!(to, "ret-enq")?,
            (Some(Answer::NotTaken), true) => writeln!(to, "ret-not")?,
            (_, false) => writeln!(to, "call-deq")?,
            (Some(Answer::Got(value)), true) => writeln!(to, "ret-deq {}", name(value))?,
            (_, true) => writeln!(to, "ret-empty")?,
        }
        ticket += 1 + if has_gaps { random.below(400_000) } else { 0 };
    }
    writeln!(to, "end {}", history.events.len())?;
    to.flush()
}

fn main() -> io::Result<()> {
    let words: Vec<String> = env::args().collect();
    let numbers: Vec<usize> = words.iter().skip(2).filter_map(|word| word.parse().ok()).collect();
    let ([events, threads, seed], Some(kind)) = (&numbers[..], words.get(1)) else {
        eprintln!("usage: generate KIND EVENTS THREADS SEED");
        exit(2);
    };
    let mut random = Random(mixed(*seed as u64));
    let is_long = kind == "long";
    let is_witness = is_long || kind.ends_with("witness");
    let played = events - if is_witness { 2 } else { 0 };
    let mut history = play(played, &Plan::of(kind, *threads, *events), &mut random);
    spoil(&mut history, kind);
    if is_witness {
        add_empty_answer(&mut history, *threads, is_long);
    }
    write(&history, kind == "names", &mut random)
}
