//! A VecDeque under a Mutex, and the same made wrong on purpose in some ways, recorded.
//!
//!     queue QUEUE                                        searches for a violation, status 0, 1 or 2
//!     queue QUEUE [--runs R] [--threads T] [--producers N] [--ops N] [--pattern P] [--percent K] [--seed S]
//!         [--initial N] [--condition C] [--overtaken-at-most N] [--folder F] [--keep 0|1] [--timeout SECONDS]
//!                                                                        the same with settings
//!     queue QUEUE THREADS OPERATIONS [PATTERN [SEED [INITIAL]]]          one run, written to standard output
//!
//! Without a pattern, or with `loop`, the one run is a loop of one's own.
//!
//! QUEUE is `good`, `wrong` (every 4th value that is found stays), `stack` (last in, first out), `shards` (values of
//! two producers overtake each other), `early` (says empty too early), `hang` (a dequeue never returns) or `throw` (a
//! dequeue panics).

#![deny(warnings)]

mod recorder;

use recorder::{Answer, History, Options};
use std::collections::VecDeque;
use std::env;
use std::io;
use std::path::PathBuf;
use std::process::ExitCode;
use std::str::FromStr;
use std::sync::atomic::{AtomicI64, AtomicU64, Ordering};
use std::sync::Mutex;
use std::thread;
use std::time::Duration;

#[derive(Clone, Copy, PartialEq)]
enum Kind {
    Good,
    Wrong,
    Stack,
    Shards,
    Early,
    Hang,
    Throw,
}

impl FromStr for Kind {
    type Err = String;

    fn from_str(word: &str) -> Result<Kind, String> {
        match word {
            "good" => Ok(Kind::Good),
            "wrong" => Ok(Kind::Wrong),
            "stack" => Ok(Kind::Stack),
            "shards" => Ok(Kind::Shards),
            "early" => Ok(Kind::Early),
            "hang" => Ok(Kind::Hang),
            "throw" => Ok(Kind::Throw),
            _ => Err(format!("no queue {word:?}: good, wrong, stack, shards, early, hang or throw")),
        }
    }
}

#[derive(Default)]
struct Values {
    list: VecDeque<u64>,
    found: u64,
}

struct Queue {
    kind: Kind,
    values: Mutex<Values>,
    // Counted beside the list and outside of the lock, for `early`.
    size: AtomicI64,
    dequeues: AtomicU64,
}

impl Queue {
    fn new(kind: Kind) -> Queue {
        Queue { kind, values: Mutex::default(), size: AtomicI64::new(0), dequeues: AtomicU64::new(0) }
    }

    fn take(&self) -> Option<u64> {
        let mut values = self.values.lock().unwrap();
        if self.kind == Kind::Stack {
            return values.list.pop_back();
        }
        // The first value of the last one's producer: the order of each producer is kept.
        if self.kind == Kind::Shards {
            let producer = values.list.back()? >> 32;
            let place = values.list.iter().position(|value| value >> 32 == producer)?;
            return values.list.remove(place);
        }
        let value = *values.list.front()?;
        values.found += 1;
        // The fault of `wrong`: every 4th value that is found is left in place.
        if self.kind != Kind::Wrong || values.found % 4 != 0 {
            values.list.pop_front();
        }
        Some(value)
    }

    // The fault of `early`: a value is in the list before it is counted, and another thread may take it meanwhile.
    fn take_counted(&self) -> Option<u64> {
        if self.size.load(Ordering::SeqCst) <= 0 {
            return None;
        }
        let value = self.take()?;
        self.size.fetch_sub(1, Ordering::SeqCst);
        Some(value)
    }

    fn is_100th(&self) -> bool {
        self.dequeues.fetch_add(1, Ordering::SeqCst) == 99
    }
}

impl recorder::Queue for Queue {
    fn enqueue(&self, value: u64) -> bool {
        self.values.lock().unwrap().list.push_back(value);
        if self.kind == Kind::Early {
            if value % 8 == 0 {
                thread::yield_now();
            }
            self.size.fetch_add(1, Ordering::SeqCst);
        }
        true
    }

    fn dequeue(&self) -> Option<u64> {
        match self.kind {
            Kind::Early => self.take_counted(),
            Kind::Hang if self.is_100th() => loop {
                thread::park();
            },
            Kind::Throw if self.is_100th() => panic!("the 100th dequeue"),
            _ => self.take(),
        }
    }
}

/// Which operations are enqueues if no pattern is named; a thread begins at its number and goes round.
const STEPS: &[u8; 8] = b"EEDDDEED";

/// A loop of one's own, recorded.
fn record_steps(options: &Options, queue: &impl recorder::Queue) -> History {
    for value in options.initial_values() {
        queue.enqueue(value);
    }
    recorder::record_with(options, |thread| {
        for n in 0..options.operations {
            if STEPS[(n + thread.number()) % 8] == b'E' {
                thread.enqueue(|value| queue.enqueue(value));
            } else {
                thread.dequeue(|| queue.dequeue());
            }
        }
    })
}

fn number(name: &str, word: &str, least: u64, most: u64) -> Result<u64, String> {
    let is_number = !word.is_empty() && word.bytes().all(|byte| byte.is_ascii_digit());
    if !is_number {
        return Err(format!("{name} is a number, and not {word:?}"));
    }
    let found = word.parse().ok().filter(|number| (least..=most).contains(number));
    found.ok_or_else(|| format!("{name} is {least} to {most}, and not {word}"))
}

fn set(options: &mut Options, name: &str, word: &str) -> Result<(), String> {
    match name {
        "--runs" => options.runs = number(name, word, 1, 1_000_000)?,
        "--threads" => options.threads = number(name, word, 1, 64)? as usize,
        "--ops" => options.operations = number(name, word, 1, 1_000_000)? as usize,
        "--pattern" => options.pattern = Some(word.parse()?),
        "--percent" => options.percent = number(name, word, 0, 100)?,
        "--seed" => options.seed = number(name, word, 0, u32::MAX.into())?,
        "--initial" => options.initial = number(name, word, 0, recorder::MAX_INITIAL as u64)? as usize,
        "--condition" => options.condition = word.parse()?,
        "--overtaken-at-most" => options.overtaken_at_most = Some(number(name, word, 0, 1_000_000)?),
        "--folder" => options.folder = PathBuf::from(word),
        "--producers" => options.producers = number(name, word, 0, 63)? as usize,
        "--keep" => options.keep = number(name, word, 0, 1)? == 1,
        "--timeout" => options.timeout = Duration::from_secs(number(name, word, 1, 86_400)?),
        _ => return Err(format!("no option {name:?}")),
    }
    Ok(())
}

/// The settings, and whether they are those of one run.
fn settings(words: &[String]) -> Result<(Options, bool), String> {
    let mut options = Options::default();
    let is_one_run = words.first().is_some_and(|word| !word.starts_with("--"));
    if is_one_run {
        let names = ["--threads", "--ops", "--pattern", "--seed", "--initial"];
        if words.len() < 2 || words.len() > names.len() {
            return Err("one run is QUEUE THREADS OPERATIONS [PATTERN [SEED [INITIAL]]]".to_string());
        }
        let mut pairs = names.iter().zip(words).filter(|(_, word)| *word != "loop");
        pairs.try_for_each(|(name, word)| set(&mut options, name, word))?;
        options.drain = false;
    } else {
        for pair in words.chunks(2) {
            let [name, word] = pair else {
                return Err(format!("{} has no value", pair[0]));
            };
            set(&mut options, name, word)?;
        }
    }
    if options.threads * options.operations > recorder::MAX_OPERATIONS {
        return Err(format!("at most {} operations of all threads", recorder::MAX_OPERATIONS));
    }
    let has_roles = options.producers == 0 || options.pattern_of(0) == recorder::Pattern::Roles;
    if options.producers >= options.threads || !has_roles {
        return Err("fewer producers than threads, with the pattern roles".to_string());
    }
    Ok((options, is_one_run))
}

fn one_run(options: &Options, queue: &Queue) -> ExitCode {
    let history =
        if options.pattern.is_some() { recorder::run(options, queue) } else { record_steps(options, queue) };
    for failure in history.failures() {
        eprintln!("fifobench: seed {}: {failure}", options.seed);
    }
    match history.write(io::stdout().lock()) {
        Err(_) => ExitCode::from(3),
        Ok(()) if history.failures().is_empty() => ExitCode::SUCCESS,
        Ok(()) => ExitCode::from(Answer::Wrong as u8),
    }
}

fn main() -> ExitCode {
    let words: Vec<String> = env::args().skip(1).collect();
    let parsed = match words.split_first() {
        None => Err("which queue? good, wrong, stack, shards, early, hang or throw".to_string()),
        Some((queue, words)) => queue.parse::<Kind>().and_then(|kind| Ok((kind, settings(words)?))),
    };
    match parsed {
        Err(told) => {
            eprintln!("queue: {told}");
            ExitCode::from(Answer::Wrong as u8)
        }
        Ok((kind, (options, true))) => one_run(&options, &Queue::new(kind)),
        Ok((kind, (options, false))) => ExitCode::from(recorder::search(&options, || Queue::new(kind)) as u8),
    }
}
