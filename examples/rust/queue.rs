//! A VecDeque under a Mutex, and the same made wrong on purpose: recorded, and judged in this process.
//!
//!     queue good|wrong THREADS OPERATIONS
//!
//! The status is the verdict's, 0 `YES` or 1 `NO`; for a `NO` the few operations that show the violation are printed.

#[path = "../recorders/rust/recorder.rs"]
mod recorder;

use fifobench::Error;
use std::collections::VecDeque;
use std::env;
use std::process::ExitCode;
use std::sync::Mutex;

#[derive(Default)]
struct Values {
    list: VecDeque<u64>,
    found: u64,
}

struct Queue {
    values: Mutex<Values>,
    is_wrong: bool,
}

impl Queue {
    fn push(&self, value: u64) -> bool {
        self.values.lock().unwrap().list.push_back(value);
        true
    }

    fn pop(&self) -> Option<u64> {
        let mut values = self.values.lock().unwrap();
        let value = *values.list.front()?;
        values.found += 1;
        // The fault: every 4th value that is found is left in place.
        if !self.is_wrong || values.found % 4 != 0 {
            values.list.pop_front();
        }
        Some(value)
    }
}

/// Which operations are enqueues, from the thread's number on and over and over.
const PLAN: &[u8; 8] = b"EEDDDEED";

/// The number that a word is, or what is wrong with it.
fn number_in(name: &str, word: &str) -> Result<usize, String> {
    word.parse().map_err(|_| format!("queue: {name} has to be a number, and is '{word}'"))
}

/// Whether the queue is the wrong one, threads, and operations of each; or what is wrong with the words.
fn words() -> Result<(bool, usize, usize), String> {
    let words: Vec<String> = env::args().collect();
    let usage = "usage: queue good|wrong THREADS OPERATIONS";
    let [_, queue, threads, operations] = &words[..] else {
        return Err(usage.to_owned());
    };
    let is_wrong = match queue.as_str() {
        "good" => false,
        "wrong" => true,
        _ => return Err(usage.to_owned()),
    };
    let (threads, operations) = (number_in("THREADS", threads)?, number_in("OPERATIONS", operations)?);
    if !(1..=64).contains(&threads) || operations > 1_000_000 / threads {
        return Err("queue: 1 to 64 threads, and at most 1000000 operations together".to_owned());
    }
    Ok((is_wrong, threads, operations))
}

/// The text of what the threads did with the queue.
fn recorded(queue: &Queue, threads: usize, operations: usize) -> String {
    let history = recorder::record(threads, operations, |thread| {
        for n in 0..operations {
            if PLAN[(n + thread.number()) % 8] == b'E' {
                thread.enqueue(|value| queue.push(value));
            } else {
                thread.dequeue(|| queue.pop());
            }
        }
    });
    let mut text = Vec::new();
    history.write(&mut text).expect("a Vec takes all bytes");
    String::from_utf8(text).expect("a history is ASCII")
}

/// Prints the verdict, or the operations that show a violation; and whether the history is linearizable.
fn judge(text: &str) -> Result<bool, Error> {
    let verdict = fifobench::check(text)?;
    if verdict.is_yes {
        println!("YES");
        return Ok(true);
    }
    let shrunk = fifobench::shrink(text)?;
    // Whoever gets the report can check it.
    assert!(fifobench::verify(&shrunk.text)?.is_yes);
    print!("{}", shrunk.text);
    Ok(false)
}

fn main() -> ExitCode {
    let (is_wrong, threads, operations) = match words() {
        Ok(words) => words,
        Err(mistake) => {
            eprintln!("{mistake}");
            return ExitCode::from(2);
        }
    };
    let queue = Queue { values: Mutex::default(), is_wrong };
    match judge(&recorded(&queue, threads, operations)) {
        Ok(true) => ExitCode::SUCCESS,
        Ok(false) => ExitCode::from(1),
        Err(error) => {
            eprintln!("queue: {error}");
            ExitCode::from(3)
        }
    }
}
