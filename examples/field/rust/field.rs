//! What the Rust programs of this folder share: a search over one of their queues.
//!
//! ```text
//! PROGRAM QUEUE SIZE THREADS PRODUCERS OPERATIONS RUNS INITIAL DRAIN FOLDER
//! ```
//!
//! SIZE is the capacity of a bounded queue. The others are settings of the recorder; DRAIN is 0 or 1.

#[path = "../../recorders/rust/recorder.rs"]
mod recorder;

use recorder::{Answer, Options, Queue};
use std::env;
use std::error::Error;
use std::process::ExitCode;

/// The settings of a search, and the capacity of a bounded queue.
pub struct Asked {
    options: Options,
    size: usize,
}

impl Asked {
    /// Searches over queues that `make` makes of their capacity: pairs of closures, the enqueue and the dequeue.
    pub fn search<Made: Queue>(&self, make: impl Fn(usize) -> Made) -> u8 {
        recorder::search(&self.options, || make(self.size)) as u8
    }
}

/// A name, and what searches over this queue.
pub type Named = (&'static str, fn(&Asked) -> u8);

fn search_one_of(queues: &[Named]) -> Result<u8, Box<dyn Error>> {
    let words: Vec<String> = env::args().skip(1).take(9).collect();
    let [name, numbers @ .., folder] = &words[..] else { return Err("nine arguments".into()) };
    let numbers = numbers.iter().map(|word| word.parse()).collect::<Result<Vec<usize>, _>>()?;
    let [size, threads, producers, operations, runs, initial, drain] = numbers[..] else {
        return Err("nine arguments".into());
    };
    let (_, search) = queues.iter().find(|(known, _)| known == name).ok_or("no such queue")?;
    // Values are 1 and more, as in the other languages.
    let (runs, drain, folder) = (runs as u64, drain == 1, folder.into());
    let set = Options { threads, producers, operations, runs, initial, drain, folder, ..Options::default() };
    Ok(search(&Asked { options: Options { first: 1, keep: true, ..set }, size }))
}

/// The status of the search that the arguments ask for; 2 if they are wrong.
pub fn run(queues: &[Named]) -> ExitCode {
    let status = search_one_of(queues).unwrap_or_else(|error| {
        eprintln!("field: {error}");
        Answer::Wrong as u8
    });
    ExitCode::from(status)
}
