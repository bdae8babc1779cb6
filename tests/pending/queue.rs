//! A queue that ends a run early: see run, which says what a search of it has to say.
//!
//!     queue ORDER END FOLDER
//!
//! ORDER is fifo or lifo. END is what the second dequeue does: lock, wait, throw, abort, null, overflow, kill, or fine;
//! or, with late, what the 250th does: it waits.

#[path = "../../examples/recorders/rust/recorder.rs"]
mod recorder;

use std::collections::VecDeque;
use std::hint;
use std::path::PathBuf;
use std::process::{self, Command, ExitCode};
use std::sync::{Condvar, Mutex};
use std::thread;
use std::time::Duration;
use std::{env, fs, panic, ptr};

struct Queue {
    order: String,
    end: String,
    journal: PathBuf,
    // The values, and how many dequeues were called.
    inside: Mutex<(VecDeque<u64>, u32)>,
    lock: Mutex<()>,
    never: Condvar,
}

impl Queue {
    fn new(order: &str, end: &str, folder: &str) -> Queue {
        let (order, end, journal) = (order.to_string(), end.to_string(), PathBuf::from(folder).join("3.pending"));
        Queue { order, end, journal, inside: Mutex::default(), lock: Mutex::new(()), never: Condvar::new() }
    }

    fn end_early(&self) {
        match self.end.as_str() {
            "lock" => {
                let _first = self.lock.lock();
                let _second = self.lock.lock();
            }
            "wait" | "late" => {
                let guard = self.lock.lock().unwrap();
                let _guard = self.never.wait_while(guard, |_| true).unwrap();
            }
            "throw" => panic!("no value today"),
            "abort" => process::abort(),
            "null" => unsafe { ptr::null_mut::<u32>().write_volatile(1) },
            "overflow" => process::exit(deep(&[1; 1024]) as i32),
            "kill" => {
                // The journal has the call that is pending.
                while !fs::read_to_string(&self.journal).is_ok_and(|text| text.ends_with("\n52 0 call-deq\n")) {
                    thread::sleep(Duration::from_millis(1));
                }
                let _ = Command::new("kill").args(["-9", &process::id().to_string()]).status();
            }
            _ => {}
        }
    }
}

// The stack overflows, so the signal needs one of its own.
fn deep(above: &[u32; 1024]) -> u32 {
    let mut here = *above;
    here[0] = hint::black_box(above[0]);
    if here[0] == 0 { 0 } else { deep(&here) + hint::black_box(here[5]) }
}

impl recorder::Queue for Queue {
    fn enqueue(&self, value: u64) -> bool {
        self.inside.lock().unwrap().0.push_back(value);
        true
    }

    fn dequeue(&self) -> Option<u64> {
        let is_the_one = {
            let mut inside = self.inside.lock().unwrap();
            inside.1 += 1;
            inside.1 == if self.end == "late" { 250 } else { 2 }
        };
        if is_the_one {
            self.end_early();
        }
        let values = &mut self.inside.lock().unwrap().0;
        if self.order == "lifo" { values.pop_back() } else { values.pop_front() }
    }
}

fn main() -> ExitCode {
    let words: Vec<String> = env::args().skip(1).collect();
    let [order, end, folder] = words.as_slice() else { return ExitCode::from(3) };
    // The recorder says it too.
    panic::set_hook(Box::new(|_| {}));
    let options = recorder::Options {
        threads: 1,
        operations: if end == "late" { 600 } else { 60 },
        seed: if end == "late" { 1 } else { 3 }, // alternate; bursts, the first of 25
        runs: 1,
        timeout: Duration::from_secs(if ["lock", "wait", "late"].contains(&end.as_str()) { 1 } else { 30 }),
        journal: end == "kill",
        folder: PathBuf::from(folder),
        ..recorder::Options::default()
    };
    ExitCode::from(recorder::search(&options, || Queue::new(order, end, folder)) as u8)
}
