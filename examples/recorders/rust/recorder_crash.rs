//! What a run leaves if it dies: `recorder.rs` takes this file in under `--cfg fifobench_crash`.
//!
//! A crash. While a search runs, a signal that the queue dies of (SIGSEGV, SIGBUS, SIGFPE, SIGILL, SIGABRT) lets the
//! run's watchdog keep and judge what was recorded. Then the process dies of the signal, and a handler that was there
//! before is called first. On Linux and macOS.
//!
//! A kill. With `Options::journal` the events reach FOLDER/SEED.pending a few milliseconds after they are noted. A
//! complete run removes that file. What a killed run has left is judged by
//!
//! ```text
//! fifobench complete --cut < fifobench-runs/7.pending | fifobench check
//! ```
//!
//! and the next search says so, after it has renamed the file to SEED.killed.

use super::judge::{keep, program, say};
use super::{head, Chunk, Event, History, Options, Run};
use std::cell::Cell;
use std::ffi::{c_char, c_int, c_uint, c_void, CStr};
use std::fs::{self, File, OpenOptions};
use std::io::{BufWriter, Write};
use std::path::PathBuf;
use std::process;
use std::ptr;
use std::sync::atomic::{AtomicI32, AtomicUsize, Ordering};
use std::sync::{Mutex, PoisonError};

extern "C" {
    fn sigaction(number: c_int, action: *const c_void, before: *mut c_void) -> c_int;
    fn signal(number: c_int, handler: usize) -> usize;
    fn raise(number: c_int) -> c_int;
    fn sleep(seconds: c_uint) -> c_uint;
    fn strsignal(number: c_int) -> *const c_char;
}

const SIG_DFL: usize = 0;
const SIGBUS: c_int = if cfg!(target_os = "linux") { 7 } else { 10 };
// SIGILL, SIGABRT, SIGBUS, SIGFPE, SIGSEGV.
const SIGNALS: [c_int; 5] = [4, 6, SIGBUS, 8, 11];

// The system's `struct sigaction`, of which the handler is the first field, with room for the rest.
#[repr(C)]
#[derive(Clone, Copy)]
struct Action([usize; 32]);

// The signal that a thread has died of, and the address of its run; 0 before.
static DIED_OF: AtomicI32 = AtomicI32::new(0);
static DIED_IN: AtomicUsize = AtomicUsize::new(0);
// The run that began last, in which threads of the queue's own die.
static LAST: AtomicUsize = AtomicUsize::new(0);
// The actions before the first of the searches that go on, and how many these are.
static BEFORE: Mutex<(usize, [Action; SIGNALS.len()])> = Mutex::new((0, [Action([0; 32]); SIGNALS.len()]));

thread_local! {
    static RUN: Cell<usize> = const { Cell::new(0) };
    static IS_WATCHDOG: Cell<bool> = const { Cell::new(false) };
}

fn address(run: &Run) -> usize {
    ptr::from_ref(run) as usize
}

/// Called in each thread of a run, before its first call.
pub(super) fn enter(run: &Run) {
    RUN.set(address(run));
}

// Lets the run be judged before a thread dies of a signal. Waits a minute at most: judging may need its lock.
extern "C" fn handle(number: c_int) {
    let run = if RUN.get() != 0 { RUN.get() } else { LAST.load(Ordering::SeqCst) };
    let is_first = DIED_OF.compare_exchange(0, number, Ordering::SeqCst, Ordering::SeqCst).is_ok();
    if is_first {
        DIED_IN.store(run, Ordering::SeqCst);
    }
    if IS_WATCHDOG.get() && is_first {
        return; // from outside, as by kill
    }
    let mut left = if run == 0 || IS_WATCHDOG.get() { 0 } else { 60 };
    while left > 0 {
        left = unsafe { sleep(left) };
    }
    unsafe {
        signal(number, SIG_DFL);
        raise(number);
    }
}

/// The signals of a search, handled while it lasts.
pub(super) struct Search;

impl Search {
    /// Names the texts that killed runs of an earlier search have left, and begins to handle signals.
    pub(super) fn new(options: &Options) -> Search {
        for number in 0..options.runs {
            name_killed(&Options { seed: options.seed.wrapping_add(number), ..options.clone() });
        }
        let mut before = BEFORE.lock().unwrap_or_else(PoisonError::into_inner);
        before.0 += 1;
        if before.0 == 1 {
            for (number, action) in SIGNALS.into_iter().zip(&mut before.1) {
                unsafe {
                    sigaction(number, ptr::null(), ptr::from_mut(action).cast());
                    let mut ours = *action;
                    ours.0[0] = handle as extern "C" fn(c_int) as usize;
                    sigaction(number, ptr::from_ref(&ours).cast(), ptr::null_mut());
                }
            }
        }
        Search
    }
}

impl Drop for Search {
    fn drop(&mut self) {
        let mut before = BEFORE.lock().unwrap_or_else(PoisonError::into_inner);
        before.0 -= 1;
        if before.0 == 0 {
            for (number, action) in SIGNALS.into_iter().zip(&before.1) {
                unsafe { sigaction(number, ptr::from_ref(action).cast(), ptr::null_mut()) };
            }
        }
    }
}

// Names the text of a run if it lacks its last line, as a killed run leaves it.
fn name_killed(options: &Options) {
    let [path, killed] = ["pending", "killed"].map(|kind| options.folder.join(format!("{}.{kind}", options.seed)));
    let Ok(text) = fs::read(&path) else { return };
    let whole = text.strip_suffix(b"\n").unwrap_or_default();
    let last = whole.rsplit(|byte| *byte == b'\n').next().unwrap_or_default();
    if !last.starts_with(b"end ") && fs::rename(&path, &killed).is_ok() {
        let (program, killed) = (program(options).display().to_string(), killed.display());
        say(&format!("fifobench: seed {} was killed in an earlier search", options.seed));
        say(&format!("  judge:   {program} complete --cut < {killed} | {program} check"));
    }
}

// The events of a run in a file.
struct Journal<'a> {
    path: PathBuf,
    file: BufWriter<File>,
    // Of each thread the next event's place.
    places: Vec<(&'a Chunk, usize)>,
    ticket: u64,
}

impl<'a> Journal<'a> {
    fn new(run: &'a Run, initial: &[u64]) -> Result<Journal<'a>, String> {
        let path = keep(run.options, "pending", head("fifo-pending", initial).as_bytes())?;
        let file = OpenOptions::new().append(true).open(&path).map_err(|error| error.to_string())?;
        let places = run.chunks.iter().map(|chunk| (chunk, 0)).collect();
        Ok(Journal { path, file: BufWriter::new(file), places, ticket: 0 })
    }

    // Returns the next event if it is published. Tickets have no gap, so some thread has it next.
    fn next(&mut self) -> Option<Event> {
        for (thread, (chunk, place)) in self.places.iter_mut().enumerate() {
            if let (true, Some(next)) = (*place == chunk.slots.len(), chunk.next.get()) {
                (*chunk, *place) = (next, 0);
            }
            if *place < chunk.count.load(Ordering::Acquire) {
                let [head, value] = [0, 1].map(|field| chunk.slots[*place][field].load(Ordering::Relaxed));
                if head >> 3 == self.ticket {
                    *place += 1;
                    self.ticket += 1;
                    return Some(Event { ticket: head >> 3, thread, what: head & 7, value });
                }
            }
        }
        None
    }

    fn write(&mut self) {
        while let Some(event) = self.next() {
            let _ = writeln!(self.file, "{event}");
        }
        let _ = self.file.flush();
    }
}

/// The journal of a run, and a look for a signal that ends it.
pub(super) struct Watch<'a> {
    run: &'a Run<'a>,
    initial: &'a [u64],
    journal: Option<Journal<'a>>,
}

impl<'a> Watch<'a> {
    pub(super) fn new(run: &'a Run, initial: &'a [u64]) -> Watch<'a> {
        IS_WATCHDOG.set(true);
        LAST.store(address(run), Ordering::SeqCst);
        let journal = run.options.journal.then(|| Journal::new(run, initial));
        let journal = journal.and_then(|journal| journal.map_err(|error| say(&format!("fifobench: {error}"))).ok());
        Watch { run, initial, journal }
    }

    /// Appends the new events to the journal, and ends the process if a thread has died.
    pub(super) fn look(&mut self) {
        if DIED_IN.load(Ordering::SeqCst) == address(self.run) {
            self.die(DIED_OF.load(Ordering::SeqCst));
        }
        if let Some(journal) = &mut self.journal {
            journal.write();
        }
    }

    fn die(&self, number: c_int) -> ! {
        let name = unsafe { CStr::from_ptr(strsignal(number)) }.to_string_lossy();
        let history = History { events: self.run.events(), initial: self.initial.to_vec(), failures: Vec::new() };
        history.end_early(self.run.options, &format!("crash: {name}"), "The crash itself is the fault.");
        let before = BEFORE.lock().unwrap_or_else(PoisonError::into_inner).1;
        if let Some(place) = SIGNALS.iter().position(|one| *one == number) {
            unsafe {
                sigaction(number, ptr::from_ref(&before[place]).cast(), ptr::null_mut());
                raise(number);
                signal(number, SIG_DFL);
                raise(number);
            }
        }
        process::abort()
    }
}

impl Drop for Watch<'_> {
    fn drop(&mut self) {
        let _ = LAST.compare_exchange(address(self.run), 0, Ordering::SeqCst, Ordering::SeqCst);
        if let Some(journal) = &self.journal {
            let _ = fs::remove_file(&journal.path);
        }
    }
}
