//! Records what threads do with a FIFO queue, and searches for a run that no FIFO queue can have made. Rust with its
//! standard library, this file and `recorder_judge.rs` beside it. In a test:
//!
//! ```ignore
//! mod recorder;
//!
//! impl recorder::Queue for MyQueue {
//!     fn enqueue(&self, value: u64) -> bool {
//!         self.push(value).is_ok() // false: the queue is full
//!     }
//!     fn dequeue(&self) -> Option<u64> {
//!         self.pop() // none: the queue is empty
//!     }
//! }
//!
//! #[test]
//! fn my_queue_is_linearizable() {
//!     let answer = recorder::search(&recorder::Options::default(), MyQueue::new);
//!     assert_eq!(answer, recorder::Answer::NoViolation);
//! }
//! ```
//!
//! `FIFOBENCH=/path/to/fifobench cargo test -- --nocapture` then makes 100 short runs, each over a fresh queue, judges
//! each, and prints how many operations overlap. A loop of your own is recorded by `record`. docs/RECORDING.md has the
//! rules that this module keeps. With `recorder_crash.rs` beside this file and `--cfg fifobench_crash` a run that
//! crashes or is killed leaves a text too.

#![allow(dead_code, unexpected_cfgs)] // A test uses a part of it.

#[path = "recorder_judge.rs"]
mod judge;

#[cfg(fifobench_schedule)]
#[path = "schedule_runs.rs"]
mod schedule;

#[cfg(fifobench_crash)]
#[path = "recorder_crash.rs"]
mod crash;

use judge::{say, told_wrong};
use std::any::Any;
use std::fmt::{self, Display};
use std::io::{self, BufWriter, Write};
use std::panic::{self, AssertUnwindSafe};
use std::path::PathBuf;
use std::process;
use std::str::FromStr;
use std::sync::atomic::{AtomicBool, AtomicU64, AtomicUsize, Ordering};
use std::sync::mpsc::{self, Receiver, RecvTimeoutError};
use std::sync::OnceLock;
use std::thread;
use std::time::{Duration, Instant};

pub const MAX_THREADS: usize = 64;
pub const MAX_OPERATIONS: usize = 1_000_000;
pub const MAX_EVENTS: u64 = 2_000_000;
pub const MAX_INITIAL: usize = 100_000;

/// A queue that is tested.
pub trait Queue: Sync {
    /// Whether the queue took the value: false if it was full or had no memory.
    fn enqueue(&self, value: u64) -> bool;
    /// The value that the queue gave, or none if it said that it is empty.
    fn dequeue(&self) -> Option<u64>;
    /// Puts an initial value in, before the threads start. It is no operation of the run.
    fn preload(&self, value: u64) -> bool {
        self.enqueue(value)
    }

    /// Called in each thread before the common start, for queues whose threads register.
    fn enter(&self, _thread: usize) {}
    /// Called in each thread after its last operation.
    fn leave(&self, _thread: usize) {}
}

/// Two closures are a queue.
impl<E: Fn(u64) -> bool + Sync, D: Fn() -> Option<u64> + Sync> Queue for (E, D) {
    fn enqueue(&self, value: u64) -> bool {
        self.0(value)
    }
    fn dequeue(&self) -> Option<u64> {
        self.1()
    }
}

/// Which operations a thread makes.
#[derive(Clone, Copy, Debug, PartialEq, Eq)]
pub enum Pattern {
    /// Enqueue, dequeue, enqueue, ..
    Alternate,
    /// Each operation by chance, [`Options::percent`] of a hundred of them enqueues.
    Mix,
    /// 1 to 32 enqueues, by chance, and then as many dequeues.
    Bursts,
    /// Threads of even number enqueue and the others dequeue; one thread alone alternates.
    Roles,
}

impl Pattern {
    pub const ALL: [Pattern; 4] = [Pattern::Alternate, Pattern::Mix, Pattern::Bursts, Pattern::Roles];
}

impl Display for Pattern {
    fn fmt(&self, f: &mut fmt::Formatter) -> fmt::Result {
        f.write_str(["alternate", "mix", "bursts", "roles"][*self as usize])
    }
}

impl FromStr for Pattern {
    type Err = String;

    fn from_str(word: &str) -> Result<Pattern, String> {
        let found = Pattern::ALL.into_iter().find(|pattern| pattern.to_string() == word);
        found.ok_or_else(|| format!("no pattern {word:?}: alternate, mix, bursts or roles"))
    }
}

/// What a history has to meet. docs/RECORDING.md says which queues promise no more than the weaker ones.
#[derive(Clone, Copy, Debug, PartialEq, Eq)]
pub enum Condition {
    Linearizable,
    /// The values of each producer alone are in order.
    Local,
    /// An empty dequeue promises nothing.
    WeakEmpty,
    Both,
}

impl Condition {
    pub const ALL: [Condition; 4] = [Condition::Linearizable, Condition::Local, Condition::WeakEmpty, Condition::Both];
}

impl Display for Condition {
    fn fmt(&self, f: &mut fmt::Formatter) -> fmt::Result {
        f.write_str(["linearizable", "local", "weak-empty", "both"][*self as usize])
    }
}

impl FromStr for Condition {
    type Err = String;

    fn from_str(word: &str) -> Result<Condition, String> {
        let found = Condition::ALL.into_iter().find(|condition| condition.to_string() == word);
        found.ok_or_else(|| format!("no condition {word:?}: linearizable, local, weak-empty or both"))
    }
}

/// The settings of a run and of a search.
#[derive(Clone, Debug)]
pub struct Options {
    /// 1 to 64.
    pub threads: usize,
    /// Operations of each thread; 0: by the seed, 500, 100 or 2,500.
    pub operations: usize,
    /// If there is none, the four take turns by seed.
    pub pattern: Option<Pattern>,
    /// Threads 0 to `producers` - 1 enqueue and the others dequeue; 0: the pattern says who does what.
    pub producers: usize,
    /// Enqueues of a hundred operations, for the pattern `Mix`.
    pub percent: u64,
    /// That of the run, or of the first run of a search.
    pub seed: u64,
    /// How many runs a search makes at most.
    pub runs: u64,
    /// A run without an event for so long is given up as hanging.
    pub timeout: Duration,
    /// The value of each thread's operation n from 0, which is called with n + `first`. Values have to differ.
    pub value: fn(thread: usize, n: u64) -> u64,
    /// Added to n; 1 for a queue that takes 0 for "nothing".
    pub first: u64,
    /// How many values the queue is given before the threads start: those of a thread 64, as a rule 2^38, 2^38 + 1, ..
    pub initial: usize,
    /// Whether values are taken out after the threads have ended, until the queue says that it is empty.
    pub drain: bool,
    /// With `--cfg fifobench_crash`: events reach FOLDER/SEED.pending while the run goes on.
    pub journal: bool,
    /// Whether a search keeps the histories without a violation too.
    pub keep: bool,
    /// What a history has to meet.
    pub condition: Condition,
    /// More values that one dequeue overtakes are a violation.
    pub overtaken_at_most: Option<u64>,
    /// Where histories and reports are kept.
    pub folder: PathBuf,
    /// The program `fifobench`; else that of the environment variable FIFOBENCH, else that on the PATH.
    pub program: Option<PathBuf>,
}

impl Default for Options {
    fn default() -> Options {
        Options {
            threads: 4,
            operations: 0,
            pattern: None,
            producers: 0,
            percent: 50,
            seed: 1,
            runs: if cfg!(fifobench_schedule) { 300 } else { 100 },
            timeout: Duration::from_secs(30),
            value: |thread, n| (thread as u64) << 32 | n,
            first: 0,
            initial: 0,
            drain: true,
            journal: false,
            keep: false,
            condition: Condition::Linearizable,
            overtaken_at_most: None,
            folder: PathBuf::from("fifobench-runs"),
            program: None,
        }
    }
}

impl Options {
    /// The pattern of this seed.
    pub fn pattern_of(&self, seed: u64) -> Pattern {
        let in_turn = Pattern::ALL[(seed.wrapping_add(3) % 4) as usize];
        self.pattern.unwrap_or(if self.producers > 0 { Pattern::Roles } else { in_turn })
    }

    /// The number of operations of each thread for this seed.
    ///
    /// Seeds 1 to 4 have 500, 5 to 8 have 100, 9 to 12 have 500, and 13 to 16 have 2,500, which let a ring of 1,024
    /// places go round; and so on.
    pub fn operations_of(&self, seed: u64) -> usize {
        let of_seed = [2_500, 500, 100, 500][(seed.wrapping_add(3) / 4 % 4) as usize];
        if self.operations == 0 { of_seed } else { self.operations }
    }

    /// The values that the queue holds first. Before a loop of your own you put them in, in this order.
    pub fn initial_values(&self) -> Vec<u64> {
        (0..self.initial as u64).map(|place| (self.value)(MAX_THREADS, place)).collect()
    }

    // The settings of the run of a seed.
    fn of_run(&self, seed: u64) -> Options {
        Options { seed, operations: self.operations_of(seed), ..self.clone() }
    }

    fn check(&self) {
        assert!((1..=MAX_THREADS).contains(&self.threads), "1 to {MAX_THREADS} threads");
        let is_met = self.threads.saturating_mul(self.operations_of(self.seed)) <= MAX_OPERATIONS;
        assert!(is_met, "at most {MAX_OPERATIONS} operations of all threads");
        let has_roles = self.producers == 0 || self.pattern_of(0) == Pattern::Roles;
        assert!(self.producers < self.threads && has_roles, "fewer producers than threads, with the pattern roles");
        assert!(self.percent <= 100, "at most 100 percent are enqueues");
        assert!(self.initial <= MAX_INITIAL, "at most {MAX_INITIAL} initial values");
        assert!(!self.journal || cfg!(fifobench_crash), "a journal needs --cfg fifobench_crash");
    }
}

/// What a search found. Its number is the status that a program ends with.
#[derive(Clone, Copy, Debug, PartialEq, Eq)]
pub enum Answer {
    NoViolation = 0,
    Violation = 1,
    /// No program, a refused history, a panic in a call: what is wrong is said on standard error.
    Wrong = 2,
}

// What an event is: a place in the list of its words.
const WORDS: [&str; 6] = ["call-enq", "ret-enq", "ret-not", "call-deq", "ret-deq", "ret-empty"];
const CALL_ENQ: u64 = 0;
const RET_ENQ: u64 = 1;
const RET_NOT: u64 = 2;
const CALL_DEQ: u64 = 3;
const RET_DEQ: u64 = 4;
const RET_EMPTY: u64 = 5;

#[derive(Clone, Copy)]
struct Event {
    ticket: u64,
    thread: usize,
    what: u64,
    value: u64, // of CALL_ENQ and RET_DEQ
}

impl Event {
    fn is_call(&self) -> bool {
        self.what == CALL_ENQ || self.what == CALL_DEQ
    }
}

impl Display for Event {
    fn fmt(&self, f: &mut fmt::Formatter) -> fmt::Result {
        let Event { ticket, thread, what, value } = self;
        write!(f, "{ticket} {thread} {}", WORDS[*what as usize])?;
        if *what == CALL_ENQ || *what == RET_DEQ { write!(f, " {value}") } else { Ok(()) }
    }
}

// Returns the lines before the events of a text.
fn head(name: &str, initial: &[u64]) -> String {
    let values: String = initial.iter().map(|value| format!("{value}\n")).collect();
    if initial.is_empty() { format!("{name} 1\n") } else { format!("{name} 2\ninitial {}\n{values}", initial.len()) }
}

// A part of the events of one thread. That thread alone writes; the watchdog may read what is counted while it does.
struct Chunk {
    slots: Box<[[AtomicU64; 2]]>, // the ticket times 8 plus the event's word, and the value
    count: AtomicUsize,
    next: OnceLock<Box<Chunk>>,
}

impl Chunk {
    fn new(places: usize) -> Chunk {
        let slots = (0..places).map(|_| [AtomicU64::new(0), AtomicU64::new(0)]).collect();
        Chunk { slots, count: AtomicUsize::new(0), next: OnceLock::new() }
    }

    fn read(&self, thread: usize, events: &mut Vec<Event>) {
        let count = self.count.load(Ordering::Acquire);
        events.extend(self.slots[..count].iter().map(|[head, value]| {
            let head = head.load(Ordering::Relaxed);
            Event { ticket: head >> 3, thread, what: head & 7, value: value.load(Ordering::Relaxed) }
        }));
        if let Some(next) = self.next.get() {
            next.read(thread, events);
        }
    }
}

// What the threads of a run share.
struct Run<'a> {
    options: &'a Options,
    tickets: AtomicU64,
    chunks: Vec<Chunk>,
    ended: AtomicUsize,
    has_failed: AtomicBool,
}

impl Run<'_> {
    fn new(options: &Options) -> Run<'_> {
        let places = (2 * options.operations).max(64);
        let chunks = (0..options.threads).map(|_| Chunk::new(places)).collect();
        let (tickets, ended) = (AtomicU64::new(0), AtomicUsize::new(0));
        Run { options, tickets, chunks, ended, has_failed: AtomicBool::new(false) }
    }

    fn thread(&self, number: usize) -> Thread<'_> {
        Thread { run: self, number, asked: 0, chunk: &self.chunks[number], used: 0 }
    }

    // Stays until all threads have made their operations; false if one failed.
    fn have_all_ended(&self) -> bool {
        #[cfg(fifobench_schedule)]
        schedule::alone();
        while self.ended.load(Ordering::SeqCst) < self.options.threads && !self.has_failed.load(Ordering::SeqCst) {
            thread::sleep(Duration::from_micros(50));
        }
        !self.has_failed.load(Ordering::SeqCst)
    }

    // The events by ticket. While threads run, those up to the first that isn't there yet.
    fn events(&self) -> Vec<Event> {
        let mut events = Vec::new();
        for (thread, chunk) in self.chunks.iter().enumerate() {
            chunk.read(thread, &mut events);
        }
        events.sort_unstable_by_key(|event| event.ticket);
        // Tickets are drawn from 0 on, so a ticket is its event's place.
        let whole = events.iter().zip(0..).take_while(|(event, place)| event.ticket == *place).count();
        events.truncate(whole);
        events
    }
}

/// What one thread records.
pub struct Thread<'a> {
    run: &'a Run<'a>,
    number: usize,
    asked: u64,
    chunk: &'a Chunk,
    used: usize,
}

impl Thread<'_> {
    /// Its number, from 0.
    pub fn number(&self) -> usize {
        self.number
    }

    /// Calls `call` with a value that no other call has. It says whether the queue took the value: false if the queue
    /// was full or had no memory.
    pub fn enqueue(&mut self, call: impl FnOnce(u64) -> bool) -> bool {
        let options = self.run.options;
        let value = (options.value)(self.number, self.asked + options.first);
        self.asked += 1;
        self.note(CALL_ENQ, value);
        let taken = call(value);
        self.note(if taken { RET_ENQ } else { RET_NOT }, 0);
        taken
    }

    /// Calls `call`, which gives the value that the queue gave, or none if the queue said that it is empty.
    pub fn dequeue(&mut self, call: impl FnOnce() -> Option<u64>) -> Option<u64> {
        self.asked += 1;
        self.note(CALL_DEQ, 0);
        let found = call();
        self.note(if found.is_some() { RET_DEQ } else { RET_EMPTY }, found.unwrap_or(0));
        found
    }

    // The ticket is drawn first: of a call that is before the queue is asked, of a return after it has answered. What
    // came before a return is seen by every call that has a greater ticket: the order is sequentially consistent.
    fn note(&mut self, what: u64, value: u64) {
        #[cfg(fifobench_schedule)]
        schedule::before_ticket(what);
        let ticket = self.run.tickets.fetch_add(1, Ordering::SeqCst);
        assert!(ticket < MAX_EVENTS, "a history has at most {MAX_EVENTS} events");
        if self.used == self.chunk.slots.len() {
            self.chunk = self.chunk.next.get_or_init(|| Box::new(Chunk::new(2 * self.used)));
            self.used = 0;
        }
        let [head, of_value] = &self.chunk.slots[self.used];
        head.store(ticket << 3 | what, Ordering::Relaxed);
        of_value.store(value, Ordering::Relaxed);
        self.used += 1;
        self.chunk.count.store(self.used, Ordering::Release);
        #[cfg(fifobench_schedule)]
        schedule::after_ticket(what, value);
    }
}

// The core of a thread, by a system call of Linux that the standard library doesn't have.
#[cfg(all(target_os = "linux", target_arch = "x86_64"))]
mod core {
    use std::arch::asm;

    // Cores as bits.
    type Cores = [u8; 128];
    const SET_AFFINITY: isize = 203;
    const GET_AFFINITY: isize = 204;

    // Sets or gets the cores on which the calling thread may run.
    fn call(number: isize, cores: &mut Cores) -> isize {
        let mut outcome = number;
        // SAFETY: of memory the call touches the bytes of `cores` alone.
        unsafe {
            asm!("syscall", inlateout("rax") outcome, in("rdi") 0, in("rsi") cores.len(), in("rdx") cores.as_mut_ptr(),
                 lateout("rcx") _, lateout("r11") _, options(nostack));
        }
        outcome
    }

    /// While it lives, its thread stays on one core: thread 0 on the first core that it may run on, and so on.
    pub(super) struct Core(Option<Cores>);

    impl Core {
        pub(super) fn new(number: usize) -> Core {
            let mut before = [0; 128];
            let is_known = call(GET_AFFINITY, &mut before) > 0;
            let cores: Vec<usize> = (0..1024).filter(|core| before[core / 8] >> (core % 8) & 1 == 1).collect();
            if !is_known || cores.len() < 2 {
                return Core(None);
            }
            let core = cores[number % cores.len()];
            let mut one = [0; 128];
            one[core / 8] = 1 << (core % 8);
            Core((call(SET_AFFINITY, &mut one) == 0).then_some(before))
        }
    }

    impl Drop for Core {
        fn drop(&mut self) {
            if let Some(before) = &mut self.0 {
                call(SET_AFFINITY, before);
            }
        }
    }
}

#[cfg(not(all(target_os = "linux", target_arch = "x86_64")))]
mod core {
    pub(super) struct Core;

    impl Core {
        pub(super) fn new(_number: usize) -> Core {
            Core
        }
    }
}

// The common start: threads wait, each on a core of its own, for a bounded time, until all are there and two are seen
// to run at once. Then all begin, on any core.
struct Start {
    threads: usize,
    arrived: AtomicUsize,
    last_by: AtomicUsize,
    is_open: AtomicBool,
}

impl Start {
    fn new(threads: usize) -> Start {
        let [arrived, last_by] = [0, 0].map(AtomicUsize::new);
        Start { threads, arrived, last_by, is_open: AtomicBool::new(threads == 1) }
    }

    fn meet(&self, number: usize) {
        let _core = (!self.is_open.load(Ordering::SeqCst)).then(|| core::Core::new(number));
        self.arrived.fetch_add(1, Ordering::SeqCst);
        self.wait(Duration::from_secs(1), || self.arrived.load(Ordering::SeqCst) >= self.threads);
        self.wait(Duration::from_millis(100), || self.has_met(number));
        self.is_open.store(true, Ordering::SeqCst);
    }

    // Stays until this is so or the start is open, for a bounded time.
    fn wait(&self, time: Duration, is_so: impl Fn() -> bool) {
        let begin = Instant::now();
        while !self.is_open.load(Ordering::SeqCst) && !is_so() && begin.elapsed() < time {
            thread::yield_now();
        }
    }

    // Who finds another thread's number 64 times in 1,000 looks runs at the same time as that one.
    fn has_met(&self, number: usize) -> bool {
        let looks = (0..1_000).take_while(|_| !self.is_open.load(Ordering::SeqCst));
        looks.filter(|_| self.last_by.swap(number, Ordering::SeqCst) != number).take(64).count() == 64
    }
}

/// What was recorded: the events of all threads, by ticket.
pub struct History {
    events: Vec<Event>,
    initial: Vec<u64>,
    failures: Vec<String>,
}

impl History {
    // The calls without a return, by thread.
    fn open_calls(&self) -> Vec<Event> {
        let mut open: [Option<Event>; MAX_THREADS] = [None; MAX_THREADS];
        for event in &self.events {
            open[event.thread] = event.is_call().then_some(*event);
        }
        open.into_iter().flatten().collect()
    }

    /// Whether every call has its return. If one has none, `write` writes a pending text, which `check` refuses.
    pub fn is_complete(&self) -> bool {
        self.open_calls().is_empty()
    }

    /// What went wrong in the threads: panics.
    pub fn failures(&self) -> &[String] {
        &self.failures
    }

    /// Ticket, thread, word (its place in call-enq, ret-enq, ret-not, call-deq, ret-deq, ret-empty) and value of each.
    pub fn rows(&self) -> impl Iterator<Item = (u64, usize, u64, u64)> + '_ {
        self.events.iter().map(|event| (event.ticket, event.thread, event.what, event.value))
    }

    /// What the queue held first.
    pub fn initial(&self) -> &[u64] {
        &self.initial
    }

    /// Writes the text of the history.
    pub fn write(&self, to: impl Write) -> io::Result<()> {
        let mut to = BufWriter::new(to);
        let open = self.open_calls().len();
        to.write_all(head(if open == 0 { "fifo-history" } else { "fifo-pending" }, &self.initial).as_bytes())?;
        self.events.iter().try_for_each(|event| writeln!(to, "{event}"))?;
        if open > 0 {
            writeln!(to, "open {open}")?;
        }
        writeln!(to, "end {}", self.events.len())?;
        to.flush()
    }

    // How many operations overlap another.
    fn overlapping(&self) -> usize {
        let (mut open, mut met, mut overlapping) = (0u64, 0u64, 0);
        for event in &self.events {
            let thread = 1 << event.thread;
            if event.is_call() {
                met |= if open == 0 { 0 } else { open | thread };
                open |= thread;
            } else {
                overlapping += usize::from(met & thread != 0);
                met &= !thread;
                open &= !thread;
            }
        }
        overlapping
    }

    fn text(&self) -> Vec<u8> {
        let mut text = Vec::new();
        self.write(&mut text).expect("a vector takes each write");
        text
    }
}

fn told_panic(panic: &(dyn Any + Send)) -> &str {
    let words = panic.downcast_ref::<&str>().copied();
    words.or_else(|| panic.downcast_ref::<String>().map(String::as_str)).unwrap_or("a panic")
}

/// Runs `work` in each of the threads, which begin together, and gives what they recorded.
///
/// Memory is taken ahead for this number of operations of each thread; more are recorded too, and take memory as they
/// come. If a call panics, its thread ends and the others go on; the history is not complete then. A run without an
/// event for 30 seconds ends the process with status 2, after what was recorded has been kept as a pending text. Panics
/// if there are no threads or more than 64, or more than 1,000,000 operations of all threads.
pub fn record(threads: usize, operations: usize, work: impl Fn(&mut Thread) + Sync) -> History {
    record_with(&Options { threads, operations, ..Options::default() }, work)
}

/// As [`record`], with more settings; there is no drain and no pattern. With initial values the history says that the
/// queue holds [`Options::initial_values`] first: put them in before.
pub fn record_with(options: &Options, work: impl Fn(&mut Thread) + Sync) -> History {
    options.check();
    let (options, initial) = (options.of_run(options.seed), options.initial_values());
    let run = Run::new(&options);
    let failures = run_threads(&run, &initial, &Steps { enter: &|_| (), work: &work, drain: &|_| (), leave: &|_| () });
    History { events: run.events(), initial, failures }
}

/// One run over this queue, by the pattern of the seed. Panics if a setting is out of its range, or if the queue has no
/// room for an initial value.
pub fn run(options: &Options, queue: &impl Queue) -> History {
    options.check();
    let (options, initial) = (options.of_run(options.seed), options.initial_values());
    for (place, value) in initial.iter().enumerate() {
        assert!(queue.preload(*value), "the queue has no room for the initial value at place {place}");
    }
    let run = Run::new(&options);
    let steps = Steps {
        enter: &|number| queue.enter(number),
        work: &|thread| make_operations(thread, queue),
        drain: &|thread| drain(thread, queue, initial.len()),
        leave: &|number| queue.leave(number),
    };
    let failures = run_threads(&run, &initial, &steps);
    History { events: run.events(), initial, failures }
}

// What each thread does, one step after the other; the first one drains when all have ended.
struct Steps<'a> {
    enter: &'a (dyn Fn(usize) + Sync),
    work: &'a (dyn Fn(&mut Thread) + Sync),
    drain: &'a (dyn Fn(&mut Thread) + Sync),
    leave: &'a (dyn Fn(usize) + Sync),
}

fn make_steps(run: &Run, start: &Start, number: usize, steps: &Steps) -> Result<(), String> {
    let outcome = panic::catch_unwind(AssertUnwindSafe(|| {
        #[cfg(fifobench_crash)]
        crash::enter(run);
        let mut thread = run.thread(number);
        (steps.enter)(number);
        start.meet(number);
        (steps.work)(&mut thread);
        run.ended.fetch_add(1, Ordering::SeqCst);
        if number == 0 && run.options.drain && run.have_all_ended() {
            (steps.drain)(&mut thread);
        }
        (steps.leave)(number);
    }));
    outcome.map_err(|panic| {
        run.has_failed.store(true, Ordering::SeqCst);
        format!("panic: thread {number} panicked: {}", told_panic(&*panic))
    })
}

// Runs the threads, with a watchdog beside them, and gives what went wrong in them.
fn run_threads(run: &Run, initial: &[u64], steps: &Steps) -> Vec<String> {
    #[cfg(fifobench_schedule)]
    if schedule::is_chosen() {
        return schedule::run_threads(run, initial, steps);
    }
    let start = &Start::new(run.options.threads);
    thread::scope(|scope| {
        let (ended, end) = mpsc::channel::<()>();
        scope.spawn(move || watch(run, initial, &end));
        let spawn = |number| scope.spawn(move || make_steps(run, start, number, steps));
        let running: Vec<_> = (0..run.options.threads).map(spawn).collect();
        let outcomes = running.into_iter().map(|running| running.join().expect("a panic is caught in the thread"));
        let failures = outcomes.filter_map(Result::err).collect();
        drop(ended);
        failures
    })
}

// Waits for the end. If no ticket is drawn for the time of the settings, the process ends: threads borrow the queue.
fn watch(run: &Run, initial: &[u64], end: &Receiver<()>) {
    let (mut seen, mut since) = (0, Instant::now());
    let often = Duration::from_millis(if run.options.journal { 5 } else { 50 });
    #[cfg(fifobench_crash)]
    let mut crash = crash::Watch::new(run, initial);
    while end.recv_timeout(often) == Err(RecvTimeoutError::Timeout) {
        #[cfg(fifobench_crash)]
        crash.look();
        let drawn = run.tickets.load(Ordering::SeqCst);
        if drawn != seen {
            (seen, since) = (drawn, Instant::now());
        } else if since.elapsed() >= run.options.timeout {
            let history = History { events: run.events(), initial: initial.to_vec(), failures: Vec::new() };
            let how = format!("hang: no event for {} s", run.options.timeout.as_secs_f64());
            let fault = "If the queue promises to return, the hang itself is the fault.";
            process::exit(history.end_early(run.options, &how, fault) as i32);
        }
    }
}

// What one thread does: true is an enqueue.
fn plan(options: &Options, thread: usize) -> Vec<bool> {
    let mut state = options.seed.wrapping_mul(64).wrapping_add(thread as u64);
    let mut next = || { // splitmix64
        state = state.wrapping_add(0x9e37_79b9_7f4a_7c15);
        let z = (state ^ (state >> 30)).wrapping_mul(0xbf58_476d_1ce4_e5b9);
        let z = (z ^ (z >> 27)).wrapping_mul(0x94d0_49bb_1331_11eb);
        z ^ (z >> 31)
    };
    let (mut begin, mut length) = (0, 0); // of the burst
    let is_enqueue = |n| match options.pattern_of(options.seed) {
        Pattern::Roles if options.producers > 0 => thread < options.producers,
        Pattern::Roles if options.threads > 1 => thread & 1 == 0,
        Pattern::Alternate | Pattern::Roles => n & 1 == 0,
        Pattern::Mix => next() % 100 < options.percent,
        Pattern::Bursts => {
            if n == begin + 2 * length {
                (begin, length) = (n, 1 + (next() % 32) as usize);
            }
            n < begin + length
        }
    };
    (0..options.operations).map(is_enqueue).collect()
}

fn make_operations(thread: &mut Thread, queue: &impl Queue) {
    for is_enqueue in plan(thread.run.options, thread.number) {
        if is_enqueue {
            thread.enqueue(|value| queue.enqueue(value));
        } else {
            thread.dequeue(|| queue.dequeue());
        }
    }
}

// Takes out what is left, until the queue says that it is empty or has given more values than went in.
fn drain(thread: &mut Thread, queue: &impl Queue, initial: usize) {
    let events = thread.run.events();
    let count = |what| events.iter().filter(|event| event.what == what).count();
    let left = (initial + count(RET_ENQ)).saturating_sub(count(RET_DEQ));
    let room = MAX_OPERATIONS - events.len() / 2;
    for _ in 0..room.min(left + 1) {
        if thread.dequeue(|| queue.dequeue()).is_none() {
            return;
        }
    }
    let told = if room > left {
        "the queue gave more values than went in"
    } else {
        "a history has at most 2000000 events, and the drain stopped there"
    };
    // A chosen schedule is made again and again, and the verdict says it.
    if !cfg!(fifobench_schedule) {
        say(&format!("fifobench: seed {}: {told}", thread.run.options.seed));
    }
}

/// Makes runs from the first seed on, each over a fresh queue, and judges each with `fifobench check`, until one is a
/// violation.
///
/// What it found is said on standard output. The first violation is kept in the folder: the history, and the report of
/// `fifobench shrink`. If no program is found, nothing is judged, and every history is kept. Panics as [`run`] does.
pub fn search<Q: Queue>(options: &Options, make_queue: impl Fn() -> Q) -> Answer {
    search_runs(options, make_queue).unwrap_or_else(told_wrong)
}

fn search_runs<Q: Queue>(options: &Options, make_queue: impl Fn() -> Q) -> Result<Answer, String> {
    options.check();
    #[cfg(fifobench_schedule)]
    if schedule::is_chosen() {
        return Ok(schedule::search(options, make_queue));
    }
    #[cfg(fifobench_crash)]
    let _watched = crash::Search::new(options);
    judge::search(options, &|options: &Options| run(options, &make_queue()))
}
