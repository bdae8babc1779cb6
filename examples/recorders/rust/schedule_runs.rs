//! Chosen schedules in Rust: the recorder's runs by the scheduler of `../schedule/schedule.c`, which has to be linked.
//!
//! Beside `recorder.rs`, which uses this file under `--cfg fifobench_schedule`; a test has nothing to write. The queue
//! has points in one of two ways.
//!
//! - Unchanged, with nightly flags, which `RUSTC_BOOTSTRAP=1` lets a stable compiler take:
//!
//!   ```text
//!   gcc -O2 -c schedule/schedule.c
//!   RUSTC_BOOTSTRAP=1 rustc --edition 2021 -O -g --cfg fifobench_schedule -Zsanitizer=thread -Zexternal-clangrt \
//!       -Cunsafe-allow-abi-mismatch=sanitizer -Clink-arg=schedule.o test.rs
//!   ```
//!
//! - With a stable compiler, by the types of `schedule.rs` in place of those of `std`:
//!
//!   ```text
//!   rustc --edition 2021 -O -g --cfg fifobench_schedule -Clink-arg=schedule.o test.rs
//!   ```
//!
//! With cargo these flags are those of `RUSTFLAGS`, schedule.o has an absolute path, and CARGO_PROFILE_RELEASE_DEBUG=1
//! stands in place of `-g`; with the nightly flags cargo needs `--target x86_64-unknown-linux-gnu` too.
//! `FIFOBENCH_SEED=17 cargo test ..` begins with that seed, whose run it makes again. A link without schedule.o fails,
//! and names functions of the form `fifobench_schedule_..` or `__tsan_..`: they are those of schedule.c.

use super::judge::{flags, program};
use super::{make_steps, told_panic, Answer, Options, Queue, Run, Start, Steps};
use std::ffi::{c_char, c_int, c_uint, c_void, CStr, CString};
use std::panic::{self, AssertUnwindSafe};
use std::ptr;
use std::thread;

// What schedule.h declares.
#[repr(C)]
struct RawSchedule {
    seed: u64,
    threads: c_uint,
    operations: usize,
    folder: *const c_char,
}

#[repr(C)]
struct RawSearch {
    program: *const c_char,
    folder: *const c_char,
    seed: u64,
    runs: c_uint,
    threads: c_uint,
    operations: usize,
    seconds: c_uint,
    keep: c_int,
    run: extern "C" fn(*mut c_void, u64, usize),
    pattern: extern "C" fn(*mut c_void, u64) -> *const c_char,
    context: *mut c_void,
    flags: *const c_char,
    is_bounded: c_int,
    overtaken_at_most: u64,
}

extern "C" {
    fn fifobench_schedule_is_chosen() -> c_int;
    fn fifobench_schedule_begin(schedule: *const RawSchedule) -> *const c_char;
    fn fifobench_schedule_started(thread: c_uint);
    fn fifobench_schedule_open(threads: c_uint);
    fn fifobench_schedule_enter(thread: c_uint);
    fn fifobench_schedule_called(what: c_uint, value: u64);
    fn fifobench_schedule_returns();
    fn fifobench_schedule_returned(what: c_uint, value: u64);
    fn fifobench_schedule_alone();
    fn fifobench_schedule_leave();
    fn fifobench_schedule_end();
    fn fifobench_schedule_initial(value: u64);
    fn fifobench_schedule_fail(sentence: *const c_char);
    fn fifobench_search_runs(search: *const RawSearch) -> c_int;
}

/// Whether schedules are chosen: not if the environment says FIFOBENCH_SCHEDULES=free.
pub(super) fn is_chosen() -> bool {
    unsafe { fifobench_schedule_is_chosen() != 0 }
}

// The places of a call's words are 0 and 3; the others are those of returns.
fn is_call(what: u64) -> bool {
    what == 0 || what == 3
}

/// Called just before a ticket is drawn.
pub(super) fn before_ticket(what: u64) {
    if !is_call(what) {
        unsafe { fifobench_schedule_returns() }
    }
}

/// Called just after a ticket was drawn.
pub(super) fn after_ticket(what: u64, value: u64) {
    let noted = if is_call(what) { fifobench_schedule_called } else { fifobench_schedule_returned };
    unsafe { noted(what as c_uint, value) }
}

/// Stays until all other threads have made their last operation.
pub(super) fn alone() {
    if is_chosen() {
        unsafe { fifobench_schedule_alone() }
    }
}

/// Notes a value that the queue holds at the start.
fn initial(value: u64) {
    if is_chosen() {
        unsafe { fifobench_schedule_initial(value) }
    }
}

/// Runs the threads one at a time, and gives what went wrong in them.
pub(super) fn run_threads(run: &Run, initial_values: &[u64], steps: &Steps) -> Vec<String> {
    let Options { seed, threads, operations, folder, .. } = run.options;
    let folder = text(&folder.to_string_lossy());
    let threads = *threads as c_uint;
    let schedule = RawSchedule { seed: *seed, threads, operations: *operations, folder: folder.as_ptr() };
    let fault = unsafe { fifobench_schedule_begin(&schedule) };
    assert!(fault.is_null(), "{}", unsafe { CStr::from_ptr(fault) }.to_string_lossy());
    initial_values.iter().for_each(|value| initial(*value));
    let failures = thread::scope(|scope| {
        let spawn = |number| {
            let running = scope.spawn(move || {
                unsafe { fifobench_schedule_enter(number) };
                let outcome = make_steps(run, &Start::new(1), number as usize, steps);
                unsafe { fifobench_schedule_leave() };
                outcome
            });
            unsafe { fifobench_schedule_started(number) };
            running
        };
        let running: Vec<_> = (0..threads).map(spawn).collect();
        unsafe { fifobench_schedule_open(threads) };
        let outcomes = running.into_iter().map(|running| running.join().expect("a panic is caught in the thread"));
        outcomes.filter_map(Result::err).collect()
    });
    unsafe { fifobench_schedule_end() };
    failures
}

// What the runs of a search are made of.
struct Context<'a> {
    // Makes the run of a seed with this number of operations of each thread. Returns what went wrong in it.
    run: &'a dyn Fn(u64, usize) -> Option<String>,
    options: &'a Options,
}

/// Makes the runs of a search, each in a child process.
pub(super) fn search<Q: Queue>(options: &Options, make_queue: impl Fn() -> Q) -> Answer {
    let run = |seed, operations| {
        let history = super::run(&Options { seed, operations, ..options.clone() }, &make_queue());
        (!history.failures.is_empty()).then(|| history.failures.join("; "))
    };
    let context = Context { run: &run, options };
    let flags = text(flags(options.condition));
    let [program, folder] = [&program(options), &options.folder].map(|path| text(&path.to_string_lossy()));
    let raw = RawSearch {
        program: program.as_ptr(),
        folder: folder.as_ptr(),
        seed: options.seed,
        runs: options.runs as c_uint,
        threads: options.threads as c_uint,
        operations: options.operations,
        seconds: options.timeout.as_secs() as c_uint,
        keep: c_int::from(options.keep),
        run: make_run,
        pattern: name_pattern,
        context: ptr::from_ref(&context).cast_mut().cast(),
        flags: flags.as_ptr(),
        is_bounded: c_int::from(options.overtaken_at_most.is_some()),
        overtaken_at_most: options.overtaken_at_most.unwrap_or_default(),
    };
    match unsafe { fifobench_search_runs(&raw) } {
        0 => Answer::NoViolation,
        1 => Answer::Violation,
        _ => Answer::Wrong,
    }
}

// Texts of C end at a null byte, which no path or sentence of a recorder has.
fn text(words: &str) -> CString {
    CString::new(words.replace('\0', "")).expect("there is no null byte")
}

extern "C" fn make_run(context: *mut c_void, seed: u64, operations: usize) {
    let context: &Context = unsafe { &*context.cast() };
    let outcome = panic::catch_unwind(AssertUnwindSafe(|| (context.run)(seed, operations)));
    if let Some(sentence) = outcome.unwrap_or_else(|panic| Some(told_panic(&*panic).to_string())) {
        unsafe { fifobench_schedule_fail(text(&sentence).as_ptr()) }
    }
}

// The name is kept: it is asked for once, with a verdict.
extern "C" fn name_pattern(context: *mut c_void, seed: u64) -> *const c_char {
    let context: &Context = unsafe { &*context.cast() };
    text(&context.options.pattern_of(seed).to_string()).into_raw()
}
