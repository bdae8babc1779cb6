//! The functions of `fifobench.h` for Rust: texts in, answers out.
//!
//! `library/build DIR` puts `libfifobench.a` into a folder. Cargo finds it there by the variable `FIFOBENCH_DIR`.
//! Without Cargo:
//!
//!     rustc --edition 2021 --crate-type rlib --crate-name fifobench -L DIR src/lib.rs
//!
//! ```ignore
//! match fifobench::check(text) {
//!     Ok(verdict) if verdict.is_yes => {}
//!     Ok(verdict) => panic!("{}", fifobench::shrink(text)?.text),
//!     Err(error) => return Err(error.into()),
//! }
//! ```
//!
//! In a test [`expect_linearizable`] takes a text, events, or the history of a recorder, and fails with a report on a
//! `NO`:
//!
//! ```ignore
//! #[path = "recorder.rs"]
//! mod recorder;
//! fifobench::recorder!(recorder::History);
//!
//! #[test]
//! fn keeps_the_order() {
//!     fifobench::expect_linearizable(&recorder::record(4, 1000, |thread| ..));
//! }
//! ```
//!
//! All functions may be called from several threads at once.

use std::error;
use std::fmt;

/// An event, laid out as in `fifobench.h`.
#[repr(C)]
#[derive(Clone, Copy, Debug, PartialEq, Eq)]
struct RawEvent {
    ticket: u64,
    value: u64,
    thread: u32,
    what: u32,
}

type Judge = unsafe extern "C" fn(*const u8, usize, *mut u8, usize, *mut usize) -> u8;
type ConditionJudge = unsafe extern "C" fn(*const u8, usize, u32, *mut u8, usize, *mut usize) -> u8;

#[link(name = "fifobench", kind = "static")]
extern "C" {
    fn fifobench_interface() -> u32;
    fn fifobench_check(text: *const u8, length: usize, answer: *mut u8, capacity: usize, needed: *mut usize) -> u8;
    fn fifobench_shrink(text: *const u8, length: usize, answer: *mut u8, capacity: usize, needed: *mut usize) -> u8;
    fn fifobench_verify(text: *const u8, length: usize, answer: *mut u8, capacity: usize, needed: *mut usize) -> u8;
    fn fifobench_check_under(text: *const u8, length: usize, condition: u32, answer: *mut u8, capacity: usize, needed: *mut usize) -> u8;
    fn fifobench_shrink_under(text: *const u8, length: usize, condition: u32, answer: *mut u8, capacity: usize, needed: *mut usize) -> u8;
    fn fifobench_verify_under(text: *const u8, length: usize, condition: u32, answer: *mut u8, capacity: usize, needed: *mut usize) -> u8;
    fn fifobench_draw(text: *const u8, length: usize, answer: *mut u8, capacity: usize, needed: *mut usize) -> u8;
    fn fifobench_draw_text(text: *const u8, length: usize, answer: *mut u8, capacity: usize, needed: *mut usize) -> u8;
    fn fifobench_complete(text: *const u8, length: usize, answer: *mut u8, capacity: usize, needed: *mut usize) -> u8;
    fn fifobench_stats(text: *const u8, length: usize, answer: *mut u8, capacity: usize, needed: *mut usize) -> u8;
    fn fifobench_check_events(events: *const RawEvent, count: usize, answer: *mut u8, capacity: usize, needed: *mut usize) -> u8;
}

/// The kind of an event: a call, or a return.
#[derive(Clone, Copy, Debug, PartialEq, Eq)]
pub enum What {
    /// An enqueue of the value is called.
    CallEnq(u64),
    /// It returns: the value is enqueued.
    RetEnq,
    /// It returns: the enqueue failed.
    RetNot,
    /// A dequeue is called.
    CallDeq,
    /// It returns the value.
    RetDeq(u64),
    /// It returns: it found the queue empty.
    RetEmpty,
}

/// One event of one thread, at its ticket.
#[derive(Clone, Copy, Debug, PartialEq, Eq)]
pub struct Event {
    pub ticket: u64,
    pub thread: u32,
    pub what: What,
}

impl From<&Event> for RawEvent {
    fn from(event: &Event) -> RawEvent {
        let (what, value) = match event.what {
            What::CallEnq(value) => (1, value),
            What::RetEnq => (2, 0),
            What::RetNot => (3, 0),
            What::CallDeq => (4, 0),
            What::RetDeq(value) => (5, value),
            What::RetEmpty => (6, 0),
        };
        RawEvent { ticket: event.ticket, value, thread: event.thread, what }
    }
}

/// Makes an event from the row of a recorder: the ticket, the thread, the place of the event's kind in the order
/// above, from 0, and its value.
impl From<(u64, usize, u64, u64)> for Event {
    fn from((ticket, thread, what, value): (u64, usize, u64, u64)) -> Event {
        let what = match what {
            0 => What::CallEnq(value),
            1 => What::RetEnq,
            2 => What::RetNot,
            3 => What::CallDeq,
            4 => What::RetDeq(value),
            _ => What::RetEmpty,
        };
        Event { ticket, thread: thread as u32, what }
    }
}

impl fmt::Display for Event {
    /// Returns its line in a text.
    fn fmt(&self, to: &mut fmt::Formatter) -> fmt::Result {
        write!(to, "{} {} ", self.ticket, self.thread)?;
        match self.what {
            What::CallEnq(value) => write!(to, "call-enq {value}"),
            What::RetEnq => to.write_str("ret-enq"),
            What::RetNot => to.write_str("ret-not"),
            What::CallDeq => to.write_str("call-deq"),
            What::RetDeq(value) => write!(to, "ret-deq {value}"),
            What::RetEmpty => to.write_str("ret-empty"),
        }
    }
}

/// A history that a test can judge: a text, events by ticket, or the history of a recorder ([`recorder!`]).
pub trait Judged {
    /// Returns its events, if they are at hand and the queue was empty first.
    fn events(&self) -> Option<Vec<Event>>;

    /// Returns its text.
    fn text(&self) -> String;
}

impl Judged for str {
    fn events(&self) -> Option<Vec<Event>> {
        None
    }

    fn text(&self) -> String {
        self.to_owned()
    }
}

impl Judged for String {
    fn events(&self) -> Option<Vec<Event>> {
        None
    }

    fn text(&self) -> String {
        self.clone()
    }
}

impl Judged for [Event] {
    fn events(&self) -> Option<Vec<Event>> {
        Some(self.to_vec())
    }

    fn text(&self) -> String {
        let lines: String = self.iter().map(|event| format!("{event}\n")).collect();
        format!("fifo-history 1\n{lines}end {}\n", self.len())
    }
}

impl Judged for Vec<Event> {
    fn events(&self) -> Option<Vec<Event>> {
        Some(self.clone())
    }

    fn text(&self) -> String {
        self.as_slice().text()
    }
}

/// Lets the history of a recorder (`recorder.rs`, a module of the test) be judged: by its events, without a text, if
/// the queue was empty first.
#[macro_export]
macro_rules! recorder {
    ($history:ty) => {
        impl $crate::Judged for $history {
            fn events(&self) -> Option<Vec<$crate::Event>> {
                self.initial().is_empty().then(|| self.rows().map($crate::Event::from).collect())
            }

            fn text(&self) -> String {
                let mut text = Vec::new();
                self.write(&mut text).expect("a Vec takes all bytes");
                String::from_utf8(text).expect("a history is ASCII")
            }
        }
    };
}

/// Returns the report of a test on a history that isn't linearizable: the kind of violation, the operations that show
/// it, and their picture. For a refused history it is the reason, and for a linearizable one `None`.
pub fn report<H: Judged + ?Sized>(history: &H) -> Option<String> {
    let verdict = match history.events() {
        Some(events) => check_events(&events),
        None => check(&history.text()),
    };
    match verdict {
        Ok(verdict) if verdict.is_yes => None,
        Ok(_) => Some(shown(&history.text()).unwrap_or_else(|error| error.to_string())),
        Err(error) => Some(error.to_string()),
    }
}

/// Returns the report on a `NO`.
fn shown(text: &str) -> Result<String, Error> {
    let shrunk = shrink(text)?.text;
    let picture = draw_text(&shrunk)?.text;
    let kind = shrunk.lines().find(|line| line.starts_with("NO ")).unwrap_or("NO");
    Ok(format!("the history isn't linearizable: {kind}\n\n{shrunk}\n{picture}"))
}

/// Passes if the history is linearizable.
///
/// # Panics
///
/// If it isn't, with its [`report`].
#[track_caller]
pub fn expect_linearizable<H: Judged + ?Sized>(history: &H) {
    if let Some(said) = report(history) {
        panic!("{said}");
    }
}

/// A verdict, or whether a verdict is evidence.
#[derive(Clone, Debug, PartialEq, Eq)]
pub struct Verdict {
    /// YES, or VALID.
    pub is_yes: bool,
    /// The text that the program writes.
    pub text: String,
}

/// The reason why there is no verdict.
#[derive(Clone, Debug, PartialEq, Eq)]
pub enum Error {
    /// The input is not a whole, correct history, for this reason, such as `TicketOrder 2`.
    Refused(String),
    /// Out of memory.
    Memory,
}

impl fmt::Display for Error {
    fn fmt(&self, to: &mut fmt::Formatter) -> fmt::Result {
        match self {
            Error::Refused(why) => write!(to, "the history is refused: {why}"),
            Error::Memory => to.write_str("memory ran out"),
        }
    }
}

impl error::Error for Error {}

/// Returns the verdict on the text of a history.
pub fn check(text: &str) -> Result<Verdict, Error> {
    judge(fifobench_check, text)
}

/// Returns a smaller history that shows the violation, and its verdict; only the verdict if the history is
/// linearizable.
pub fn shrink(text: &str) -> Result<Verdict, Error> {
    judge(fifobench_shrink, text)
}

/// Returns whether the verdict after the history is evidence.
pub fn verify(text: &str) -> Result<Verdict, Error> {
    judge(fifobench_verify, text)
}

/// The condition that is judged: linearizability, or a weaker one.
#[derive(Clone, Copy, Debug, Default, PartialEq, Eq)]
pub struct Condition {
    /// The values of each producer are judged on their own (local linearizability).
    pub local: bool,
    /// An empty dequeue promises nothing.
    pub weak_empty: bool,
}

impl From<Condition> for u32 {
    fn from(condition: Condition) -> u32 {
        u32::from(condition.local) + 2 * u32::from(condition.weak_empty)
    }
}

/// Returns the verdict on the text of a history under a condition.
pub fn check_under(text: &str, condition: Condition) -> Result<Verdict, Error> {
    judge_under(fifobench_check_under, text, condition)
}

/// Returns a smaller history that doesn't meet the condition either, and its verdict; only the verdict if the history
/// meets it.
pub fn shrink_under(text: &str, condition: Condition) -> Result<Verdict, Error> {
    judge_under(fifobench_shrink_under, text, condition)
}

/// Returns whether the verdict after the history is evidence under the condition.
pub fn verify_under(text: &str, condition: Condition) -> Result<Verdict, Error> {
    judge_under(fifobench_verify_under, text, condition)
}

/// Returns the picture of a history, and of a verdict if one follows, as an SVG document. The answer is `INVALID`, and
/// `is_yes` is false, if the verdict is no evidence.
pub fn draw(text: &str) -> Result<Verdict, Error> {
    judge(fifobench_draw, text)
}

/// Returns the same picture in lines of characters.
pub fn draw_text(text: &str) -> Result<Verdict, Error> {
    judge(fifobench_draw_text, text)
}

/// Returns the completion of a history whose calls may be pending. It is linearizable if and only if some completion
/// is.
pub fn complete(text: &str) -> Result<Verdict, Error> {
    judge(fifobench_complete, text)
}

/// Returns the statistics of a history: a line for each number.
pub fn stats(text: &str) -> Result<Verdict, Error> {
    judge(fifobench_stats, text)
}

/// Returns the verdict on events by ticket.
pub fn check_events(events: &[Event]) -> Result<Verdict, Error> {
    let raw: Vec<RawEvent> = events.iter().map(RawEvent::from).collect();
    answer(24 * raw.len() + 64, |buffer, needed| {
        // SAFETY: the structs, the buffer and the word are as long as they are said to, and apart; the structs have
        // C's layout.
        unsafe { fifobench_check_events(raw.as_ptr(), raw.len(), buffer.as_mut_ptr(), buffer.len(), needed) }
    })
}

/// Returns the interface number of the library.
pub fn interface() -> u32 {
    // SAFETY: it reads and writes nothing.
    unsafe { fifobench_interface() }
}

fn judge(function: Judge, text: &str) -> Result<Verdict, Error> {
    answer(text.len() + 64, |buffer, needed| {
        // SAFETY: the text, the buffer and the word are as long as they are said to, and apart.
        unsafe { function(text.as_ptr(), text.len(), buffer.as_mut_ptr(), buffer.len(), needed) }
    })
}

fn judge_under(function: ConditionJudge, text: &str, condition: Condition) -> Result<Verdict, Error> {
    answer(text.len() + 64, |buffer, needed| {
        // SAFETY: the text, the buffer and the word are as long as they are said to, and apart.
        unsafe { function(text.as_ptr(), text.len(), condition.into(), buffer.as_mut_ptr(), buffer.len(), needed) }
    })
}

/// Calls the function with the room that most answers need, and again with the needed room if that isn't enough.
fn answer(room: usize, call: impl Fn(&mut [u8], &mut usize) -> u8) -> Result<Verdict, Error> {
    let mut buffer = vec![0; room];
    loop {
        let mut needed = 0;
        let status = call(&mut buffer, &mut needed);
        if needed > buffer.len() {
            buffer.resize(needed, 0);
            continue;
        }
        buffer.truncate(needed);
        // Answers are ASCII.
        let text = String::from_utf8_lossy(&buffer).into_owned();
        return match status {
            0 | 1 => Ok(Verdict { is_yes: status == 0, text }),
            2 => Err(Error::Refused(text.trim_start_matches("REFUSED ").trim_end().to_owned())),
            _ => Err(Error::Memory),
        };
    }
}
