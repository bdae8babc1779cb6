//! What a search asks of the program, and the files of its runs: histories, reports, and the texts of runs that end
//! early. `recorder.rs` takes this file in; it lies beside that.

use super::{Answer, Condition, Event, History, Options, CALL_ENQ};
use std::env;
use std::fs;
use std::io::{self, IsTerminal, Write};
use std::path::{Path, PathBuf};
use std::process::{Command, Stdio};
use std::sync::atomic::{AtomicBool, Ordering};
use std::time::{Duration, Instant};

/// Makes runs from the first seed on, and judges each, until one is a violation.
pub(super) fn search(options: &Options, run: &dyn Fn(&Options) -> History) -> Result<Answer, String> {
    let mut search = Search { is_judged: is_found(options), ..Search::default() };
    let (mut made, mut answer) = (0, Answer::NoViolation);
    let mut progress = Progress::new();
    while made < options.runs && answer == Answer::NoViolation {
        progress.show(made, options.runs - made);
        let options = options.of_run(options.seed.wrapping_add(made));
        answer = search.answer(&options, run)?;
        made += 1;
    }
    Progress::erase();
    let Search { is_judged, events, overlapping, without_overlap, .. } = search;
    if answer == Answer::NoViolation {
        let share = (200 * overlapping).checked_div(events).unwrap_or(0); // an operation has two events
        let outcome = if is_judged { "no violation in" } else { "nothing judged in" };
        let (first, last) = (options.seed, options.seed.wrapping_add(made).wrapping_sub(1));
        let told = format!("{share} of 100 operations overlap another; runs without overlap: {without_overlap}");
        let condition = told_condition(options);
        println!("{outcome} {made} runs (seeds {first} to {last}){condition}; {told}");
    }
    if options.keep && is_judged && answer != Answer::Wrong {
        println!("  kept:    {made} judged runs with {events} events in {}", options.folder.display());
    }
    Ok(if is_judged || answer != Answer::NoViolation { answer } else { Answer::Wrong })
}

// What the runs of a search have shown: of each seed the last one that was made.
#[derive(Default)]
struct Search {
    is_judged: bool,
    events: usize,
    overlapping: usize,
    without_overlap: u64,
    again: u64,
}

impl Search {
    // The answer to the run of a seed. Threads that haven't met have shown little, so a run without overlap is made
    // again: three times, and in a search no more often than it has runs.
    fn answer(&mut self, options: &Options, run: &dyn Fn(&Options) -> History) -> Result<Answer, String> {
        let mut left = if options.threads > 1 { 3 } else { 0 };
        loop {
            let history = run(options);
            let (answer, overlapping) = (history.answer(options, self.is_judged)?, history.overlapping());
            if answer != Answer::NoViolation || overlapping > 0 || left == 0 || self.again == options.runs {
                self.events += history.events.len();
                self.overlapping += overlapping;
                self.without_overlap += u64::from(overlapping == 0);
                return Ok(answer);
            }
            left -= 1;
            self.again += 1;
        }
    }
}

impl History {
    // The answer of a search to this run.
    pub(super) fn answer(&self, options: &Options, is_judged: bool) -> Result<Answer, String> {
        if !self.failures.is_empty() {
            let fault = "If the queue promises not to panic, the panic itself is the fault.";
            return Ok(self.end_early(options, &self.failures.join("; "), fault));
        }
        if !is_judged || options.keep {
            keep(options, "history", &self.text())?;
        }
        if is_judged { judge(options, &self.text(), false) } else { Ok(Answer::NoViolation) }
    }

    // Keeps what there is of a run that ends early, says how it ended, and judges it.
    pub(super) fn end_early(&self, options: &Options, how: &str, fault: &str) -> Answer {
        let inside: Vec<String> = self.open_calls().iter().map(told_call).collect();
        let inside = if inside.is_empty() { "no thread is inside a call".to_string() } else { inside.join(", ") };
        say(&format!("fifobench: seed {}: {how}; {inside}", options.seed));
        let answer = keep(options, "pending", &self.text()).and_then(|pending| {
            say(&format!("  pending: {}", pending.display()));
            judge_pending(options, self, &pending, fault)
        });
        answer.unwrap_or_else(told_wrong)
    }
}

fn path(options: &Options, kind: &str) -> PathBuf {
    options.folder.join(format!("{}.{kind}", options.seed))
}

// Writes a text into the folder. Replaces an older file, since a journal may still be written to it.
pub(super) fn keep(options: &Options, kind: &str, text: &[u8]) -> Result<PathBuf, String> {
    let path = path(options, kind);
    let _ = fs::create_dir_all(&options.folder).and_then(|()| fs::remove_file(&path));
    fs::write(&path, text).map_err(|error| format!("can't write {}: {error}", path.display()))?;
    Ok(path)
}

// How far a search is, on a terminal: from two seconds on, until something else is printed.
struct Progress {
    next: Instant,
}

static PROGRESS_IS_SHOWN: AtomicBool = AtomicBool::new(false);

impl Progress {
    fn new() -> Progress {
        Progress { next: Instant::now() + Duration::from_secs(2) }
    }

    fn show(&mut self, done: u64, left: u64) {
        if io::stderr().is_terminal() && Instant::now() >= self.next {
            self.next = Instant::now() + Duration::from_millis(200);
            PROGRESS_IS_SHOWN.store(true, Ordering::SeqCst);
            let _ = write!(io::stderr(), "\rfifobench: {done} runs done, {left} left, 0 found\x1b[K");
        }
    }

    fn erase() {
        if PROGRESS_IS_SHOWN.swap(false, Ordering::SeqCst) {
            let _ = write!(io::stderr(), "\r\x1b[K");
        }
    }
}

// One line on standard error itself, which a test doesn't catch.
pub(super) fn say(line: &str) {
    Progress::erase();
    let _ = writeln!(io::stderr(), "{line}");
}

pub(super) fn told_wrong(error: String) -> Answer {
    say(&format!("fifobench: {error}"));
    Answer::Wrong
}

fn told_call(call: &Event) -> String {
    let value = if call.what == CALL_ENQ { format!("enqueue of {}", call.value) } else { "dequeue".to_string() };
    format!("thread {} is inside {value}", call.thread)
}

pub(super) fn program(options: &Options) -> PathBuf {
    let set = options.program.clone().or_else(|| env::var_os("FIFOBENCH").map(PathBuf::from));
    set.unwrap_or_else(|| PathBuf::from("fifobench"))
}

// Whether the program can be started; if it can't, a line says so.
fn is_found(options: &Options) -> bool {
    let program = program(options);
    let is_found = Command::new(&program).arg("help").stdout(Stdio::null()).stderr(Stdio::null()).status().is_ok();
    if !is_found {
        let (program, folder) = (program.display(), options.folder.display());
        say(&format!("fifobench: no program '{program}': nothing is judged; the histories are kept in {folder}"));
    }
    is_found
}

// The condition of a search and its bound, as its answer has them; empty if they are the default.
fn told_condition(options: &Options) -> String {
    let is_default = options.condition == Condition::Linearizable;
    let condition = if is_default { String::new() } else { format!(", condition {}", options.condition) };
    condition + &options.overtaken_at_most.map_or(String::new(), |most| format!(", overtaken-at-most {most}"))
}

// A command, with the flags that are the condition of the settings. The C code of chosen schedules has the same flags.
fn with_flags(options: &Options, command: &str) -> String {
    let has_flags = ["check", "shrink", "draw"].contains(&command.split(' ').next().unwrap_or_default());
    format!("{command}{}", if has_flags { flags(options.condition) } else { "" })
}

pub(super) fn flags(condition: Condition) -> &'static str {
    ["", " --local", " --weak-empty", " --local --weak-empty"][condition as usize]
}

// Returns what the program writes about this text, and its status.
pub(super) fn ask(options: &Options, command: &str, text: &[u8]) -> io::Result<(String, Option<i32>)> {
    let mut judge = Command::new(program(options));
    judge.args(with_flags(options, command).split(' '));
    judge.stdin(Stdio::piped()).stdout(Stdio::piped()).stderr(Stdio::null());
    let mut judge = judge.spawn()?;
    // The program reads all before it writes. If it refuses a text it reads no further, and then this write may fail.
    if let Some(mut input) = judge.stdin.take() {
        let _ = input.write_all(text);
    }
    let output = judge.wait_with_output()?;
    Ok((String::from_utf8_lossy(&output.stdout).into_owned(), output.status.code()))
}

// The second command of `see it:`, which draws the violation with what runs beside it: the report leaves that out.
// `draw` refuses more than 400 operations; then there is none.
fn drawn_in(options: &Options, text: &[u8], history: &str) -> String {
    let draws = |command: &&str| matches!(ask(options, command, text), Ok((_, Some(0))));
    let command = ["draw --text --around 20", "draw --text"].into_iter().find(draws);
    let program = program(options).display().to_string();
    let told = |command| format!("           {program} {} < {history}\n", with_flags(options, command));
    command.map_or(String::new(), told)
}

// The lines of a violation after its history: the report and its pictures, or the dequeue that overtakes most.
fn told_violation(options: &Options, text: &[u8], verdict: &str, history: &str) -> Result<String, String> {
    let program = program(options).display().to_string();
    let unasked = |error: io::Error| format!("{program}: {error}");
    if !verdict.starts_with("NO overtaken-at-most ") {
        let (report, _) = ask(options, "shrink", text).map_err(unasked)?;
        let report = keep(options, "report", report.as_bytes())?.display().to_string();
        let seen = format!("{program} {} < {report}", with_flags(options, "draw --text"));
        return Ok(format!("  report:  {report}\n  see it:  {seen}\n{}", drawn_in(options, text, history)));
    }
    let (stats, _) = ask(options, "stats --overtakes", text).map_err(unasked)?;
    let row = |line: &str| line.split(' ').map(|word| word.parse().ok()).collect::<Option<Vec<u64>>>();
    let told = match stats.lines().rev().filter_map(row).max_by_key(|row| row[0]).as_deref() {
        Some([count, ticket, value]) => {
            format!("that of {value}, called at ticket {ticket}, overtakes {count} values")
        }
        _ => format!("not named by {program}"),
    };
    Ok(format!("  dequeue: {told}\n  see it:  {program} stats --overtakes < {history}\n"))
}

// What `check` says of a history, by the condition of the settings, and unless it completes pending calls by their
// bound on overtaking: YES, or NO and what is violated. A bound judges the order of values in place of `check`, but for
// that of each producer's own. An error if the program says something else.
fn verdict_on(options: &Options, text: &[u8], is_completed: bool) -> Result<String, String> {
    let program = program(options).display().to_string();
    let unasked = |error: io::Error| format!("{program}: {error}");
    let (verdict, status) = ask(options, "check", text).map_err(unasked)?;
    let verdict = verdict.lines().next().unwrap_or_default().to_string();
    if status != Some(0) && status != Some(1) {
        return Err(format!("{program} says '{verdict}' of {}", path(options, "history").display()));
    }
    let is_local = matches!(options.condition, Condition::Local | Condition::Both);
    let is_ordered = status == Some(1) && (is_local || verdict != "NO VOrd");
    let Some(bound) = options.overtaken_at_most.filter(|_| !is_completed && !is_ordered) else {
        return Ok(verdict);
    };
    let (stats, _) = ask(options, "stats", text).map_err(unasked)?;
    let most = stats.lines().find_map(|line| line.strip_prefix("overtaken-at-most ")?.parse::<u64>().ok());
    let most = most.ok_or(format!("{program} has no overtaken-at-most in stats, which a later version has"))?;
    Ok(if most > bound { format!("NO overtaken-at-most {bound}") } else { "YES".to_string() })
}

// Judges a history, which may be a completion of pending calls.
fn judge(options: &Options, text: &[u8], is_completed: bool) -> Result<Answer, String> {
    let (verdict, condition) = (verdict_on(options, text, is_completed), told_condition(options));
    if verdict.as_deref() == Ok("YES") {
        return Ok(Answer::NoViolation);
    }
    if is_completed && !condition.is_empty() {
        return Err(format!("{} of one completion{condition}: another one may be a YES", verdict?));
    }
    let history = keep(options, "history", text)?.display().to_string();
    let (seed, pattern, verdict) = (options.seed, options.pattern_of(options.seed), verdict?);
    let why = if is_completed { ": the queue is wrong, whatever the pending calls do" } else { "" };
    let seen = told_violation(options, text, &verdict, &history)?;
    let told = format!("{verdict}: seed {seed}, {pattern}{why}\n  history: {history}\n{seen}");
    let again = format!("  again:   seed {seed}, pattern {pattern}");
    Progress::erase();
    // On standard output itself: the process may end before a test shows what it has caught.
    let _ = writeln!(io::stdout(), "{told}{again}: the same plan, though threads may meet in another way");
    Ok(Answer::Violation)
}

// Judges the completion of a pending text, or prints the command that does. The fault follows `YES`.
fn judge_pending(options: &Options, of: &History, pending: &Path, fault: &str) -> Result<Answer, String> {
    let (program, pending) = (program(options).display().to_string(), pending.display());
    let asked = ask(options, "complete", &of.text());
    if let Ok((history, Some(0))) = &asked {
        let answer = judge(options, history.as_bytes(), true)?;
        if answer == Answer::NoViolation {
            // `draw` refuses more than 400 operations or initial values.
            let twice = (of.events.len() + of.open_calls().len()).max(2 * of.initial.len());
            let drawn = (twice <= 800).then(|| format!("{program} draw --text < {pending}"));
            let see = drawn.unwrap_or(format!("tail -n 40 < {pending}"));
            say(&format!("YES: a right queue can have behaved so until then. {fault}\n  see it:  {see}"));
        }
        return Ok(if answer == Answer::Violation { answer } else { Answer::Wrong });
    }
    match asked {
        Ok((told, _)) if told.starts_with("REFUSED ") => {
            say(&format!("fifobench: {program} says '{}' of {pending}", told.trim_end()));
        }
        Ok(_) => say(&format!("fifobench: {program} has no command complete, which a later version has")),
        Err(_) => {}
    }
    say(&format!("  judge:   {program} complete < {pending} | {program} {}", with_flags(options, "check")));
    Ok(Answer::Wrong)
}
