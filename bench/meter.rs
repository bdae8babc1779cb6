//! Runs a program and prints what it took, on one line: user and system time in microseconds, peak memory in KiB, time by the
//! clock in microseconds, and the exit status.
//!
//!     meter INPUT OUTPUT PROGRAM [WORD ..]
//!
//! INPUT and OUTPUT are files. The kernel counts in a program's peak memory that of the program that started it, so this one is
//! kept small.

use std::env;
use std::fs::File;
use std::os::unix::process::ExitStatusExt;
use std::process::{Command, ExitStatus, Stdio};
use std::time::Instant;

/// `struct rusage` of Linux on 64 bits: two times as seconds and microseconds, and fourteen numbers.
#[repr(C)]
#[derive(Default)]
struct Usage {
    user: [i64; 2],
    system: [i64; 2],
    peak: i64,
    others: [i64; 13],
}

extern "C" {
    fn wait4(process: i32, status: *mut i32, options: i32, usage: *mut Usage) -> i32;
}

fn micros(time: [i64; 2]) -> i64 {
    time[0] * 1_000_000 + time[1]
}

fn main() {
    let words: Vec<String> = env::args().collect();
    let [_, input, output, program, rest @ ..] = &words[..] else {
        eprintln!("usage: meter INPUT OUTPUT PROGRAM [WORD ..]");
        std::process::exit(2);
    };
    let mut command = Command::new(program);
    command.args(rest).stderr(Stdio::null());
    command.stdin(File::open(input).expect("the input can be read"));
    command.stdout(File::create(output).expect("the output can be written"));
    let start = Instant::now();
    let child = command.spawn().expect("the program can be started");
    let process = child.id() as i32;
    let (mut status, mut usage) = (0, Usage::default());
    // SAFETY: the process is a child of this one that nobody else waits for, and both places outlive the call.
    let ended = unsafe { wait4(process, &mut status, 0, &mut usage) };
    let clock = start.elapsed().as_micros();
    assert_eq!(ended, process);
    let code = ExitStatus::from_raw(status).code().unwrap_or(-1);
    println!("{} {} {} {clock} {code}", micros(usage.user), micros(usage.system), usage.peak);
}
