//! Channels of tokio, by the calls that don't wait.

mod field;

use std::process::ExitCode;
use std::sync::Mutex;
use tokio::sync::mpsc::{channel, unbounded_channel};

fn main() -> ExitCode {
    field::run(&[
        ("tokio-unbounded", |asked| {
            asked.search(|_| {
                let (sender, receiver) = unbounded_channel();
                let receiver = Mutex::new(receiver);
                (move |value| sender.send(value).is_ok(), move || receiver.lock().unwrap().try_recv().ok())
            })
        }),
        ("tokio-bounded", |asked| {
            asked.search(|size| {
                let (sender, receiver) = channel(size);
                let receiver = Mutex::new(receiver);
                (move |value| sender.try_send(value).is_ok(), move || receiver.lock().unwrap().try_recv().ok())
            })
        }),
    ])
}
