//! Channels of flume.

mod field;

use std::process::ExitCode;

fn main() -> ExitCode {
    field::run(&[
        ("flume-unbounded", |asked| {
            asked.search(|_| {
                let (sender, receiver) = flume::unbounded();
                (move |value| sender.send(value).is_ok(), move || receiver.try_recv().ok())
            })
        }),
        ("flume-bounded", |asked| {
            asked.search(|size| {
                let (sender, receiver) = flume::bounded(size);
                (move |value| sender.try_send(value).is_ok(), move || receiver.try_recv().ok())
            })
        }),
        ("flume-bounded-waits", |asked| {
            asked.search(|size| {
                let (sender, receiver) = flume::bounded(size);
                (move |value| sender.send(value).is_ok(), move || receiver.recv().ok())
            })
        }),
    ])
}
