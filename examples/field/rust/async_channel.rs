//! Channels of async-channel, by the calls that don't wait.

mod field;

use async_channel::{bounded, unbounded};
use std::process::ExitCode;

fn main() -> ExitCode {
    field::run(&[
        ("async-channel-unbounded", |asked| {
            asked.search(|_| {
                let (sender, receiver) = unbounded();
                (move |value| sender.try_send(value).is_ok(), move || receiver.try_recv().ok())
            })
        }),
        ("async-channel-bounded", |asked| {
            asked.search(|size| {
                let (sender, receiver) = bounded(size);
                (move |value| sender.try_send(value).is_ok(), move || receiver.try_recv().ok())
            })
        }),
    ])
}
