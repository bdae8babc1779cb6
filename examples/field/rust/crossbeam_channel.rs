//! Channels of crossbeam-channel.

mod field;

use crossbeam_channel::{bounded, unbounded};
use std::process::ExitCode;

fn main() -> ExitCode {
    field::run(&[
        ("crossbeam-unbounded", |asked| {
            asked.search(|_| {
                let (sender, receiver) = unbounded();
                (move |value| sender.send(value).is_ok(), move || receiver.try_recv().ok())
            })
        }),
        ("crossbeam-bounded", |asked| {
            asked.search(|size| {
                let (sender, receiver) = bounded(size);
                (move |value| sender.try_send(value).is_ok(), move || receiver.try_recv().ok())
            })
        }),
        ("crossbeam-bounded-waits", |asked| {
            asked.search(|size| {
                let (sender, receiver) = bounded(size);
                (move |value| sender.send(value).is_ok(), move || receiver.recv().ok())
            })
        }),
        ("crossbeam-rendezvous", |asked| {
            asked.search(|_| {
                let (sender, receiver) = bounded(0);
                (move |value| sender.send(value).is_ok(), move || receiver.recv().ok())
            })
        }),
    ])
}
