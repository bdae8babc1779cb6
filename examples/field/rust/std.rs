//! Queues of Rust's standard library.

mod field;

use std::collections::VecDeque;
use std::process::ExitCode;
use std::sync::mpsc::{channel, sync_channel};
use std::sync::{Arc, Mutex};

// A receiver belongs to one thread at a time, so it stands in a lock, which one consumer always finds free.
fn main() -> ExitCode {
    field::run(&[
        ("rust-channel", |asked| {
            asked.search(|_| {
                let (sender, receiver) = channel();
                let receiver = Mutex::new(receiver);
                (move |value| sender.send(value).is_ok(), move || receiver.lock().unwrap().try_recv().ok())
            })
        }),
        ("rust-channel-waits", |asked| {
            asked.search(|_| {
                let (sender, receiver) = channel();
                let receiver = Mutex::new(receiver);
                (move |value| sender.send(value).is_ok(), move || receiver.lock().unwrap().recv().ok())
            })
        }),
        ("rust-sync-channel", |asked| {
            asked.search(|size| {
                let (sender, receiver) = sync_channel(size);
                let receiver = Mutex::new(receiver);
                (move |value| sender.try_send(value).is_ok(), move || receiver.lock().unwrap().try_recv().ok())
            })
        }),
        ("rust-sync-channel-waits", |asked| {
            asked.search(|size| {
                let (sender, receiver) = sync_channel(size);
                let receiver = Mutex::new(receiver);
                (move |value| sender.send(value).is_ok(), move || receiver.lock().unwrap().recv().ok())
            })
        }),
        ("rust-rendezvous", |asked| {
            asked.search(|_| {
                let (sender, receiver) = sync_channel(0);
                let receiver = Mutex::new(receiver);
                (move |value| sender.send(value).is_ok(), move || receiver.lock().unwrap().recv().ok())
            })
        }),
        ("rust-mutex", |asked| {
            asked.search(|_| {
                let queue = Arc::new(Mutex::new(VecDeque::new()));
                let other = Arc::clone(&queue);
                (
                    move |value| {
                        queue.lock().unwrap().push_back(value);
                        true
                    },
                    move || other.lock().unwrap().pop_front(),
                )
            })
        }),
    ])
}
