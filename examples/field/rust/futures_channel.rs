//! The channel of futures-channel.

mod field;

use futures_channel::mpsc::unbounded;
use std::process::ExitCode;
use std::sync::Mutex;

fn main() -> ExitCode {
    field::run(&[("futures-channel-unbounded", |asked| {
        asked.search(|_| {
            let (sender, receiver) = unbounded();
            let receiver = Mutex::new(receiver);
            (
                move |value| sender.unbounded_send(value).is_ok(),
                move || receiver.lock().unwrap().try_next().ok().flatten(),
            )
        })
    })])
}
