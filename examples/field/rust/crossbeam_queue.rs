//! Queues of crossbeam-queue.

mod field;

use crossbeam_queue::{ArrayQueue, SegQueue};
use std::process::ExitCode;
use std::sync::Arc;

fn main() -> ExitCode {
    field::run(&[
        ("crossbeam-seg-queue", |asked| {
            asked.search(|_| {
                let queue = Arc::new(SegQueue::new());
                let other = Arc::clone(&queue);
                (
                    move |value| {
                        queue.push(value);
                        true
                    },
                    move || other.pop(),
                )
            })
        }),
        ("crossbeam-array-queue", |asked| {
            asked.search(|size| {
                let queue = Arc::new(ArrayQueue::new(size));
                let other = Arc::clone(&queue);
                (move |value| queue.push(value).is_ok(), move || other.pop())
            })
        }),
    ])
}
