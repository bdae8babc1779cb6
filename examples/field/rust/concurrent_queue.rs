//! Queues of concurrent-queue.

mod field;

use concurrent_queue::ConcurrentQueue;
use std::process::ExitCode;
use std::sync::Arc;

fn main() -> ExitCode {
    field::run(&[
        ("concurrent-queue-unbounded", |asked| {
            asked.search(|_| {
                let queue = Arc::new(ConcurrentQueue::unbounded());
                let other = Arc::clone(&queue);
                (move |value| queue.push(value).is_ok(), move || other.pop().ok())
            })
        }),
        ("concurrent-queue-bounded", |asked| {
            asked.search(|size| {
                let queue = Arc::new(ConcurrentQueue::bounded(size));
                let other = Arc::clone(&queue);
                (move |value| queue.push(value).is_ok(), move || other.pop().ok())
            })
        }),
    ])
}
