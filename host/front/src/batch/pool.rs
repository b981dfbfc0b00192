//! The threads of a batch: each takes the next log until there is none left.

use super::line::Outcome;
use super::names::Log;
use super::play::play;
use super::words::Asked;
use std::sync::atomic::{AtomicUsize, Ordering};
use std::sync::mpsc::{self, Sender};
use std::thread::{self, Builder};

/// A thread's stack; the library's functions need less than half of it.
const STACK: usize = 2 << 20;

/// Plays the logs, some at a time; `done` hears of each as it ends, in any order, and of each once.
pub fn work(asked: &Asked, logs: &[Log], memory: &[u8], mut done: impl FnMut(usize, Outcome)) {
    let next = AtomicUsize::new(0);
    let take = || {
        let k = next.fetch_add(1, Ordering::Relaxed);
        logs.get(k).map(|log| (k, log))
    };
    let one = |out: Sender<(usize, Outcome)>| {
        while let Some((k, log)) = take() {
            if out.send((k, play(asked, log, memory))).is_err() {
                return;
            }
        }
    };
    let (out, ended) = mpsc::channel();
    thread::scope(|scope| {
        let begin = |_| {
            let (out, one) = (out.clone(), &one);
            Builder::new().stack_size(STACK).spawn_scoped(scope, move || one(out)).ok()
        };
        let threads: Vec<_> = (0..asked.threads.min(logs.len())).map_while(begin).collect();
        drop(out);
        ended.iter().for_each(|(k, outcome)| done(k, outcome));
        // A log that broke a thread has no outcome, and the report says so.
        threads.into_iter().for_each(|thread| drop(thread.join()));
    });
}
