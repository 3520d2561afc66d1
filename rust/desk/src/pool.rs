//! Pieces of work done side by side, with their results in order.

use std::collections::BTreeMap;
use std::io;
use std::ops::ControlFlow;
use std::sync::atomic::{AtomicBool, AtomicUsize, Ordering};
use std::sync::mpsc::{self, Receiver, RecvTimeoutError, Sender};
use std::thread::{self, Builder};
use std::time::{Duration, Instant};

use yestrwyn::STACK;

/// How long a thread keeps results back, to hand several over at once, and how many.
const KEPT: Duration = Duration::from_millis(20);
const MOST: usize = 64;

/// How often whoever waits for results is told how far the work is.
const TICK: Duration = Duration::from_millis(100);

/// Who takes the results.
pub trait Taker<R> {
    /// Takes the next result, in the order of the items. With a break the rest is left undone.
    fn take(&mut self, result: R) -> ControlFlow<()>;

    /// Is told from time to time how many items are done.
    fn tick(&mut self, done: usize);
}

/// Some processors, as many as the system gives.
pub fn processors() -> usize {
    thread::available_parallelism().map_or(1, usize::from)
}

/// Does the same for each item, on so many threads with stack enough for a check, and hands the results over in the order of the
/// items. Each thread has a worker of its own. An error is the system's, where it gives no thread.
pub fn in_order<T, R, W>(
    threads: usize,
    items: &[T],
    worker: impl Fn() -> W + Sync,
    taker: &mut impl Taker<R>,
) -> io::Result<()>
where
    T: Sync,
    R: Send,
    W: FnMut(&T) -> R,
{
    let (queue, worker) =
        (Queue { items, next: AtomicUsize::new(0), stopped: AtomicBool::new(false) }, &worker);
    thread::scope(|scope| {
        let (sender, receiver) = mpsc::channel();
        for started in 0..threads.clamp(1, items.len().max(1)) {
            let (queue, sender) = (&queue, sender.clone());
            let thread = Builder::new().stack_size(STACK);
            let spawned = thread.spawn_scoped(scope, move || queue.work(worker(), &sender));
            // With fewer threads than asked for the work takes longer; with none it cannot be done.
            if let (Err(error), 0) = (spawned.map(drop), started) {
                return Err(error);
            }
        }
        drop(sender);
        collect(&receiver, taker);
        queue.stopped.store(true, Ordering::Relaxed);
        Ok(())
    })
}

/// The items, of which each thread takes the next.
struct Queue<'a, T> {
    items: &'a [T],
    next: AtomicUsize,
    stopped: AtomicBool,
}

impl<T> Queue<'_, T> {
    /// Does one item after another until there is none, or nobody wants the results.
    fn work<R>(&self, mut work: impl FnMut(&T) -> R, sender: &Sender<Vec<(usize, R)>>) {
        let (mut results, mut since) = (Vec::new(), Instant::now());
        while !self.stopped.load(Ordering::Relaxed) {
            let number = self.next.fetch_add(1, Ordering::Relaxed);
            let Some(item) = self.items.get(number) else { break };
            results.push((number, work(item)));
            if results.len() >= MOST || since.elapsed() >= KEPT {
                if sender.send(std::mem::take(&mut results)).is_err() {
                    return;
                }
                since = Instant::now();
            }
        }
        let _ = sender.send(results);
    }
}

/// Hands results over in the order of their numbers, as far as they are there.
fn collect<R>(receiver: &Receiver<Vec<(usize, R)>>, taker: &mut impl Taker<R>) {
    let (mut waiting, mut next, mut done) = (BTreeMap::new(), 0, 0);
    loop {
        match receiver.recv_timeout(TICK) {
            Ok(results) => {
                done += results.len();
                waiting.extend(results);
            }
            Err(RecvTimeoutError::Timeout) => {}
            Err(RecvTimeoutError::Disconnected) => return,
        }
        while let Some(result) = waiting.remove(&next) {
            next += 1;
            if taker.take(result).is_break() {
                return;
            }
        }
        taker.tick(done);
    }
}

#[cfg(test)]
mod tests {
    use super::*;

    struct Kept {
        results: Vec<usize>,
        most: usize,
    }

    impl Taker<usize> for Kept {
        fn take(&mut self, result: usize) -> ControlFlow<()> {
            self.results.push(result);
            match self.results.len() < self.most {
                true => ControlFlow::Continue(()),
                false => ControlFlow::Break(()),
            }
        }

        fn tick(&mut self, _: usize) {}
    }

    #[test]
    fn results_come_in_order() {
        let items: Vec<usize> = (0..5000).collect();
        for threads in [0, 1, 2, 7] {
            let mut kept = Kept { results: Vec::new(), most: usize::MAX };
            in_order(threads, &items, || |item: &usize| item * 2, &mut kept).expect("threads");
            assert!(kept.results.iter().copied().eq((0..5000).map(|item| item * 2)));
        }
    }

    #[test]
    fn nothing_to_do() {
        let mut kept = Kept { results: Vec::new(), most: usize::MAX };
        in_order(2, &[], || |item: &usize| *item, &mut kept).expect("threads");
        assert!(kept.results.is_empty());
    }

    #[test]
    fn a_break_ends_it() {
        let items: Vec<usize> = (0..5000).collect();
        let mut kept = Kept { results: Vec::new(), most: 10 };
        in_order(2, &items, || |item: &usize| *item, &mut kept).expect("threads");
        assert_eq!(kept.results, (0..10).collect::<Vec<_>>());
    }
}
