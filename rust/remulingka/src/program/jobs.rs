//! Many files, several at a time, with their results in order.

use std::collections::BTreeMap;
use std::sync::atomic::{AtomicUsize, Ordering};
use std::sync::mpsc;
use std::thread;

/// Does `work` for each item, `jobs` at a time, and hands the results to `take` in the
/// order of the items; should that fail, no further item is begun.
pub fn in_order<Item: Sync, Done: Send, Failed>(
    jobs: usize,
    items: &[Item],
    work: impl Fn(&Item) -> Done + Sync,
    mut take: impl FnMut(&Item, Done) -> Result<(), Failed>,
) -> Result<(), Failed> {
    let next = AtomicUsize::new(0);
    let (sender, receiver) = mpsc::channel();
    thread::scope(|scope| {
        for _ in 0..jobs.min(items.len()) {
            let (sender, next, work) = (sender.clone(), &next, &work);
            scope.spawn(move || loop {
                let index = next.fetch_add(1, Ordering::Relaxed);
                let Some(item) = items.get(index) else { break };
                if sender.send((index, work(item))).is_err() {
                    break;
                }
            });
        }
        drop(sender);
        let mut early = BTreeMap::new();
        let mut wanted = 0;
        for (index, done) in receiver {
            early.insert(index, done);
            while let Some(done) = early.remove(&wanted) {
                if let Err(failed) = take(&items[wanted], done) {
                    next.store(items.len(), Ordering::Relaxed);
                    return Err(failed);
                }
                wanted += 1;
            }
        }
        Ok(())
    })
}

#[cfg(test)]
mod tests {
    use super::in_order;

    #[test]
    fn results_come_in_order() {
        let items: Vec<u64> = (0..200).collect();
        let mut seen = Vec::new();
        let slow_first = |item: &u64| {
            std::thread::sleep(std::time::Duration::from_micros(200 - item));
            item * item
        };
        let done: Result<(), ()> = in_order(8, &items, slow_first, |item, square| {
            assert_eq!(square, item * item);
            seen.push(*item);
            Ok(())
        });
        assert!(done.is_ok());
        assert_eq!(seen, items);
    }
}
