//! Work shared among all processors.

use std::ops::Range;
use std::panic::{catch_unwind, AssertUnwindSafe};
use std::sync::atomic::{AtomicUsize, Ordering};
use std::thread;

/// What `work` gives for each number, in order; every thread takes the next number that is left. A panic names its number.
pub fn for_each<T: Send>(numbers: Range<usize>, work: impl Fn(usize) -> T + Sync) -> Vec<T> {
    let next = AtomicUsize::new(numbers.start);
    let named = |number| catch_unwind(AssertUnwindSafe(|| work(number))).unwrap_or_else(|_| panic!("panic at number {number}"));
    let some = || {
        let left = std::iter::repeat_with(|| next.fetch_add(1, Ordering::Relaxed));
        left.take_while(|number| *number < numbers.end).map(|number| (number, named(number))).collect::<Vec<_>>()
    };
    let mut all: Vec<(usize, T)> = thread::scope(|scope| {
        let threads: Vec<_> = (0..processors()).map(|_| scope.spawn(some)).collect();
        threads.into_iter().flat_map(|thread| thread.join().expect("a thread panicked")).collect()
    });
    all.sort_by_key(|(number, _)| *number);
    all.into_iter().map(|(_, result)| result).collect()
}

fn processors() -> usize {
    thread::available_parallelism().map_or(1, usize::from)
}

#[cfg(test)]
mod tests {
    use super::*;

    #[test]
    fn each_number_once_and_in_order() {
        assert_eq!(for_each(3..1_000, |number| number * 2), (3..1_000).map(|number| number * 2).collect::<Vec<_>>());
        assert_eq!(for_each(5..5, |number| number), []);
    }
}
