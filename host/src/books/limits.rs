//! Runs that come to the limits: long ones and deep ones.

use super::examples::{nesting, rinse};
use super::random::Random;
use crate::book::Book;

/// A run of the nesting book: so many pairs.
pub fn nested_run(pairs: usize) -> Vec<u8> {
    let mut run = vec![0; pairs];
    run.resize(2 * pairs, 1);
    run
}

/// A run of the rinse book of this many events, at least two.
pub fn rinse_run(events: usize) -> Vec<u8> {
    let mut run = vec![1; events];
    run[0] = 0;
    run[events - 1] = 2;
    run
}

/// A run of a process of so many steps: as often as fits into the most events, each step with two of its other events.
pub fn process_run(steps: usize, most: usize) -> Vec<u8> {
    let once = (0..steps).flat_map(|step| [2 * step, 2 * step + 1, 2 * step + 1]);
    let once: Vec<u8> = once.map(|kind| (kind % 64) as u8).collect();
    once.repeat(most / once.len())
}

/// A book with a long or deep run of up to about this many events, now and then with its last event changed.
pub fn long_run(random: &mut Random, most: usize) -> (Book, Vec<u8>) {
    let length = if random.once_in(2) {
        most + random.within(0, 2) - random.within(0, 2)
    } else {
        random.within(2, most)
    };
    let (book, mut run) = if random.once_in(2) {
        (rinse(), rinse_run(length))
    } else {
        (nesting(), nested_run(length / 2))
    };
    if random.once_in(4) {
        let last = run.len() - 1;
        run[last] = random.below(4) as u8;
    }
    (book, run)
}
