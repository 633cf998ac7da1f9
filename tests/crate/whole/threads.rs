//! A comparison's cases shared out among the machine's processors.
use crate::draw::Draw;
use std::process::exit;
use std::thread;

/// Panics print nothing here, so one that is no answer of the crate must be told.
pub fn strayed() -> ! {
    eprintln!("tests/crate: a panic of the comparison itself, so that it says nothing");
    exit(2)
}

/// Compares cases 0 to `size`, each drawn from a seed of its own, and returns what each thread has. The cases do not depend on how many
/// threads there are.
pub fn shared<T: Send>(seed: u64, size: u64, new: fn() -> T, compare: impl Fn(&mut T, u64, &mut Draw) + Sync) -> Vec<T> {
    let threads = thread::available_parallelism().map_or(1, |count| count.get() as u64);
    let share = |thread: u64| {
        let (mut seeds, mut share) = (Draw(seed), new());
        for number in 0..size {
            let mut draw = Draw(seeds.bits());
            if number % threads == thread {
                compare(&mut share, number, &mut draw);
            }
        }
        share
    };
    thread::scope(|scope| {
        let threads: Vec<_> = (0..threads).map(|thread| scope.spawn(move || share(thread))).collect();
        threads.into_iter().map(|thread| thread.join().unwrap_or_else(|_| strayed())).collect()
    })
}
