//! What the log is compared with beside `peers.rs`, from crates that Debian has: one writer that hands each batch to
//! several readers, through one bounded channel of crossbeam-channel a reader, or through tokio's broadcast. A broadcast
//! drops what a slow reader hasn't taken, so there the writer waits until all readers have taken enough.
//!
//!     rivals crossbeam|crossbeam-asleep|tokio READERS ITEMS BATCH PLACES     prints the seconds that it took
//!
//! A reader of a channel blocks while there is nothing, as its crate has it, or sleeps at once, as the log's may.
use crossbeam_channel::{Receiver, TryRecvError as NoBatch};
use std::env;
use std::hint::spin_loop;
use std::sync::Arc;
use std::sync::atomic::{AtomicUsize, Ordering::SeqCst};
use std::thread;
use std::time::{Duration, Instant};
use tokio::sync::broadcast;
use tokio::sync::broadcast::error::TryRecvError;

type Batch = Arc<Vec<u64>>;

/// The batch of that number: each item is its own number among all.
fn batch_of(number: usize, size: usize) -> Batch {
    Arc::new((0..size).map(|at| (number * size + at) as u64).collect())
}

/// Spins a little, and then lets another thread go on.
fn wait(turns: &mut u32) {
    *turns = turns.wrapping_add(1);
    if *turns % 64 == 0 {
        thread::yield_now();
    } else {
        spin_loop();
    }
}

fn add(sum: u64, batch: &Batch) -> u64 {
    batch.iter().fold(sum, |sum, item| sum.wrapping_add(*item))
}

fn read_blocking(receiver: Receiver<Batch>) -> u64 {
    receiver.iter().fold(0, |sum, batch| add(sum, &batch))
}

/// A sleep of a microsecond takes some sixty, since Linux lets a timer be late by 50 (its timer slack).
fn read_sleeping(receiver: Receiver<Batch>) -> u64 {
    let mut sum = 0;
    loop {
        match receiver.try_recv() {
            Ok(batch) => sum = add(sum, &batch),
            Err(NoBatch::Empty) => thread::sleep(Duration::from_micros(1)),
            Err(NoBatch::Disconnected) => return sum,
        }
    }
}

fn through_channels(
    readers: usize,
    batches: usize,
    size: usize,
    places: usize,
    read: fn(Receiver<Batch>) -> u64,
) -> Vec<u64> {
    let (senders, receivers): (Vec<_>, Vec<_>) =
        (0..readers).map(|_| crossbeam_channel::bounded::<Batch>(places)).unzip();
    let threads: Vec<_> =
        receivers.into_iter().map(|receiver| thread::spawn(move || read(receiver))).collect();
    for number in 0..batches {
        let batch = batch_of(number, size);
        for sender in &senders {
            sender.send(batch.clone()).unwrap();
        }
    }
    drop(senders);
    threads.into_iter().map(|thread| thread.join().unwrap()).collect()
}

fn through_broadcast(readers: usize, batches: usize, size: usize, places: usize) -> Vec<u64> {
    let (sender, _) = broadcast::channel::<Batch>(places);
    let taken: Arc<Vec<AtomicUsize>> = Arc::new((0..readers).map(|_| AtomicUsize::new(0)).collect());
    let threads: Vec<_> = (0..readers)
        .map(|reader| {
            let (mut receiver, taken) = (sender.subscribe(), taken.clone());
            thread::spawn(move || {
                let (mut sum, mut turns) = (0, 0);
                loop {
                    match receiver.try_recv() {
                        Ok(batch) => {
                            sum = add(sum, &batch);
                            taken[reader].fetch_add(1, SeqCst);
                        }
                        Err(TryRecvError::Empty) => wait(&mut turns),
                        Err(TryRecvError::Closed) => return sum,
                        Err(TryRecvError::Lagged(_)) => panic!("items were lost"),
                    }
                }
            })
        })
        .collect();
    let mut turns = 0;
    for number in 0..batches {
        while taken.iter().any(|taken| taken.load(SeqCst) + places <= number) {
            wait(&mut turns);
        }
        sender.send(batch_of(number, size)).unwrap();
    }
    drop(sender);
    threads.into_iter().map(|thread| thread.join().unwrap()).collect()
}

fn main() {
    let arguments: Vec<String> = env::args().collect();
    let number = |at: usize| arguments[at].parse::<usize>().unwrap();
    let (readers, items, size, places) = (number(2), number(3), number(4), number(5));
    let batches = items / size;
    let begin = Instant::now();
    let sums = match arguments[1].as_str() {
        "crossbeam" => through_channels(readers, batches, size, places, read_blocking),
        "crossbeam-asleep" => through_channels(readers, batches, size, places, read_sleeping),
        "tokio" => through_broadcast(readers, batches, size, places),
        _ => panic!("crossbeam, crossbeam-asleep or tokio"),
    };
    let seconds = begin.elapsed().as_secs_f64();
    let all = (batches * size) as u64;
    assert!(sums.iter().all(|sum| *sum == all * (all - 1) / 2));
    println!("{seconds:.4}");
}
