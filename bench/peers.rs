//! What the log is compared with: one writer that hands each batch to several readers, through one bounded channel a
//! reader (std's, which is crossbeam's bounded queue), or through a bare ring with a counter a reader.
//!
//!     peers channel|ring READERS ITEMS BATCH PLACES     prints the seconds that it took
use std::cell::UnsafeCell;
use std::env;
use std::hint::spin_loop;
use std::sync::Arc;
use std::sync::atomic::{AtomicUsize, Ordering::SeqCst};
use std::sync::mpsc::sync_channel;
use std::thread;
use std::time::Instant;

/// The items of the batch of that number: each is its own number among all.
fn batch_of(number: usize, size: usize) -> Vec<u64> {
    (0..size).map(|at| (number * size + at) as u64).collect()
}

/// Spins a little, and then lets another thread go on.
fn wait(turns: &mut u32) {
    *turns += 1;
    if *turns % 64 == 0 {
        thread::yield_now();
    } else {
        spin_loop();
    }
}

fn channel(readers: usize, batches: usize, size: usize, places: usize) -> Vec<u64> {
    let (senders, receivers): (Vec<_>, Vec<_>) =
        (0..readers).map(|_| sync_channel::<Arc<Vec<u64>>>(places)).unzip();
    let threads: Vec<_> = receivers
        .into_iter()
        .map(|receiver| {
            thread::spawn(move || receiver.iter().flat_map(|batch| batch.to_vec()).fold(0, u64::wrapping_add))
        })
        .collect();
    for number in 0..batches {
        let batch = Arc::new(batch_of(number, size));
        for sender in &senders {
            sender.send(batch.clone()).unwrap();
        }
    }
    drop(senders);
    threads.into_iter().map(|thread| thread.join().unwrap()).collect()
}

/// A word alone on its pair of cache lines.
#[repr(align(128))]
struct Word(AtomicUsize);

struct Ring {
    published: Word,
    passed: Vec<Word>,
    slots: Vec<UnsafeCell<Vec<u64>>>,
}

// A slot is written only where each reader has passed it, and read only once it is published.
unsafe impl Sync for Ring {}

fn ring(readers: usize, batches: usize, size: usize, places: usize) -> Vec<u64> {
    let ring = Arc::new(Ring {
        published: Word(AtomicUsize::new(0)),
        passed: (0..readers).map(|_| Word(AtomicUsize::new(0))).collect(),
        slots: (0..places).map(|_| UnsafeCell::new(Vec::new())).collect(),
    });
    let threads: Vec<_> = (0..readers)
        .map(|reader| {
            let ring = ring.clone();
            thread::spawn(move || {
                let (mut sum, mut seen, mut turns) = (0_u64, 0, 0);
                for place in 0..batches {
                    while seen <= place {
                        seen = ring.published.0.load(SeqCst);
                        if seen <= place {
                            wait(&mut turns);
                        }
                    }
                    let batch = unsafe { &*ring.slots[place % places].get() };
                    sum = batch.iter().fold(sum, |sum, item| sum.wrapping_add(*item));
                    ring.passed[reader].0.store(place + 1, SeqCst);
                }
                sum
            })
        })
        .collect();
    let mut turns = 0;
    for place in 0..batches {
        while ring.passed.iter().any(|passed| passed.0.load(SeqCst) + places <= place) {
            wait(&mut turns);
        }
        unsafe { *ring.slots[place % places].get() = batch_of(place, size) };
        ring.published.0.store(place + 1, SeqCst);
    }
    threads.into_iter().map(|thread| thread.join().unwrap()).collect()
}

fn main() {
    let arguments: Vec<String> = env::args().collect();
    let number = |at: usize| arguments[at].parse::<usize>().unwrap();
    let (readers, items, size, places) = (number(2), number(3), number(4), number(5));
    let batches = items / size;
    let begin = Instant::now();
    let sums = match arguments[1].as_str() {
        "channel" => channel(readers, batches, size, places),
        "ring" => ring(readers, batches, size, places),
        _ => panic!("channel or ring"),
    };
    let seconds = begin.elapsed().as_secs_f64();
    let all = (batches * size) as u64;
    assert!(sums.iter().all(|sum| *sum == all * (all - 1) / 2));
    println!("{seconds:.4}");
}
