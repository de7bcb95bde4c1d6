//! Times the filing of many items in lists by threads. Its words are `atomic` or `mutex`, the number of threads, of lists
//! and of chunks of each list.

mod atomic;
mod dice;
mod mutex;
mod worker;

use std::env;
use std::process::ExitCode;
use std::thread;
use std::time::{Duration, Instant};

use worker::{File, Worker};

/// How many slots a chunk has.
pub const SLOTS: u32 = 256;

fn main() -> ExitCode {
    match run() {
        Some(()) => ExitCode::SUCCESS,
        None => {
            eprintln!("filing_plain: atomic or mutex, threads, lists, chunks of each list");
            ExitCode::FAILURE
        }
    }
}

fn run() -> Option<()> {
    let mut words = env::args().skip(1);
    let way = words.next()?;
    let mut number = || words.next()?.parse::<u32>().ok();
    let (threads, lists, chunks) = (number()?, number()?, number()?);
    let (items, took) = match way.as_str() {
        "atomic" => filed(&atomic::Lists::new(lists, chunks), threads, lists, chunks),
        "mutex" => filed(&mutex::Lists::new(lists, chunks), threads, lists, chunks),
        _ => return None,
    };
    println!("threads {threads} lists {lists} items {items}");
    eprintln!("took {} microseconds", took.as_micros());
    Some(())
}

/// Files as many items as there are places for. Tells how many came to stand, and how long it took.
fn filed<L: File>(shared: &L, threads: u32, lists: u32, chunks: u32) -> (usize, Duration) {
    let places = SLOTS * chunks / threads;
    let mut workers: Vec<_> = (0..threads)
        .map(|number| Worker::new(shared, lists, places, u64::from(number) + 1))
        .collect();
    let start = Instant::now();
    thread::scope(|scope| {
        for (number, worker) in workers.iter_mut().enumerate() {
            scope.spawn(move || worker.work(shared, (number as u32) << 26));
        }
    });
    let took = start.elapsed();
    (workers.iter().map(Worker::standing).sum(), took)
}
