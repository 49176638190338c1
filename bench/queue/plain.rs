// Events a second through a plain bounded queue: a `VecDeque` under a `Mutex`. Whoever waits does so at a `Condvar`, or with the
// argument `yield` spins and then yields, as the session does. With the argument `batch` the receiver takes all that is there
// at once, and sleeps until half of the places are taken or a sender has ended. What is taken is pushed into seven columns, as
// the record keeps them.
use std::collections::VecDeque;
use std::sync::{Arc, Condvar, Mutex};
use std::time::Instant;

const EVENTS: u64 = 50_000;
const CAPACITY: usize = 64;
const ROUNDS: u32 = 3;

#[allow(dead_code)]
#[derive(Clone, Copy, PartialEq)]
enum Kind { Dynamic, Skipped, Started, Finished, Reporting }

#[allow(dead_code)]
enum Payload { Nothing, Reason(String), Outcome(u8, Option<String>), Report(Vec<(String, String)>), Described(Box<(String, String, u8)>) }

struct Event { kind: Kind, key: u32, stamp: u64, payload: Payload }

struct Entry { worker: u8, event: Event }

enum Item { Entry(Entry), End }

#[derive(Clone, Copy, PartialEq)]
enum Waiting { Sleeps, Yields, Batches }

struct Queue { items: Mutex<VecDeque<Item>>, room: Condvar, some: Condvar, waiting: Waiting }

fn snooze(step: &mut u32) {
    if *step <= 6 {
        for _ in 0..1u32 << *step { std::hint::spin_loop(); }
    } else {
        std::thread::yield_now();
    }
    *step = (*step + 1).min(11);
}

impl Queue {
    fn push(&self, item: Item) {
        if self.waiting == Waiting::Yields {
            let mut step = 0;
            loop {
                let mut items = self.items.lock().unwrap();
                if items.len() < CAPACITY { items.push_back(item); return; }
                drop(items);
                snooze(&mut step);
            }
        }
        let mut items = self.items.lock().unwrap();
        while items.len() >= CAPACITY { items = self.room.wait(items).unwrap(); }
        let is_end = matches!(item, Item::End);
        items.push_back(item);
        let wakes = self.waiting == Waiting::Sleeps || is_end || items.len() == CAPACITY / 2 || items.len() == CAPACITY;
        drop(items);
        if wakes { self.some.notify_one(); }
    }
    /// Takes all items in place of these, which are none: at least half of a full queue, or an end.
    fn take_all(&self, taken: &mut VecDeque<Item>) {
        let mut items = self.items.lock().unwrap();
        while items.len() < CAPACITY / 2 && !matches!(items.back(), Some(Item::End)) {
            items = self.some.wait(items).unwrap();
        }
        std::mem::swap(&mut *items, taken);
        drop(items);
        self.room.notify_all();
    }
    fn pop(&self) -> Item {
        if self.waiting == Waiting::Yields {
            let mut step = 0;
            loop {
                if let Some(item) = self.items.lock().unwrap().pop_front() { return item; }
                snooze(&mut step);
            }
        }
        let mut items = self.items.lock().unwrap();
        loop {
            if let Some(item) = items.pop_front() {
                drop(items);
                self.room.notify_one();
                return item;
            }
            items = self.some.wait(items).unwrap();
        }
    }
}

#[derive(Default)]
struct Record { workers: Vec<u8>, kinds: Vec<u8>, statuses: Vec<u8>, types: Vec<u8>, keys: Vec<u32>, stamps: Vec<u64>, payloads: Vec<Payload> }

impl Record {
    fn append(&mut self, table: &[u8], entry: Entry) -> bool {
        let Some(dtype) = table.get(entry.event.key as usize) else { return false };
        if entry.worker > 15 || entry.event.kind != Kind::Started || self.workers.len() >= 1 << 25 { return false; }
        self.workers.push(entry.worker);
        self.kinds.push(entry.event.kind as u8);
        self.statuses.push(0);
        self.types.push(*dtype);
        self.keys.push(entry.event.key);
        self.stamps.push(entry.event.stamp);
        self.payloads.push(entry.event.payload);
        true
    }
}

fn main() {
    let waiting = match std::env::args().nth(1).as_deref() {
        Some("yield") => Waiting::Yields,
        Some("batch") => Waiting::Batches,
        _ => Waiting::Sleeps,
    };
    for workers in [1, 2, 4, 8u8] {
        for _ in 0..ROUNDS {
            let queue = Arc::new(Queue { items: Mutex::new(VecDeque::with_capacity(CAPACITY)), room: Condvar::new(), some: Condvar::new(), waiting });
            let begun = Instant::now();
            let threads: Vec<_> = (1..=workers).map(|worker| {
                let queue = queue.clone();
                std::thread::spawn(move || {
                    for stamp in 0..EVENTS {
                        queue.push(Item::Entry(Entry { worker, event: Event { kind: Kind::Started, key: 0, stamp, payload: Payload::Nothing } }));
                    }
                    queue.push(Item::End);
                })
            }).collect();
            let (mut record, mut entries, mut ends) = (Record::default(), 0u64, 0);
            let mut taken = VecDeque::with_capacity(CAPACITY);
            while ends < workers {
                if waiting == Waiting::Batches { queue.take_all(&mut taken) } else { taken.push_back(queue.pop()) }
                for item in taken.drain(..) {
                    match item {
                        Item::Entry(entry) => if record.append(&[2], entry) { entries += 1 },
                        Item::End => ends += 1,
                    }
                }
            }
            println!("{workers} {entries} {}", begun.elapsed().as_micros());
            for thread in threads { thread.join().unwrap(); }
        }
    }
}
