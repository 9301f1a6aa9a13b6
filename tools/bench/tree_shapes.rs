//! Times two shapes of a sorted set: the B-tree of Rust's library, whose nodes hold up to eleven entries and are searched
//! one by one, and chunks of sorted entries in a list, which are searched by halving. An entry is as large as a place in an
//! order of two columns, and is compared by its text first. Each round adds an entry and removes it again, a thousand
//! after one another, among 10,000 and among 1,000,000 that came in ascending order or at random.
//!
//! Run it by `rustc -O -o out/tree_shapes tools/bench/tree_shapes.rs && out/tree_shapes`.

use std::cell::Cell;
use std::cmp::Ordering;
use std::collections::BTreeSet;
use std::time::Instant;

const ROUNDS: usize = 200;
const CHUNK_SIZES: [usize; 4] = [64, 128, 256, 512];

thread_local! {
    static COMPARISONS: Cell<u64> = const { Cell::new(0) };
}

#[derive(Clone)]
struct Entry {
    text: [u8; 24],
    amount: i128,
    number: usize,
    _rest: [u64; 4],
}

impl Entry {
    fn new(key: u64) -> Entry {
        let mut text = [0; 24];
        text[..10].copy_from_slice(format!("{key:010}").as_bytes());
        Entry { text, amount: key as i128, number: key as usize, _rest: [0; 4] }
    }
}

impl Ord for Entry {
    fn cmp(&self, other: &Entry) -> Ordering {
        COMPARISONS.set(COMPARISONS.get() + 1);
        self.text
            .cmp(&other.text)
            .then(other.amount.cmp(&self.amount))
            .then(self.number.cmp(&other.number))
    }
}

impl PartialOrd for Entry {
    fn partial_cmp(&self, other: &Entry) -> Option<Ordering> {
        Some(self.cmp(other))
    }
}

impl PartialEq for Entry {
    fn eq(&self, other: &Entry) -> bool {
        self.cmp(other) == Ordering::Equal
    }
}

impl Eq for Entry {}

trait SortedSet {
    fn add(&mut self, entry: Entry);
    fn take(&mut self, entry: &Entry);
}

impl SortedSet for BTreeSet<Entry> {
    fn add(&mut self, entry: Entry) {
        self.insert(entry);
    }

    fn take(&mut self, entry: &Entry) {
        self.remove(entry);
    }
}

/// No chunk is empty, and none has more than `most` entries.
struct Chunks {
    chunks: Vec<Vec<Entry>>,
    most: usize,
}

impl Chunks {
    /// The first chunk whose last entry isn't below this one, or the last chunk.
    fn chunk_of(&self, entry: &Entry) -> usize {
        let found = self.chunks.partition_point(|chunk| chunk.last().unwrap() < entry);
        found.min(self.chunks.len() - 1)
    }

    /// Halves a full chunk, or begins a new one where the entry comes after all.
    fn split(&mut self, at: usize, entry: &Entry) {
        let chunk = &mut self.chunks[at];
        let is_last = chunk.last().unwrap() < entry;
        let kept = if is_last { self.most } else { self.most / 2 };
        let mut tail = Vec::with_capacity(self.most);
        tail.extend(chunk.drain(kept..));
        self.chunks.insert(at + 1, tail);
    }
}

impl SortedSet for Chunks {
    fn add(&mut self, entry: Entry) {
        if self.chunks.is_empty() {
            self.chunks.push(Vec::with_capacity(self.most));
            self.chunks[0].push(entry);
            return;
        }
        let mut at = self.chunk_of(&entry);
        if self.chunks[at].len() == self.most {
            self.split(at, &entry);
            at += usize::from(self.chunks[at].last().unwrap() < &entry);
        }
        let chunk = &mut self.chunks[at];
        let place = chunk.partition_point(|other| other < &entry);
        chunk.insert(place, entry);
    }

    fn take(&mut self, entry: &Entry) {
        let at = self.chunk_of(entry);
        if let Ok(place) = self.chunks[at].binary_search(entry) {
            self.chunks[at].remove(place);
        }
        if self.chunks[at].is_empty() {
            self.chunks.remove(at);
        }
    }
}

fn measure(name: &str, set: &mut dyn SortedSet, keys: &dyn Fn(u64) -> u64, live: u64) {
    for number in 0..live {
        set.add(Entry::new(keys(number)));
    }
    let entries: Vec<Entry> = (0..1000).map(|number| Entry::new(keys(live + number))).collect();
    COMPARISONS.set(0);
    let began = Instant::now();
    for _ in 0..ROUNDS {
        entries.iter().for_each(|entry| set.add(entry.clone()));
        entries.iter().for_each(|entry| set.take(entry));
    }
    let all = (ROUNDS * entries.len()) as f64;
    let nanoseconds = began.elapsed().as_nanos() as f64 / all;
    let compared = COMPARISONS.get() as f64 / all;
    println!("{name}: {nanoseconds:.0} ns, {compared:.1} comparisons");
}

fn main() {
    let ascending = |number: u64| number;
    let random = |number: u64| (number.wrapping_mul(0x9E37_79B9_7F4A_7C15) >> 24) % 10_000_000_000;
    let orders: [(&str, &dyn Fn(u64) -> u64); 2] = [("ascending", &ascending), ("random", &random)];
    for (order, keys) in orders {
        for live in [10_000, 1_000_000] {
            measure(&format!("{order}, {live}, tree"), &mut BTreeSet::new(), keys, live);
            for most in CHUNK_SIZES {
                let mut chunks = Chunks { chunks: Vec::new(), most };
                measure(&format!("{order}, {live}, chunks of {most}"), &mut chunks, keys, live);
            }
        }
    }
}
