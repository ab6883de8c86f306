// Updates by threads, over std alone: of one sketch in a Mutex, or of a sketch for each thread, merged at the end. The
// sketch is that of the k smallest distinct items, which `steps scale` updates through a hub, and so are the items.
//
//     scale lock THREADS DISTINCT N            scale own THREADS DISTINCT N
use std::collections::{BinaryHeap, HashSet};
use std::hash::{BuildHasherDefault, Hasher};
use std::sync::Mutex;
use std::thread;

const K: usize = 4_096;
const ITEM_END: u64 = 1 << 63;
const FACTOR: u64 = 0x9E37_79B9_7F4A_7C15;

/// The hash of an item for the set: one product.
#[derive(Default)]
struct Product(u64);

impl Hasher for Product {
    fn write(&mut self, _: &[u8]) {
        unreachable!("items are hashed as words")
    }

    fn write_u64(&mut self, item: u64) {
        self.0 = item.wrapping_mul(FACTOR);
        self.0 ^= self.0 >> 32;
    }

    fn finish(&self) -> u64 {
        self.0
    }
}

struct Sketch {
    heap: BinaryHeap<u64>,
    kept: HashSet<u64, BuildHasherDefault<Product>>,
    theta: u64,
}

impl Sketch {
    fn new() -> Sketch {
        Sketch {
            heap: BinaryHeap::with_capacity(K + 1),
            kept: HashSet::with_capacity_and_hasher(K + 1, Default::default()),
            theta: ITEM_END,
        }
    }

    #[inline(always)]
    fn update(&mut self, item: u64) {
        if item < self.theta {
            self.keep(item);
        }
    }

    #[inline(never)]
    fn keep(&mut self, item: u64) {
        if !self.kept.insert(item) {
            return;
        }
        self.heap.push(item);
        if self.heap.len() > K {
            let greatest = self.heap.pop().unwrap();
            self.kept.remove(&greatest);
        }
        if self.heap.len() == K {
            self.theta = *self.heap.peek().unwrap();
        }
    }

    fn merge(mut self, other: Sketch) -> Sketch {
        other.heap.into_iter().for_each(|item| self.update(item));
        self
    }
}

fn item_at(place: u64, distinct: u64) -> u64 {
    let number = if distinct == 0 { place } else { place % distinct };
    let item = (number.wrapping_mul(FACTOR) % ITEM_END).max(1);
    ((item ^ (item >> 24)).wrapping_mul(FACTOR) % ITEM_END).max(1)
}

/// What each of the threads takes, of this many distinct items.
#[derive(Clone, Copy)]
struct Load {
    threads: u64,
    distinct: u64,
    each: u64,
}

impl Load {
    fn items(self, thread: u64) -> impl Iterator<Item = u64> {
        let first = thread * self.each;
        (first..first + self.each).map(move |place| item_at(place, self.distinct))
    }
}

fn by_lock(load: Load) -> Sketch {
    let shared = Mutex::new(Sketch::new());
    thread::scope(|scope| {
        for thread in 0..load.threads {
            let shared = &shared;
            scope.spawn(move || load.items(thread).for_each(|item| shared.lock().unwrap().update(item)));
        }
    });
    shared.into_inner().unwrap()
}

fn by_own(load: Load) -> Sketch {
    let update_all = |thread| {
        let mut own = Sketch::new();
        load.items(thread).for_each(|item| own.update(item));
        own
    };
    thread::scope(|scope| {
        let threads: Vec<_> = (0..load.threads).map(|thread| scope.spawn(move || update_all(thread))).collect();
        threads.into_iter().map(|thread| thread.join().unwrap()).reduce(Sketch::merge).unwrap()
    })
}

fn main() {
    let words: Vec<String> = std::env::args().skip(1).collect();
    let number = |place: usize| words[place].parse::<u64>().unwrap();
    let threads = number(1);
    let load = Load { threads, distinct: number(2), each: number(3) / threads };
    let sketch = if words[0] == "lock" { by_lock(load) } else { by_own(load) };
    println!("count {} theta {}", sketch.heap.len(), sketch.theta);
}
