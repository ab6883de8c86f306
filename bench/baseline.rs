// A plain single-thread program of the same algorithm, over std alone: the sketch of the k smallest
// MurmurHash3_x64_128 hashes of the distinct lines of standard input, or of the numbers that they spell.
//
//     baseline [--k K] [--raw]
use std::collections::{BinaryHeap, HashSet};
use std::io::Read;

const C1: u64 = 0x87c3_7b91_1142_53d5;
const C2: u64 = 0x4cf5_ad43_2745_937f;

fn finish(k: u64) -> u64 {
    let k = (k ^ (k >> 33)).wrapping_mul(0xff51_afd7_ed55_8ccd);
    let k = (k ^ (k >> 33)).wrapping_mul(0xc4ce_b9fe_1a85_ec53);
    k ^ (k >> 33)
}

fn word(bytes: &[u8]) -> u64 {
    bytes.iter().rev().fold(0, |word, byte| (word << 8) | u64::from(*byte))
}

fn first(k: u64) -> u64 {
    k.wrapping_mul(C1).rotate_left(31).wrapping_mul(C2)
}

fn second(k: u64) -> u64 {
    k.wrapping_mul(C2).rotate_left(33).wrapping_mul(C1)
}

fn hash63(bytes: &[u8]) -> u64 {
    let (mut h1, mut h2) = (0u64, 0u64);
    let mut blocks = bytes.chunks_exact(16);
    for block in &mut blocks {
        h1 ^= first(u64::from_le_bytes(block[..8].try_into().unwrap()));
        h1 = h1.rotate_left(27).wrapping_add(h2).wrapping_mul(5).wrapping_add(0x52dc_e729);
        h2 ^= second(u64::from_le_bytes(block[8..].try_into().unwrap()));
        h2 = h2.rotate_left(31).wrapping_add(h1).wrapping_mul(5).wrapping_add(0x3849_5ab5);
    }
    let tail = blocks.remainder();
    if tail.len() > 8 {
        h2 ^= second(word(&tail[8..]));
    }
    if !tail.is_empty() {
        h1 ^= first(word(&tail[..tail.len().min(8)]));
    }
    h1 ^= bytes.len() as u64;
    h2 ^= bytes.len() as u64;
    h1 = h1.wrapping_add(h2);
    h2 = h2.wrapping_add(h1);
    h1 = finish(h1);
    h2 = finish(h2);
    (h1.wrapping_add(h2) >> 1).max(1)
}

struct Sketch {
    k: usize,
    heap: BinaryHeap<u64>,
    kept: HashSet<u64>,
}

impl Sketch {
    fn update(&mut self, hash: u64) {
        if self.heap.len() == self.k && hash >= *self.heap.peek().unwrap() {
            return;
        }
        if self.kept.insert(hash) {
            self.heap.push(hash);
            if self.heap.len() > self.k {
                let greatest = self.heap.pop().unwrap();
                self.kept.remove(&greatest);
            }
        }
    }
}

fn main() {
    let words: Vec<String> = std::env::args().collect();
    let raw = words.iter().any(|word| word == "--raw");
    let k = words.iter().position(|word| word == "--k").map_or(4096, |place| words[place + 1].parse().unwrap());
    let mut sketch = Sketch { k, heap: BinaryHeap::new(), kept: HashSet::new() };
    let mut input = std::io::stdin().lock();
    let mut buffer: Vec<u8> = Vec::new();
    let mut piece = vec![0; 65_536];
    let mut take = |line: &[u8]| {
        let line = line.strip_suffix(b"\r").unwrap_or(line);
        if line.is_empty() {
            return;
        }
        if raw {
            let text = std::str::from_utf8(line).unwrap();
            sketch.update(text.parse::<u64>().unwrap() + 1);
        } else {
            sketch.update(hash63(line));
        }
    };
    loop {
        let n = input.read(&mut piece).unwrap();
        if n == 0 {
            break;
        }
        buffer.extend_from_slice(&piece[..n]);
        let mut at = 0;
        while let Some(place) = buffer[at..].iter().position(|byte| *byte == b'\n') {
            take(&buffer[at..at + place]);
            at += place + 1;
        }
        buffer.drain(..at);
    }
    take(&buffer.clone());
    match sketch.heap.peek() {
        Some(theta) if sketch.heap.len() == sketch.k => {
            println!("estimate {}/{}", (sketch.k as u128 - 1) << 63, theta)
        }
        _ => println!("estimate {}/1", sketch.heap.len()),
    }
}
