// How many numbers of standard input, one a line, lie below one: by sorting them all, or by the sketch of Greenwald and
// Khanna of the crate `quantiles`. It prints n, how many lie below, and by how much that may be off.
//
//     ranks AT            ranks AT EPSILON
use quantiles::greenwald_khanna::Stream;
use std::io::BufRead;

fn numbers() -> impl Iterator<Item = u64> {
    std::io::BufReader::with_capacity(1 << 16, std::io::stdin())
        .split(b'\n')
        .map(|line| std::str::from_utf8(&line.unwrap()).unwrap().parse().unwrap())
}

fn by_sorting(at: u64) -> (usize, usize, usize) {
    let mut all: Vec<u64> = numbers().collect();
    all.sort_unstable();
    (all.len(), all.partition_point(|&x| x < at), 0)
}

fn by_sketch(at: u64, epsilon: f64) -> (usize, usize, usize) {
    let mut stream = Stream::new(epsilon);
    let mut n = 0;
    for x in numbers() {
        stream.insert(x);
        n += 1;
    }
    // It answers quantiles alone: the rank is that of the greatest one below the number.
    let (mut low, mut high) = (0, n);
    while low < high {
        let middle = (low + high + 1) / 2;
        if *stream.quantile(middle as f64 / n as f64) < at {
            low = middle;
        } else {
            high = middle - 1;
        }
    }
    (n, low, (epsilon * n as f64) as usize)
}

fn main() {
    let words: Vec<String> = std::env::args().skip(1).collect();
    let at = words[0].parse().unwrap();
    let (n, below, within) = match words.get(1) {
        None => by_sorting(at),
        Some(epsilon) => by_sketch(at, epsilon.parse().unwrap()),
    };
    println!("n {n} below {below} within {within}");
}
