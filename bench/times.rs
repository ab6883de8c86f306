// How often one line stands in standard input, by an exact map of all lines, over std alone.
//
//     times LINE
use std::collections::HashMap;
use std::io::BufRead;

fn main() {
    let wanted = std::env::args().nth(1).unwrap();
    let mut times: HashMap<Vec<u8>, u64> = HashMap::new();
    let mut input = std::io::stdin().lock();
    let (mut line, mut count) = (Vec::new(), 0u64);
    while input.read_until(b'\n', &mut line).unwrap() > 0 {
        if line.last() == Some(&b'\n') {
            line.pop();
        }
        match times.get_mut(&line) {
            Some(many) => *many += 1,
            None => {
                times.insert(line.clone(), 1);
            }
        }
        count += 1;
        line.clear();
    }
    println!("n {count} item {}", times.get(wanted.as_bytes()).copied().unwrap_or(0));
}
