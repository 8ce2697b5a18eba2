// The work of crates/bench in Rust, for crack.sh: the same rows and numbers.
//
// `crack ROWS SEED` cracks a `Vec<(i64, Vec<u8>)>` by a loop that swaps each row. `plain` and `pivots` change
// rows of a `BTreeSet<(i64, Vec<u8>)>`, and so does `merge ROWS SEED RANGES UPDATES TIMES`, so many updates so
// many times. `settled` sorts all rows anew in each round.

use std::collections::BTreeSet;
use std::time::Instant;

type Row = (i64, Vec<u8>);

const UPDATES: u32 = 4000;
const WIDTH: i64 = 21474836;

struct Numbers {
    state: u64,
}

impl Numbers {
    fn next(&mut self) -> u32 {
        self.state = self.state.wrapping_mul(6364136223846793005).wrapping_add(1442695040888963407);
        (self.state >> 33) as u32
    }
}

fn row_of(number: u32, score: i64) -> Row {
    let mut member = b"member-00000".to_vec();
    member.extend_from_slice(&number.to_be_bytes());
    (score, member)
}

fn rows_of(count: u32, numbers: &mut Numbers) -> Vec<Row> {
    (0..count).map(|i| row_of(i, i64::from(numbers.next()))).collect()
}

fn crack_two(rows: &mut [Row], v: i64) -> usize {
    let mut place = 0;
    for i in 0..rows.len() {
        let below = rows[i].0 < v;
        rows.swap(i, place);
        if below {
            place += 1;
        }
    }
    place
}

fn crack_three(rows: &mut [Row], v: i64, w: i64) -> (usize, usize) {
    let from = crack_two(rows, v);
    (from, from + crack_two(&mut rows[from..], w))
}

fn tell(name: &str, outcome: usize, start: Instant) {
    println!("{name} {outcome} {}", start.elapsed().as_micros());
}

fn cracks(count: u32, mut numbers: Numbers) {
    let mut rows = rows_of(count, &mut numbers);
    let value = i64::from(numbers.next());
    let start = Instant::now();
    let place = crack_two(&mut rows, value);
    tell("two", place, start);
    let mut rows = rows_of(count, &mut numbers);
    let one = i64::from(numbers.next());
    let other = i64::from(numbers.next());
    let start = Instant::now();
    let (from, to) = crack_three(&mut rows, one.min(other), one.max(other));
    tell("three", to - from, start);
    let mut moved = Vec::new();
    moved.append(&mut rows);
    let start = Instant::now();
    rows.append(&mut moved);
    tell("copy", rows.len(), start);
}

fn skip_ranges(ranges: u32, numbers: &mut Numbers) {
    for _ in 0..ranges {
        numbers.next();
    }
}

// Gives a random row a random score.
fn change(set: &mut BTreeSet<Row>, held: &mut [Row], numbers: &mut Numbers) {
    let index = numbers.next() as usize % held.len();
    let score = i64::from(numbers.next());
    let old = held[index].clone();
    let new = (score, held[index].1.clone());
    let copy = (score, held[index].1.clone());
    set.remove(&old);
    set.insert(new);
    held[index] = copy;
}

// A set has no pivots: the ranges that the column selects first are passed over.
fn set(name: &str, count: u32, ranges: u32, mut numbers: Numbers) {
    let mut held = rows_of(count, &mut numbers);
    let mut set: BTreeSet<Row> = held.iter().cloned().collect();
    skip_ranges(ranges, &mut numbers);
    let start = Instant::now();
    for _ in 0..UPDATES {
        change(&mut set, &mut held, &mut numbers);
    }
    tell(name, set.len(), start);
}

fn merge(count: u32, ranges: u32, updates: u32, times: u32, mut numbers: Numbers) {
    let mut held = rows_of(count, &mut numbers);
    let mut set: BTreeSet<Row> = held.iter().cloned().collect();
    skip_ranges(ranges, &mut numbers);
    let start = Instant::now();
    for _ in 0..updates * times {
        change(&mut set, &mut held, &mut numbers);
    }
    tell("merge", set.len(), start);
}

fn settled(count: u32, mut numbers: Numbers) {
    let mut held = rows_of(count, &mut numbers);
    skip_ranges(100, &mut numbers);
    let start = Instant::now();
    let mut found = 0;
    for _ in 0..10 {
        for _ in 0..1000 {
            let index = numbers.next() as usize % held.len();
            let score = i64::from(numbers.next());
            held[index] = (score, held[index].1.clone());
        }
        let mut sorted: Vec<&Row> = held.iter().collect();
        sorted.sort_unstable();
        let low = i64::from(numbers.next());
        let from = sorted.partition_point(|row| row.0 < low);
        let to = sorted.partition_point(|row| row.0 < low + WIDTH);
        found += to - from;
    }
    tell("settled", found, start);
}

fn main() {
    let words: Vec<String> = std::env::args().collect();
    let count = words[2].parse().unwrap();
    let numbers = Numbers { state: words[3].parse().unwrap() };
    match words[1].as_str() {
        "crack" => cracks(count, numbers),
        "plain" => set("plain", count, 0, numbers),
        "pivots" => set("pivots", count, 2048, numbers),
        "settled" => settled(count, numbers),
        "merge" => {
            let number = |i: usize| words[i].parse().unwrap();
            merge(count, number(4), number(5), number(6), numbers)
        }
        name => panic!("no such work: {name}"),
    }
}
