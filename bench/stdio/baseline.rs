// The same work in plain Rust, to compare `zcrackd stdio` with: requests read from standard input 16 KB at
// a time, an owned byte string for each argument, sets in std's maps, replies to standard output.
//
//     baseline generate BYTES   writes the input of the bench
//     baseline ordered          serves standard input, the sets by key in order, as zcrackd keeps them
//     baseline hashed           the same with the keys in a hash map
use std::collections::{BTreeMap, HashMap};
use std::io::{self, BufWriter, Read, Write};

type Set = HashMap<Vec<u8>, i64>;

/// Sets by key.
trait Sets: Default {
    fn at(&mut self, key: Vec<u8>) -> &mut Set;
    fn find(&self, key: &[u8]) -> Option<&Set>;
}

impl Sets for HashMap<Vec<u8>, Set> {
    fn at(&mut self, key: Vec<u8>) -> &mut Set {
        self.entry(key).or_default()
    }
    fn find(&self, key: &[u8]) -> Option<&Set> {
        self.get(key)
    }
}

impl Sets for BTreeMap<Vec<u8>, Set> {
    fn at(&mut self, key: Vec<u8>) -> &mut Set {
        self.entry(key).or_default()
    }
    fn find(&self, key: &[u8]) -> Option<&Set> {
        self.get(key)
    }
}

struct Decoder {
    bytes: Vec<u8>,
    start: usize,
}

impl Decoder {
    fn feed(&mut self, piece: &[u8]) {
        self.bytes.drain(..self.start);
        self.start = 0;
        self.bytes.extend_from_slice(piece);
    }

    fn next(&mut self) -> Option<Vec<Vec<u8>>> {
        let mut at = self.start;
        let count = number(&self.bytes, &mut at, b'*')?;
        let mut words = Vec::new();
        for _ in 0..count {
            let length = number(&self.bytes, &mut at, b'$')?;
            let word = self.bytes.get(at..at + length)?;
            if self.bytes.len() < at + length + 2 {
                return None;
            }
            words.push(word.to_vec());
            at += length + 2;
        }
        self.start = at;
        Some(words)
    }
}

fn number(bytes: &[u8], at: &mut usize, mark: u8) -> Option<usize> {
    if *bytes.get(*at)? != mark {
        panic!("protocol fault");
    }
    let mut n = 0;
    let mut place = *at + 1;
    loop {
        match *bytes.get(place)? {
            b'\r' => break,
            digit => n = n * 10 + usize::from(digit - b'0'),
        }
        place += 1;
    }
    bytes.get(place + 1)?;
    *at = place + 2;
    Some(n)
}

fn integer(text: &[u8]) -> Option<i64> {
    std::str::from_utf8(text).ok()?.parse().ok()
}

fn answer(sets: &mut impl Sets, mut words: Vec<Vec<u8>>, out: &mut impl Write) -> io::Result<()> {
    if words[0].eq_ignore_ascii_case(b"ZADD") && words.len() == 4 {
        let member = words.pop().unwrap();
        let score = integer(&words.pop().unwrap());
        let key = words.pop().unwrap();
        let Some(score) = score else {
            return out.write_all(b"-ERR\r\n");
        };
        let added = sets.at(key).insert(member, score).is_none();
        write!(out, ":{}\r\n", u8::from(added))
    } else if words[0].eq_ignore_ascii_case(b"ZRANGEBYSCORE") && words.len() == 4 {
        let (Some(low), Some(high)) = (integer(&words[2]), integer(&words[3])) else {
            return out.write_all(b"-ERR\r\n");
        };
        let mut rows: Vec<(i64, &Vec<u8>)> = Vec::new();
        if let Some(set) = sets.find(&words[1]) {
            rows.extend(set.iter().filter(|(_, s)| low <= **s && **s <= high).map(|(m, s)| (*s, m)));
        }
        rows.sort();
        write!(out, "*{}\r\n", rows.len())?;
        for (_, member) in rows {
            write!(out, "${}\r\n", member.len())?;
            out.write_all(member)?;
            out.write_all(b"\r\n")?;
        }
        Ok(())
    } else {
        out.write_all(b"-ERR\r\n")
    }
}

fn serve<S: Sets>() -> io::Result<()> {
    let mut input = io::stdin().lock();
    let mut out = BufWriter::new(io::stdout().lock());
    let mut decoder = Decoder { bytes: Vec::new(), start: 0 };
    let mut sets = S::default();
    let mut buffer = vec![0; 16384];
    loop {
        out.flush()?;
        let n = input.read(&mut buffer)?;
        if n == 0 {
            return Ok(());
        }
        decoder.feed(&buffer[..n]);
        while let Some(words) = decoder.next() {
            answer(&mut sets, words, &mut out)?;
        }
    }
}

// ZADDs of 1,000 keys with 10 members each, and every 16th request a ZRANGEBYSCORE of one score.
fn generate(bytes: usize) -> io::Result<()> {
    let mut out = BufWriter::new(io::stdout().lock());
    let mut written = 0;
    let mut seed = 1u64;
    for i in 0u64.. {
        if written >= bytes {
            break;
        }
        seed = seed.wrapping_mul(6364136223846793005).wrapping_add(1442695040888963407);
        let (key, member, score) = ((seed >> 33) % 1000, (seed >> 43) % 10, (seed >> 53) % 100);
        let key = format!("key:{key}");
        let score = score.to_string();
        let text = if i % 16 == 15 {
            request(&["ZRANGEBYSCORE", &key, &score, &score])
        } else {
            request(&["ZADD", &key, &score, &format!("member:{member}")])
        };
        out.write_all(text.as_bytes())?;
        written += text.len();
    }
    out.flush()
}

fn request(words: &[&str]) -> String {
    let mut text = format!("*{}\r\n", words.len());
    for word in words {
        text += &format!("${}\r\n{word}\r\n", word.len());
    }
    text
}

fn main() -> io::Result<()> {
    let arguments: Vec<String> = std::env::args().collect();
    match arguments.get(1).map(String::as_str) {
        Some("generate") => generate(arguments[2].parse().expect("a number of bytes")),
        Some("hashed") => serve::<HashMap<Vec<u8>, Set>>(),
        _ => serve::<BTreeMap<Vec<u8>, Set>>(),
    }
}
