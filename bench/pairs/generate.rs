// Writes ZADDs: `generate PAIRS_IN_A_REQUEST MEMBERS` gives 1,024,000 pairs whose members are drawn from so
// many names, so that few names repeat within a request.
use std::io::{self, BufWriter, Write};

fn main() -> io::Result<()> {
    let numbers: Vec<u64> = std::env::args().skip(1).map(|n| n.parse().expect("a number")).collect();
    let (pairs, members) = (numbers[0], numbers[1]);
    let mut out = BufWriter::new(io::stdout().lock());
    let mut seed = 1u64;
    for _ in 0..1_024_000 / pairs {
        write!(out, "*{}\r\n$4\r\nZADD\r\n$1\r\nk\r\n", 2 + 2 * pairs)?;
        for _ in 0..pairs {
            seed = seed.wrapping_mul(6364136223846793005).wrapping_add(1442695040888963407);
            let score = ((seed >> 33) % 1000).to_string();
            let member = format!("member:{}", (seed >> 43) % members);
            write!(out, "${}\r\n{score}\r\n${}\r\n{member}\r\n", score.len(), member.len())?;
        }
    }
    out.flush()
}
