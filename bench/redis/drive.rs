//! Drives a server of sorted sets through the phases of the bench, and prints a line `PHASE NUMBER` for each:
//! nanoseconds, or bytes for the last. `drive stdio PROGRAM ARGUMENTS..` starts a server on pipes,
//! `drive tcp PORT PID` talks to one on loopback. With CURVE=FILE the times of the ZCOUNTs go there too.
#[path = "../client.rs"]
#[allow(dead_code)]
mod client;

use client::{Random, Server, request};
use std::io;

const MEMBERS: u64 = 1_000_000;
const SCORES: u64 = 100_000_000;

fn resident(pid: u32) -> io::Result<u64> {
    let status = std::fs::read_to_string(format!("/proc/{pid}/status"))?;
    let line = status.lines().find(|l| l.starts_with("VmRSS:")).unwrap();
    Ok(line.split_whitespace().nth(1).unwrap().parse::<u64>().unwrap() * 1024)
}

fn updates(random: &mut Random, count: u64) -> Vec<u8> {
    let mut text = Vec::new();
    for _ in 0..count {
        let score = random.below(SCORES).to_string();
        let member = format!("member:{}", random.below(MEMBERS));
        request(&["ZADD", "board", &score, &member], &mut text);
    }
    text
}

/// The median time of five of the same request.
fn median_of_five(server: &mut Server, words: &[&str]) -> io::Result<u128> {
    let mut times = (0..5).map(|_| server.time(words)).collect::<io::Result<Vec<_>>>()?;
    times.sort();
    Ok(times[2])
}

/// 1,000 ZCOUNTs at random bounds, one by one, and then all of them again.
fn counts(server: &mut Server, random: &mut Random) -> io::Result<()> {
    let mut bounds = Vec::new();
    let mut times = Vec::new();
    for _ in 0..1000 {
        let low = random.below(SCORES);
        let high = low + random.below(SCORES - low);
        bounds.push((low.to_string(), high.to_string()));
        let (low, high) = bounds.last().unwrap();
        times.push(server.time(&["ZCOUNT", "board", low, high])?);
    }
    for number in [1, 10, 100, 1000] {
        println!("zcount_{number} {}", times[number - 1]);
    }
    println!("zcounts_together {}", times.iter().sum::<u128>());
    if let Ok(file) = std::env::var("CURVE") {
        let lines: String =
            times.iter().enumerate().map(|(i, time)| format!("{} {}\n", i + 1, *time as f64 / 1000.0)).collect();
        std::fs::write(file, lines)?;
    }
    let mut again = 0;
    for (low, high) in &bounds {
        again += server.time(&["ZCOUNT", "board", low, high])?;
    }
    println!("zcounts_again {again}");
    Ok(())
}

fn main() -> io::Result<()> {
    let arguments: Vec<String> = std::env::args().collect();
    let mut server = Server::of_arguments(&arguments[1..])?;
    let mut random = Random(7);
    let before = resident(server.pid)?;
    let mut text = Vec::new();
    for member in 0..MEMBERS {
        let score = random.below(SCORES).to_string();
        request(&["ZADD", "board", &score, &format!("member:{member}")], &mut text);
    }
    println!("load {}", server.pipelined(text, MEMBERS)?);
    let after = resident(server.pid)?;
    let mut text = Vec::new();
    for _ in 0..100_000 {
        request(&["ZSCORE", "board", &format!("member:{}", random.below(MEMBERS))], &mut text);
    }
    println!("zscore {}", server.pipelined(text, 100_000)?);
    let last = (MEMBERS - 10).to_string();
    let best = ["ZRANGEBYSCORE", "board", "-inf", "+inf", "LIMIT", &last, "10"];
    println!("ten_best_before_ranges {}", median_of_five(&mut server, &best)?);
    println!("updates_before_ranges {}", server.pipelined(updates(&mut random, 10_000), 10_000)?);
    counts(&mut server, &mut random)?;
    println!("updates_after_ranges {}", server.pipelined(updates(&mut random, 10_000), 10_000)?);
    let mut hundred = 0;
    for _ in 0..200 {
        let low = random.below(SCORES - 10_000);
        let high = (low + 100 * SCORES / MEMBERS).to_string();
        hundred += server.time(&["ZRANGEBYSCORE", "board", &low.to_string(), &high])?;
    }
    println!("ranges_of_100 {hundred}");
    println!("ten_best {}", median_of_five(&mut server, &best)?);
    println!("bytes_a_member {}", (after - before) / MEMBERS);
    Ok(())
}
