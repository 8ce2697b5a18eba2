//! Drives the bench of append files. `drive changes COUNT` writes COUNT requests, each of which changes a set, to
//! standard output, `drive counters COUNT` such as counters and best scores are kept by. `drive run IN_TURN PIPELINED stdio|tcp ..` sends the first IN_TURN changes one by one and
//! PIPELINED more at once, and prints `in_turn` and `pipelined` with the changes a second of each. `drive loaded
//! BEGIN tcp PORT PID` waits until a Redis that was started at BEGIN (nanoseconds since 1970) answers, and
//! `drive reload PROGRAM ARGUMENTS..` starts a server on pipes and waits until it answers: each prints the
//! milliseconds that passed and the number of members of the sets.
#[path = "../client.rs"]
#[allow(dead_code)]
mod client;

use client::{Random, Reply, Server, request};
use std::io::{self, Write};
use std::time::{Duration, Instant, SystemTime, UNIX_EPOCH};

const KEYS: u64 = 10;
const MEMBERS: u64 = 100_000;

/// The change of a number: its score is the number, so that it leaves no set as it was.
fn change(random: &mut Random, number: u64, text: &mut Vec<u8>) {
    let key = format!("key:{}", random.below(KEYS));
    let member = format!("member:{}", random.below(MEMBERS));
    request(&["ZADD", &key, &number.to_string(), &member], text);
}

fn changes(random: &mut Random, from: u64, count: u64) -> Vec<u8> {
    let mut text = Vec::new();
    (from..from + count).for_each(|number| change(random, number, &mut text));
    text
}

/// Changes by INCR, GT and XX in turn, of few members: whatever they ask for, each leaves one member with another score.
fn counters(count: u64) -> Vec<u8> {
    let mut text = Vec::new();
    for number in 0..count {
        let member = format!("player:{}", number / 3 % 1000);
        let score = (number + 1).to_string();
        match number % 3 {
            0 => request(&["ZADD", "board", "INCR", "1", &member], &mut text),
            1 => request(&["ZADD", "board", "GT", "CH", &score, &member], &mut text),
            _ => request(&["ZADD", "board", "XX", "CH", &score, &member], &mut text),
        }
    }
    text
}

fn run(in_turn: u64, pipelined: u64, server: &[String]) -> io::Result<()> {
    let mut server = Server::of_arguments(server)?;
    let mut random = Random(7);
    let begin = Instant::now();
    for number in 0..in_turn {
        let mut text = Vec::new();
        change(&mut random, number, &mut text);
        server.pipelined(text, 1)?;
    }
    println!("in_turn {:.0}", in_turn as f64 / begin.elapsed().as_secs_f64());
    let time = server.pipelined(changes(&mut random, in_turn, pipelined), pipelined)?;
    println!("pipelined {:.0}", pipelined as f64 * 1e9 / time as f64);
    Ok(())
}

/// The number of members of all sets, once the server answers with them.
fn members(server: &mut Server) -> io::Result<u64> {
    let mut sum = 0;
    for index in 0..KEYS {
        loop {
            match server.ask(&["ZCARD", &format!("key:{index}")])? {
                Reply::Line(line) if line.starts_with(':') => {
                    sum += line[1..].parse::<u64>().unwrap();
                    break;
                }
                // It is still loading.
                _ => std::thread::sleep(Duration::from_millis(1)),
            }
        }
    }
    Ok(sum)
}

fn print_loaded(milliseconds: u128, members: u64) {
    println!("reload {milliseconds}\nmembers {members}");
}

fn main() -> io::Result<()> {
    let given: Vec<String> = std::env::args().collect();
    let number = |index: usize| given[index].parse::<u64>().unwrap();
    match given[1].as_str() {
        "changes" => io::stdout().write_all(&changes(&mut Random(7), 0, number(2))),
        "counters" => io::stdout().write_all(&counters(number(2))),
        "run" => run(number(2), number(3), &given[4..]),
        "reload" => {
            let begin = Instant::now();
            let mut server = Server::start(&given[2], &given[3..])?;
            let members = members(&mut server)?;
            print_loaded(begin.elapsed().as_millis(), members);
            Ok(())
        }
        _ => {
            let begin = UNIX_EPOCH + Duration::from_nanos(number(2));
            let mut server = loop {
                match Server::of_arguments(&given[3..]) {
                    Ok(server) => break server,
                    Err(_) => std::thread::sleep(Duration::from_millis(1)),
                }
            };
            let members = members(&mut server)?;
            let time = SystemTime::now().duration_since(begin).expect("it began before");
            print_loaded(time.as_millis(), members);
            Ok(())
        }
    }
}
