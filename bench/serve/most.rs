//! The longest that a client waits for a reply on loopback: `most WORK beside KEYS REQUESTS PORT` has it ask PING every two
//! milliseconds, beside 49 clients that pipeline 64 requests each until REQUESTS have been answered. `most WORK alone KEYS
//! REQUESTS PORT` has it ask these requests itself, one at a time, beside no other. Before that, KEYS sets of 100,000 members
//! together are loaded. A reply has to come in one piece.
//!
//! The client never sleeps, so that its own waking is no part of a wait, and a wait in which the system held it up itself is
//! left out. Prints the most of the waits in microseconds, and how many were left out.
mod work;

use std::io::{self, ErrorKind, Write};
use std::sync::atomic::{AtomicBool, Ordering};
use std::sync::{Arc, Barrier};
use std::thread;
use std::time::{Duration, Instant};
use work::{request, Connection, Plan, Random};

/// The clients that pipeline, how many requests each sends at once, and how many threads they have.
const BUSY: u64 = 49;
const PIPELINED: u64 = 64;
const THREADS: u64 = 2;

/// How long it is from one PING to the next.
const REST: Duration = Duration::from_millis(2);

/// The client was held up where it did nothing for so long.
const HELD_UP: Duration = Duration::from_micros(50);

/// A client that never sleeps.
struct Timer {
    connection: Connection,
    /// The longest wait, in microseconds, and how many waits were left out.
    most: u128,
    left_out: u64,
}

impl Timer {
    fn new(plan: &Plan) -> io::Result<Self> {
        let connection = plan.connect()?;
        connection.stream.set_nonblocking(true)?;
        Ok(Timer { connection, most: 0, left_out: 0 })
    }

    /// Asks, and notes how long it waited.
    fn ask(&mut self, text: &[u8]) -> io::Result<()> {
        let (began, mut is_held_up) = (Instant::now(), false);
        let mut last = began;
        self.connection.stream.write_all(text)?;
        loop {
            let answered = self.connection.stream.peek(&mut [0]);
            let now = Instant::now();
            is_held_up |= now - last > HELD_UP;
            last = now;
            match answered {
                Ok(_) => break,
                Err(error) if error.kind() == ErrorKind::WouldBlock => (),
                Err(error) => return Err(error),
            }
        }
        if is_held_up {
            self.left_out += 1;
        } else {
            self.most = self.most.max((last - began).as_micros());
        }
        self.connection.skip_reply()
    }

    fn print(self) {
        println!("{} {}", self.most, self.left_out);
    }
}

/// A client that asks the work's own requests, beside no other.
fn alone(plan: &Plan, requests: u64) -> io::Result<()> {
    let (mut timer, mut random, mut text) = (Timer::new(plan)?, Random(1), Vec::new());
    for _ in 0..requests {
        text.clear();
        plan.ask(&mut random, &mut text);
        timer.ask(&text)?;
    }
    timer.print();
    Ok(())
}

/// A client that asks PING beside others.
fn beside(plan: &Plan, requests: u64) -> io::Result<()> {
    let (start, is_over) = (Arc::new(Barrier::new(THREADS as usize + 1)), Arc::new(AtomicBool::new(false)));
    let (mut timer, mut ping) = (Timer::new(plan)?, Vec::new());
    request(&["PING"], &mut ping);
    timer.ask(&ping)?;
    let clients: Vec<_> = (0..THREADS)
        .map(|thread| {
            let (plan, start, is_over) = (plan.clone(), start.clone(), is_over.clone());
            thread::spawn(move || {
                let rounds = requests / BUSY / PIPELINED;
                let driven = plan.drive(thread + 1, (BUSY + thread) / THREADS, rounds, &start);
                is_over.store(true, Ordering::Relaxed);
                driven
            })
        })
        .collect();
    start.wait();
    while !is_over.load(Ordering::Relaxed) {
        let began = Instant::now();
        timer.ask(&ping)?;
        while began.elapsed() < REST {
            std::hint::spin_loop();
        }
    }
    for client in clients {
        client.join().expect("a client ends")?;
    }
    timer.print();
    Ok(())
}

fn main() -> io::Result<()> {
    let words: Vec<String> = std::env::args().skip(1).collect();
    let number = |at: usize| words[at].parse::<u64>().expect("a number");
    let (keys, requests, port) = (number(2), number(3), number(4) as u16);
    let plan = Plan { work: words[0].clone(), pipelined: PIPELINED, keys, port };
    plan.load()?;
    match words[1].as_str() {
        "alone" => alone(&plan, requests),
        "beside" => beside(&plan, requests),
        word => panic!("no {word}"),
    }
}
