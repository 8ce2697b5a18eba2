//! Clients of a server of sorted sets on loopback, each on a connection of its own:
//! `drive WORK CONNECTIONS PIPELINED KEYS REQUESTS PORT PID [THREADS]`. Up to four threads share the connections. Each
//! thread sends PIPELINED requests on each of its connections, reads the replies of all, and so on, until REQUESTS have
//! been answered. Before that, KEYS sets of 100,000 members together are loaded, and all requests are written down, so that
//! the clients take little of the processors meanwhile.
//!
//! Prints the requests a second, and the processor time of the server a request in nanoseconds. Where THREADS are given, so
//! many share the connections at most, and beside them a quiet client sends a PING every two milliseconds; how many
//! microseconds it waited for the replies is printed too: the median, the 99th percentile, and the most.
mod work;

use std::io::{self, Write};
use std::sync::atomic::{AtomicBool, Ordering};
use std::sync::{Arc, Barrier};
use std::thread::{self, JoinHandle};
use std::time::{Duration, Instant};
use work::{request, Plan};

/// The most threads of the clients, where none are given.
const THREADS: u64 = 4;

/// How long the quiet client rests before each PING.
const REST: Duration = Duration::from_millis(2);

/// A client that asks seldom, until it is ended.
struct Quiet {
    is_over: Arc<AtomicBool>,
    client: JoinHandle<io::Result<Vec<u128>>>,
}

impl Quiet {
    /// One that has been answered once, and goes on asking from the start on.
    fn new(plan: &Plan, start: Arc<Barrier>) -> io::Result<Self> {
        let (mut connection, is_over) = (plan.connect()?, Arc::new(AtomicBool::new(false)));
        let ends = is_over.clone();
        let client = thread::spawn(move || {
            let (mut ping, mut waits) = (Vec::new(), Vec::new());
            request(&["PING"], &mut ping);
            connection.stream.write_all(&ping)?;
            connection.skip_reply()?;
            start.wait();
            while !ends.load(Ordering::Relaxed) {
                thread::sleep(REST);
                let began = Instant::now();
                connection.stream.write_all(&ping)?;
                connection.skip_reply()?;
                waits.push(began.elapsed().as_micros());
            }
            Ok(waits)
        });
        Ok(Quiet { is_over, client })
    }

    /// How many microseconds it waited: the median, the 99th percentile, and the most.
    fn end(self) -> io::Result<[u128; 3]> {
        self.is_over.store(true, Ordering::Relaxed);
        let mut waits = self.client.join().expect("the quiet client ends")?;
        waits.sort_unstable();
        Ok([50, 99, 100].map(|hundredths| waits[(waits.len() - 1) * hundredths / 100]))
    }
}

/// The processor time of a process, in nanoseconds.
fn processor_time(pid: u32) -> io::Result<u64> {
    let stat = std::fs::read_to_string(format!("/proc/{pid}/stat"))?;
    let fields: Vec<&str> = stat[stat.rfind(')').unwrap_or(0)..].split(' ').collect();
    let ticks: u64 = [12, 13].iter().map(|&at| fields[at].parse::<u64>().unwrap_or(0)).sum();
    Ok(ticks * 10_000_000)
}

fn main() -> io::Result<()> {
    let words: Vec<String> = std::env::args().skip(1).collect();
    let number = |at: usize| words[at].parse::<u64>().expect("a number");
    let (connections, requests, pid) = (number(1), number(4), number(6) as u32);
    let plan = Plan { work: words[0].clone(), pipelined: number(2), keys: number(3), port: number(5) as u16 };
    plan.load()?;
    let given = words.get(7).map(|_| number(7));
    let threads = connections.min(given.unwrap_or(THREADS));
    let start = Arc::new(Barrier::new(threads as usize + 1 + usize::from(given.is_some())));
    let rounds = requests / connections / plan.pipelined;
    let clients: Vec<_> = (0..threads)
        .map(|thread| {
            let (plan, start) = (plan.clone(), start.clone());
            let own = (connections + thread) / threads;
            thread::spawn(move || plan.drive(thread + 1, own, rounds, &start))
        })
        .collect();
    let quiet = given.map(|_| Quiet::new(&plan, start.clone())).transpose()?;
    start.wait();
    let (began, before) = (Instant::now(), processor_time(pid)?);
    for client in clients {
        client.join().expect("a client ends")?;
    }
    let (seconds, used) = (began.elapsed().as_secs_f64(), processor_time(pid)? - before);
    let answered = rounds * plan.pipelined * connections;
    print!("{:.0} {}", answered as f64 / seconds, used / answered);
    if let Some(quiet) = quiet {
        let [median, most_of_hundred, most] = quiet.end()?;
        print!(" {median} {most_of_hundred} {most}");
    }
    println!();
    Ok(())
}
