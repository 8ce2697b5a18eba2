//! Drives a server of sorted sets through one piece of everyday work and prints a line `WORK NUMBER`: nanoseconds of
//! the server's processor time a command, or bytes a member. `drive WORK MEMBERS SEED pair PROGRAM ARGUMENTS..`
//! starts a server on a pair of Unix sockets, `drive WORK MEMBERS SEED unix PATH PID` talks to one on a Unix socket.
#[path = "../client.rs"]
#[allow(dead_code)]
mod client;

use client::{Random, Server, request};
use std::collections::BTreeSet;
use std::io;

const SCORES: u64 = 100_000_000;

/// The nanoseconds that the server's one thread has run.
fn processor_time(pid: u32) -> io::Result<u128> {
    let text = std::fs::read_to_string(format!("/proc/{pid}/schedstat"))?;
    Ok(text.split_whitespace().next().unwrap().parse().unwrap())
}

fn resident(pid: u32) -> io::Result<u64> {
    let status = std::fs::read_to_string(format!("/proc/{pid}/status"))?;
    let line = status.lines().find(|l| l.starts_with("VmRSS:")).unwrap();
    Ok(line.split_whitespace().nth(1).unwrap().parse::<u64>().unwrap() * 1024)
}

struct Work {
    random: Random,
    members: u64,
    requests: Vec<u8>,
    count: u64,
    /// The jobs of a schedule, by their times and numbers.
    jobs: BTreeSet<(u64, u64)>,
}

impl Work {
    fn put(&mut self, words: &[&str]) {
        request(words, &mut self.requests);
        self.count += 1;
    }

    fn member(&mut self) -> String {
        format!("member:{:06}", self.random.below(self.members))
    }

    fn score(&mut self, scores: u64) -> String {
        self.random.below(scores).to_string()
    }

    fn update(&mut self, scores: u64) {
        let (score, member) = (self.score(scores), self.member());
        self.put(&["ZADD", "board", &score, &member]);
    }

    fn count_at_new_bounds(&mut self) {
        let low = self.random.below(SCORES);
        let high = low + self.random.below(SCORES - low);
        self.put(&["ZCOUNT", "board", &low.to_string(), &high.to_string()]);
    }

    /// A range of some members in the middle of nowhere.
    fn range_of(&mut self, members: u64) {
        let width = members * SCORES / self.members;
        let low = self.random.below(SCORES - width);
        self.put(&["ZRANGEBYSCORE", "board", &low.to_string(), &(low + width).to_string()]);
    }

    /// Removes a range of some members in the middle of nowhere.
    fn remove_range_of(&mut self, members: u64) {
        let width = members * SCORES / self.members;
        let low = self.random.below(SCORES - width + 1);
        self.put(&["ZREMRANGEBYSCORE", "board", &low.to_string(), &(low + width).to_string()]);
        if members <= PUT_BACK {
            self.put_back(members, low, width);
        }
    }

    /// Puts as many members back as left, in one ZADD, so that the set stays as it is.
    fn put_back(&mut self, members: u64, low: u64, width: u64) {
        let mut words = vec!["ZADD".to_string(), "board".to_string()];
        for _ in 0..members {
            words.push((low + self.random.below(width)).to_string());
            words.push(format!("back:{:09}", self.random.below(1_000_000_000)));
        }
        self.put(&words.iter().map(String::as_str).collect::<Vec<_>>());
    }

    /// One turn of a rate limiter with a window of all members: a request comes, old ones go, the others are counted.
    fn limit_rate(&mut self, now: u64) {
        self.put(&["ZADD", "board", &now.to_string(), &format!("request:{now}")]);
        self.put(&["ZREMRANGEBYSCORE", "board", "-inf", &(now - self.members).to_string()]);
        self.put(&["ZCARD", "board"]);
    }

    /// The requests of a rate limiter's window, each at a time of its own.
    fn load_window(&mut self) {
        for now in 0..self.members {
            self.put(&["ZADD", "board", &now.to_string(), &format!("request:{now}")]);
        }
    }

    fn put_job(&mut self, time: u64, number: u64) {
        self.put(&["ZADD", "board", &time.to_string(), &format!("job:{number}")]);
        self.jobs.insert((time, number));
    }

    /// The jobs of a schedule, each at a random time.
    fn load_jobs(&mut self) {
        for number in 0..self.members {
            let time = self.random.below(self.members);
            self.put_job(time, number);
        }
    }

    /// One turn of a schedule: a job comes for a random time, those that are due are listed and taken. What is due is
    /// asked for by the time, or is seen among the ten lowest.
    fn take_what_is_due(&mut self, now: u64, by_time: bool) {
        let time = now + 1 + self.random.below(self.members);
        self.put_job(time, self.members + now);
        match by_time {
            true => self.put(&["ZRANGEBYSCORE", "board", "-inf", &now.to_string(), "LIMIT", "0", "10"]),
            false => self.put(&["ZRANGEBYSCORE", "board", "-inf", "+inf", "WITHSCORES", "LIMIT", "0", "10"]),
        }
        for _ in 0..10 {
            match self.jobs.first() {
                Some(&(time, number)) if time <= now => self.put(&["ZREM", "board", &format!("job:{number}")]),
                _ => break,
            }
            self.jobs.pop_first();
        }
    }

    /// Pages of 100 of a time index, each behind the last one's last time, while new times come.
    fn read_pages(&mut self) {
        let mut last = self.random.below(self.members);
        for page in 0..1000 {
            let now = self.members + page;
            self.put(&["ZADD", "board", &now.to_string(), &format!("request:{now}")]);
            self.put(&["ZRANGEBYSCORE", "board", &format!("({last}"), "+inf", "LIMIT", "0", "100"]);
            last = if last + 100 < self.members { last + 100 } else { self.random.below(self.members) };
        }
    }

    /// The same pages by how many members stand before them.
    fn read_pages_by_offset(&mut self) {
        for page in 0..1000 {
            let now = self.members + page;
            self.put(&["ZADD", "board", &now.to_string(), &format!("request:{now}")]);
            let offset = (100 * page) % self.members;
            self.put(&["ZRANGEBYSCORE", "board", "-inf", "+inf", "LIMIT", &offset.to_string(), "100"]);
        }
    }

    /// One of a mix: half updates and new scores, a quarter reads of a score, the rest removals, counts and ranges.
    fn one_of_a_mix(&mut self) {
        let member = self.member();
        match self.random.below(20) {
            0..=9 => self.update(SCORES),
            10..=14 => self.put(&["ZSCORE", "board", &member]),
            15 | 16 => self.put(&["ZREM", "board", &member]),
            17 => self.count_at_new_bounds(),
            _ => self.range_of(50),
        }
    }

    fn load(&mut self, scores: u64, padding: &str) {
        for member in 0..self.members {
            let score = self.score(scores);
            self.put(&["ZADD", "board", &score, &format!("member:{member:06}{padding}")]);
        }
    }

    fn load_small_sets(&mut self) {
        for member in 0..self.members {
            let score = self.score(SCORES);
            self.put(&["ZADD", &format!("board:{}", member / 50), &score, &format!("member:{member:06}")]);
        }
    }

    /// Takes a member out, and counts those that are left: no more than one waits to go.
    fn remove_and_count(&mut self) {
        let member = self.member();
        self.put(&["ZREM", "board", &member]);
        self.put(&["ZCOUNT", "board", "-inf", "+inf"]);
    }

    /// Changes the scores of 40 members with long names, and counts between new bounds.
    fn change_some_and_count(&mut self) {
        for _ in 0..40 {
            let (score, member) = (self.score(SCORES), self.member());
            self.put(&["ZADD", "board", &score, &format!("{member}{PADDING}")]);
        }
        self.count_at_new_bounds();
    }

    /// Sends what was put, and gives the processor time of the server and the number of commands.
    fn send(&mut self, server: &mut Server) -> io::Result<(u128, u64)> {
        let before = processor_time(server.pid)?;
        server.pipelined(std::mem::take(&mut self.requests), self.count)?;
        let time = processor_time(server.pid)? - before;
        Ok((time, std::mem::take(&mut self.count)))
    }
}

/// How often an update and a read take turns, and how often a rate limiter is asked.
const TURNS: u64 = 10_000;

/// The turns of a work: a hundred where the first ones of a set are measured.
fn turns_of(name: &str) -> u64 {
    if name.starts_with("first_") { 100 } else { TURNS }
}

/// What makes a name too long to stand in a row.
const PADDING: &str = "________________";

/// How many members are removed by ranges, in all.
const REMOVED: u64 = 200_000;

/// Where no more than so many leave at once as many are put back.
const PUT_BACK: u64 = 500;

/// How often one member is changed where members share scores: enough for the pending lists to be merged.
const CHANGES: u64 = 10_000;

/// Puts the requests of the work behind those that load the set.
fn put_work(work: &mut Work, name: &str) {
    for _ in 0..100_000.min(10 * work.members) {
        match name {
            "updates" | "updates_after_ranges" => work.update(SCORES),
            "mix" => work.one_of_a_mix(),
            "zscore" => {
                let member = work.member();
                work.put(&["ZSCORE", "board", &member]);
            }
            _ => break,
        }
    }
    for _ in 0..turns_of(name) {
        match name.trim_start_matches("first_") {
            "update_and_top_ten" => {
                work.update(SCORES);
                work.put(&["ZRANGEBYSCORE", "board", "-inf", "+inf", "WITHSCORES", "LIMIT", "0", "10"]);
            }
            "update_and_rank" => {
                work.update(SCORES);
                work.put(&["ZCOUNT", "board", "-inf", &(SCORES / 2).to_string()]);
            }
            _ => break,
        }
    }
    for _ in 0..CHANGES {
        match name {
            "counters_by_incr" => {
                let member = work.member();
                work.put(&["ZADD", "board", "INCR", "1", &member]);
            }
            "two_scores" => work.update(2),
            "ten_scores" => work.update(10),
            "hundred_scores" => work.update(100),
            _ => break,
        }
    }
    if name.starts_with("ranges_of_100") {
        (0..1000).for_each(|_| work.range_of(100));
    }
    if name == "rate_limiter" {
        (0..TURNS).for_each(|turn| work.limit_rate(work.members + turn));
    }
    if name.starts_with("schedule") {
        (0..TURNS).for_each(|turn| work.take_what_is_due(turn, name == "schedule_by_time"));
    }
    if name == "pages_of_100" {
        work.read_pages();
    }
    if name == "pages_by_offset" {
        work.read_pages_by_offset();
    }
    if name == "emptied" {
        work.put(&["ZREMRANGEBYSCORE", "board", "-inf", "+inf"]);
    }
    if let Some(members) = name.strip_prefix("removals_of_") {
        let members = members.parse().unwrap();
        (0..REMOVED / members).for_each(|_| work.remove_range_of(members));
    }
    if name == "removals_at_one_score" {
        (0..1000).for_each(|_| work.remove_and_count());
    }
    if name == "first_changes_and_counts" {
        (0..20).for_each(|_| work.change_some_and_count());
    }
    if name == "1000_counts_at_new_bounds" {
        (0..1000).for_each(|_| work.count_at_new_bounds());
    }
}

/// What is done to the set before the work is measured.
fn prepare(work: &mut Work, server: &mut Server, name: &str) -> io::Result<()> {
    match name {
        "counters_by_incr" | "removals_at_one_score" => work.load(1, ""),
        "first_changes_and_counts" => work.load(SCORES, PADDING),
        "two_scores" => work.load(2, ""),
        "ten_scores" => work.load(10, ""),
        "hundred_scores" => work.load(100, ""),
        "rate_limiter" | "pages_of_100" | "pages_by_offset" => work.load_window(),
        "schedule_by_time" | "schedule_by_lowest" => work.load_jobs(),
        _ => work.load(SCORES, ""),
    }
    if name.ends_with("_after_ranges") || name.starts_with("ranges_of_100") {
        (0..1000).for_each(|_| work.count_at_new_bounds());
    }
    if name.ends_with("update_and_top_ten") {
        work.put(&["ZRANGEBYSCORE", "board", "-inf", "+inf", "WITHSCORES", "LIMIT", "0", "10"]);
    }
    work.send(server).map(|_| ())
}

fn main() -> io::Result<()> {
    let arguments: Vec<String> = std::env::args().collect();
    let name = arguments[1].as_str();
    let mut server = Server::of_arguments(&arguments[4..])?;
    let (members, seed) = (arguments[2].parse().unwrap(), arguments[3].parse().unwrap());
    let mut work = Work { random: Random(seed), members, requests: Vec::new(), count: 0, jobs: BTreeSet::new() };
    // A first command, so that the program's own pages are not counted as members' bytes.
    work.put(&["ZADD", "other", "1", "member"]);
    work.send(&mut server)?;
    let before = resident(server.pid)?;
    match name {
        "load" => work.load(SCORES, ""),
        "bytes_of_13" => work.load(SCORES, ""),
        "bytes_of_200" => work.load(SCORES, &"x".repeat(187)),
        "bytes_in_sets_of_50" => work.load_small_sets(),
        _ => {
            prepare(&mut work, &mut server, name)?;
            put_work(&mut work, name);
        }
    }
    let again = work.requests.clone();
    let (mut time, count) = work.send(&mut server)?;
    if name == "ranges_of_100_again" {
        (work.requests, work.count) = (again, count);
        time = work.send(&mut server)?.0;
    }
    match name.starts_with("bytes") {
        true => println!("{name} {}", (resident(server.pid)? - before) / members),
        false => println!("{name} {}", time / u128::from(count)),
    }
    Ok(())
}
