//! Ends `zcrackd stdio --file` by SIGKILL at random moments, opens its append file again, and looks for the sets
//! among those of the prefixes of the changes that were sent: `crash_test PROGRAM FILE ROUNDS SEED`.
//!
//! In even rounds the changes are pipelined: the prefix has to hold each change whose reply came. In odd rounds
//! one change is under way at a time: it holds at most one more. Of each four rounds two sync each change alone, and
//! two many together. In every third round the records are long, so that some are cut apart. Five rounds in turn go on
//! with one file.
#[path = "../bench/client.rs"]
#[allow(dead_code)]
mod client;

use client::{Random, Reply, Server, read_reply, request};
use std::collections::BTreeMap;
use std::io::{self, Read, Write};
use std::time::{Duration, Instant};

const KEYS: u64 = 4;
const ROUNDS_OF_A_FILE: u64 = 5;

/// What the changes of a round are like: how many there are, the most pairs of one, and how many members are
/// short for one that is long.
struct Kind {
    changes: usize,
    pairs: u64,
    short: u64,
}

const SHORT: Kind = Kind { changes: 3000, pairs: 3, short: 16 };
const LONG: Kind = Kind { changes: 200, pairs: 16, short: 1 };

type World = BTreeMap<String, BTreeMap<Vec<u8>, i64>>;

/// A change, by the words of its request and by what it does to the sets.
struct Change {
    words: Vec<Vec<u8>>,
    key: String,
    put: Vec<(Vec<u8>, i64)>,
    gone: Option<Vec<u8>>,
}

impl Change {
    fn apply(&self, world: &mut World) {
        let set = world.entry(self.key.clone()).or_default();
        for (member, score) in &self.put {
            set.insert(member.clone(), *score);
        }
        if let Some(member) = &self.gone {
            set.remove(member);
        }
        if set.is_empty() {
            world.remove(&self.key);
        }
    }
}

/// A short member, or one of up to 60,000 bytes.
fn member(random: &mut Random, kind: &Kind) -> Vec<u8> {
    let mut member = format!("member:{}", random.below(60)).into_bytes();
    if random.below(kind.short) == 0 {
        member.resize(random.below(60_000) as usize + 16, b'.');
    }
    member
}

/// A change that leaves no set as it was: scores only rise, and who leaves was there.
fn change(random: &mut Random, kind: &Kind, world: &World, score: i64) -> Change {
    let key = format!("key:{}", random.below(KEYS));
    let present = world.get(&key).and_then(|set| set.keys().nth(random.below(set.len() as u64) as usize));
    if let (Some(member), 0) = (present, random.below(4)) {
        let words = vec![b"ZREM".to_vec(), key.clone().into_bytes(), member.clone()];
        return Change { words, key, put: Vec::new(), gone: Some(member.clone()) };
    }
    let put: Vec<_> = (0..random.below(kind.pairs) + 1).map(|i| (member(random, kind), score + i as i64)).collect();
    let mut words = vec![b"ZADD".to_vec(), key.clone().into_bytes()];
    for (member, score) in &put {
        words.push(score.to_string().into_bytes());
        words.push(member.clone());
    }
    Change { words, key, put, gone: None }
}

/// Changes in turn from a world, whose scores all lie above those of earlier rounds.
fn changes(random: &mut Random, world: &World, round: u64) -> Vec<Change> {
    let mut world = world.clone();
    let kind = if round % 3 == 0 { LONG } else { SHORT };
    (0..kind.changes)
        .map(|i| {
            let next = change(random, &kind, &world, ((round + 1) * 1_000_000) as i64 + 16 * i as i64);
            next.apply(&mut world);
            next
        })
        .collect()
}

/// Sends all at once and kills the server after a while; gives how many replies came.
fn crash_pipelined(server: Server, changes: &[Change], after: Duration) -> u64 {
    let mut text = Vec::new();
    changes.iter().for_each(|change| request(&change.words, &mut text));
    let mut input = server.input.unwrap();
    let mut child = server.child.unwrap();
    // The writes end with an error once the server is gone.
    let writer = std::thread::spawn(move || input.write_all(&text).and_then(|()| input.flush()));
    let killer = std::thread::spawn(move || {
        std::thread::sleep(after);
        child.kill().and_then(|()| child.wait())
    });
    let mut output = server.output;
    let mut count = 0;
    while read_reply(&mut output).is_ok() {
        count += 1;
    }
    killer.join().unwrap().expect("the server is killed");
    let _ = writer.join().unwrap();
    count
}

/// Sends a change once the one before it was answered, kills the server after a while; gives how many replies
/// came.
fn crash_in_turn(mut server: Server, changes: &[Change], after: Duration) -> u64 {
    let mut child = server.child.take().unwrap();
    let killer = std::thread::spawn(move || {
        std::thread::sleep(after);
        child.kill().and_then(|()| child.wait())
    });
    let count = changes.iter().take_while(|change| server.ask(&change.words).is_ok()).count();
    killer.join().unwrap().expect("the server is killed");
    count as u64
}

/// The sets that a server keeps after it opened the file, and whether it told of a torn end.
fn reopened(program: &str, arguments: &[String]) -> io::Result<(World, bool)> {
    let mut server = Server::start(program, arguments)?;
    let mut world = World::new();
    for index in 0..KEYS {
        let key = format!("key:{index}");
        let words = ["ZRANGEBYSCORE", &key, "-inf", "+inf", "WITHSCORES"];
        let Reply::List(list) = server.ask(&words)? else { panic!("no list") };
        let set: BTreeMap<_, _> = list
            .chunks(2)
            .map(|pair| match pair {
                [Reply::Bulk(Some(member)), Reply::Bulk(Some(score))] => {
                    (member.clone(), String::from_utf8_lossy(score).parse().unwrap())
                }
                _ => panic!("no pair"),
            })
            .collect();
        if !set.is_empty() {
            world.insert(key, set);
        }
    }
    server.input = None;
    let mut child = server.child.unwrap();
    let mut lines = String::new();
    child.stderr.take().unwrap().read_to_string(&mut lines)?;
    assert!(child.wait()?.success(), "{lines}");
    assert!(lines.is_empty() || lines.starts_with("zcrackd: torn end of "), "{lines}");
    Ok((world, !lines.is_empty()))
}

/// The length of the prefix of the changes that leads to these sets, at least `least`.
fn prefix(changes: &[Change], start: &World, least: u64, found: &World) -> Option<u64> {
    let mut world = start.clone();
    (0..=changes.len()).find_map(|count| {
        if count > 0 {
            changes[count - 1].apply(&mut world);
        }
        (count as u64 >= least && world == *found).then_some(count as u64)
    })
}

fn main() -> io::Result<()> {
    let given: Vec<String> = std::env::args().collect();
    let (program, file) = (&given[1], &given[2]);
    let (rounds, seed) = (given[3].parse::<u64>().unwrap(), given[4].parse().unwrap());
    let arguments = ["stdio", "--file", file, "--sync"].map(str::to_string);
    let mut random = Random(seed);
    let mut world = World::new();
    let (mut acknowledged, mut kept_more, mut torn_ends) = (0, 0, 0);
    let begin = Instant::now();
    for round in 0..rounds {
        if round % ROUNDS_OF_A_FILE == 0 {
            std::fs::remove_file(file).or_else(|e| if e.kind() == io::ErrorKind::NotFound { Ok(()) } else { Err(e) })?;
            world = World::new();
        }
        let sent = changes(&mut random, &world, round);
        let after = Duration::from_micros(1_000 + random.below(100_000));
        let pipelined = round % 2 == 0;
        let mode = if round / 2 % 2 == 0 { "each" } else { "group" };
        let arguments = [&arguments[..], &[mode.to_string()]].concat();
        let server = Server::start(program, &arguments)?;
        let answered =
            if pipelined { crash_pipelined(server, &sent, after) } else { crash_in_turn(server, &sent, after) };
        let (found, torn) = reopened(program, &arguments)?;
        let Some(count) = prefix(&sent, &world, answered, &found) else {
            panic!("round {round} of seed {seed}: no prefix of {answered} changes or more leads to the sets");
        };
        assert!(pipelined || count <= answered + 1, "round {round}: {answered} replies, {count} changes");
        acknowledged += answered;
        kept_more += count - answered;
        torn_ends += u64::from(torn);
        world = found;
    }
    println!(
        "{rounds} crashes in {} s: {acknowledged} changes were acknowledged and all kept, {kept_more} more were \
         kept, {torn_ends} ends were torn",
        begin.elapsed().as_secs()
    );
    Ok(())
}
